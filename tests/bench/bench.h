/* What the parts of the bench share. */
#ifndef BENCH_H
#define BENCH_H

#include "lcf.h"

/* Wheels have 20 to 127 teeth; of random ratios there are fewer than of these pairs. */
enum { TEETH_FROM = 20, TEETH_TO = 127, WHEELS = (TEETH_TO - TEETH_FROM + 1) * (TEETH_TO - TEETH_FROM + 1) };
enum { RANDOM = 10000, KEYS = WHEELS, STEPS = KEYS * 47 };

/* The calls as the proved library has them and as plain C has them, and calls that do nothing: what these take is the
   counting loop's own. All are reached in the same way. */
struct side {
    const char *name;
    struct lcf_written (*write_column)(uint32_t, uint32_t, uint8_t *, size_t);
    struct lcf_written (*write_text)(uint32_t, uint32_t, uint8_t *, size_t);
    struct lcf_ratio (*read_column)(const uint8_t *, size_t);
    struct lcf_ratio (*read_text)(const uint8_t *, size_t);
    struct lcf_standing (*compare)(const uint8_t *, size_t, const uint8_t *, size_t);
    struct lcf_text (*cut)(const uint8_t *, size_t, size_t, uint8_t *, size_t);
    struct lcf_started (*start)(const uint8_t *, size_t);
    struct lcf_stepped (*step)(const uint8_t *, size_t, struct lcf_place);
    struct lcf_stocked (*stock_put)(void *, size_t, size_t, uint32_t, uint32_t, uint32_t);
    struct lcf_stocked (*stock_take)(void *, size_t, size_t, uint32_t, uint32_t, uint32_t);
    struct lcf_found (*stock_find)(const void *, size_t, size_t, uint32_t, uint32_t);
    struct lcf_listed (*stock_from)(const void *, size_t, size_t, uint32_t, uint32_t);
};

enum { PROVED, PLAIN, EMPTY, SIDES };
extern const struct side sides[SIDES];

/* What one side gives and leaves. */
struct answers {
    struct lcf_written write_column[KEYS], write_text[KEYS];
    struct lcf_ratio read_column[KEYS], read_text[KEYS];
    struct lcf_standing compare[KEYS], compare_near[KEYS];
    struct lcf_text cut[KEYS];
    struct lcf_started start[KEYS];
    struct lcf_stepped step[STEPS];
    uint8_t column[KEYS][LCF_COLUMN_BYTES], text[KEYS][LCF_TEXT_BYTES], cut_text[KEYS][LCF_TEXT_BYTES];
};

/* Whether two sides agree on count keys and all their steps. */
bool same_answers(const struct answers *a, const struct answers *b, size_t count, size_t steps);

/* Small tables have so few rows, and there are so many calls, that each row of the large one is in one of them. */
enum { FEW_ROWS = 16, STOCK_CALLS = LCF_ROWS_MOST / FEW_ROWS };

/* What one side gives of a stock table, and the tables that it leaves, one a call. They are aligned, since what the C
   library's memmove takes goes by where memory stands. */
struct stock_answers {
    struct lcf_stocked stocked[STOCK_CALLS];
    struct lcf_found found[STOCK_CALLS];
    struct lcf_listed listed[STOCK_CALLS];
    _Alignas(64) struct lcf_row table[STOCK_CALLS][LCF_ROWS_MOST];
};

bool same_stock_answers(const struct stock_answers *a, const struct stock_answers *b);

/* Between the two the emulator's plugin counts what is executed; it ends the line that the first begins. */
void count_from_here(const char *row, const char *set, const char *side, size_t calls, const char *bar);
void count_to_here(void);

/* Counts sorting; false where two orders differ. */
bool count_sorts(void);

/* Counts the calls of a stock table; false where the two sides differ. */
bool count_stocks(void);

/* The same numbers on every machine. */
uint64_t random_number(void);

#endif
