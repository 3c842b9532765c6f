/* Ratio keys that sort: the lexicographic continued fraction keys of Matula and Kornerup (1983), for ratios of 32-bit
   numbers, as text of the characters 0 and 1 and as a column of 12 bytes; and a table of stock in ratio order. The
   archive liblcf.a is for x86-64 Linux, on x86-64-v2.

   Every call takes any numbers, keys and lengths, checks them itself, and ends. An answer begins with `refusal`: 0
   where the call succeeded, else the first number in the call's order that applies. A refused call has changed nothing,
   and its other values are 0 (a step's place excepted, see lcf_step).

   Keys have no zero byte at their end: their length is handed over beside them. A key, buffer or table of length n is n
   bytes that the caller may read, or write; `out` overlaps no key of the same call. Where the length is 0 the pointer
   may be NULL. The calls keep nothing and share nothing, so any number of threads may call at once. */
#ifndef LCF_H
#define LCF_H

#include <stdbool.h>
#include <stddef.h>
#include <stdint.h>

#ifdef __cplusplus
extern "C" {
#endif

#define LCF_TEXT_BYTES 96   /* room that a text key asks for */
#define LCF_COLUMN_BYTES 12 /* a column's size, and the room that it asks for */
#define LCF_ROWS_MOST 2048  /* the most rows that a table has room for */

enum lcf_refusal {
    LCF_OK = 0,
    LCF_ZERO_DENOMINATOR = 1,
    LCF_SHORT_BUFFER = 2,
    LCF_EMPTY_KEY = 3,
    LCF_LONG_KEY = 4,
    LCF_STRANGE_CHARACTER = 5,
    LCF_LAST_ZERO = 6,
    LCF_OUT_OF_RANGE = 7,
    LCF_OUTSIDE = 8,
    LCF_WRONG_COLUMN = 9,
    LCF_MALFORMED_LINE = 10, /* by the ratio lister alone */
    LCF_TABLE_FULL = 11,
    LCF_NO_SUCH_RATIO = 12,
    LCF_LARGE_SUM = 13,
    LCF_TOO_FEW = 14,
    LCF_NO_QUANTITY = 15,
    LCF_UNSOUND_TABLE = 16
};

/* A refusal's number as a sentence for a person. */
static inline const char *lcf_refusal_text(uint32_t number) {
    static const char *const sentences[] = {
        "The call succeeded.",
        "The denominator is 0: a ratio needs one of 1 to 4294967295.",
        "The memory has the wrong size: lend 96 bytes for a text key, 12 for a column, 1 to 2048 rows for a table.",
        "The key is empty: a key has 1 to 96 characters, and zero's is the single 0.",
        "The key has more than 96 characters: check that it is one key, without spaces.",
        "The key has a character that is neither 0 nor 1: check it against the original.",
        "The key ends in 0: a key ends in 1, or is the single 0; zeros at its end were added.",
        "The value is out of range: numerator, denominator and quotients go to 4294967295.",
        "The width is not 1 to 96, or the place is not one with 1 to 160 characters used.",
        "The column does not have exactly 12 bytes: check that it was stored as bytes and not as text.",
        "The line is no ratio: write 1 to 10 digits, a slash and 1 to 10 digits.",
        "The table is full: lend memory for more rows, up to 2048, or take a ratio out first.",
        "The table has no row of that ratio: check the two numbers, or list the rows from that ratio on.",
        "The row would hold more than 4294967295: put in less.",
        "The row holds fewer than that: take out at most what finding it gives.",
        "The quantity is 0: put in or take out at least 1.",
        "The used rows are not a table's, or there is no room for so many: check the count, or fill the table anew.",
    };
    return number < sizeof sentences / sizeof *sentences ? sentences[number]
                                                        : "The number is none of this library's refusals.";
}

struct lcf_written {
    uint32_t refusal;
    uint32_t quotients; /* written; a leading quotient 0 isn't, and zero has none */
    size_t characters;  /* of the key, also where it was written as a column */
};

struct lcf_ratio {
    uint32_t refusal;
    uint32_t numerator, denominator; /* in lowest terms */
};

struct lcf_text {
    uint32_t refusal;
    size_t characters; /* written at the front of the buffer */
};

struct lcf_column {
    uint32_t refusal;
};

enum lcf_order { LCF_BEFORE = 1, LCF_SAME = 2, LCF_AFTER = 3 };

struct lcf_standing {
    uint32_t refusal;
    uint32_t standing; /* of the first key: LCF_BEFORE, LCF_SAME or LCF_AFTER the second; 0 where refused */
};

/* A place in a key: how many characters are used, and whether the word due there is a turned one. */
struct lcf_place {
    size_t used;
    bool turned;
};

struct lcf_started {
    uint32_t refusal;
    struct lcf_place place;
};

struct lcf_stepped {
    uint32_t refusal;
    uint32_t quotient;
    bool found; /* false at the end of the key, where there is no quotient */
    struct lcf_place place;
};

/* A row of a stock table: a ratio in lowest terms and how many there are of it. A table is an array of rows; lend it as
   it is, with its size in bytes. Its used rows stand at the front, lowest ratio first, no ratio twice. */
struct lcf_row {
    uint32_t numerator, denominator, quantity;
};

/* Where a call refuses, `used` is 0 like all else: keep the count that you had. */
struct lcf_stocked {
    uint32_t refusal;
    uint32_t quantity; /* that the ratio has now; 0 where its row went */
    size_t used;       /* rows used now */
    size_t row;        /* the index at which the ratio's row stands, or stood before it went */
};

struct lcf_found {
    uint32_t refusal;
    uint32_t quantity;
    size_t row;
};

struct lcf_listed {
    uint32_t refusal;
    uint32_t numerator, denominator, quantity; /* of the row */
    size_t row;
    bool found; /* false where every row is below the ratio; all else is 0 then */
};

/* Writes the key of numerator/denominator as text at the front of out, and gives its characters and quotients. Refuses
   by 1 denominator 0, 2 length under 96. Changes the key's own bytes and no other. */
struct lcf_written lcf_write_text(uint32_t numerator, uint32_t denominator, uint8_t *out, size_t length);

/* Writes the same key as a column, and gives the same two counts. Refuses by 1 denominator 0, 2 length under 12.
   Changes the first 12 bytes of out and no other. */
struct lcf_written lcf_write_column(uint32_t numerator, uint32_t denominator, uint8_t *out, size_t length);

/* Gives the ratio of a text key in lowest terms. Refuses by 3 empty, 4 over 96 characters, 5 a character neither 0 nor
   1, 6 last character 0 in a key other than 0, 7 numerator or denominator above 4294967295. */
struct lcf_ratio lcf_read_text(const uint8_t *key, size_t length);

/* Gives the ratio of a column in lowest terms; twelve zero bytes are zero. Refuses by 9 length not 12, 7 numerator or
   denominator above 4294967295. */
struct lcf_ratio lcf_read_column(const uint8_t *column, size_t length);

/* Writes a column's key as text at the front of out, and gives its characters. Refuses by 9 column_length not 12, 2
   length under 96. Changes the key's own bytes and no other; range isn't looked at. */
struct lcf_text lcf_column_to_text(const uint8_t *column, size_t column_length, uint8_t *out, size_t length);

/* Writes a text key as a column. Refuses by 3, 4, 5, 6 as lcf_read_text does, 2 length under 12. Changes the first 12
   bytes of out and no other; range isn't looked at. */
struct lcf_column lcf_text_to_column(const uint8_t *key, size_t key_length, uint8_t *out, size_t length);

/* Gives how the first key stands to the second: in the order of their ratios. Refuses by 3, 4, 5, 6 for the first key,
   then for the second; range isn't looked at. Of keys without fault `(int)standing - LCF_SAME` is what qsort asks of a
   comparison. */
struct lcf_standing lcf_compare(const uint8_t *first, size_t first_length, const uint8_t *second,
                                size_t second_length);

/* Gives 1 where the first key is the earlier or the two are the same, 2 where the second is, and 0 where lcf_compare
   refuses: that call tells the number. */
uint32_t lcf_earlier(const uint8_t *first, size_t first_length, const uint8_t *second, size_t second_length);

/* Writes the first width characters of a key at the front of out, without zeros at the end (the single 0 if no 1 is
   left), and gives how many there are. Refuses by 3, 4, 5, 6, 8 width not 1 to 96, 2 length under 96. Changes the cut
   key's own bytes and no other. */
struct lcf_text lcf_cut(const uint8_t *key, size_t key_length, size_t width, uint8_t *out, size_t length);

/* Gives the place after a key's first character, from which lcf_step goes on. Refuses by 3, 4, 5, 6; the place is then
   0 and false. */
struct lcf_started lcf_start(const uint8_t *key, size_t length);

/* Gives the quotient at a place of a key and the place after it; at the end of the key found is false. Refuses by 3, 4,
   5, 6, 8 characters used not 1 to 160, 7 the quotient above 4294967295. At the end and where it refuses, the place
   given is the one handed in. From a start no place goes past 160. */
struct lcf_stepped lcf_step(const uint8_t *key, size_t length, struct lcf_place place);

/* The four calls of a stock table. `length` is the size of the table's memory in bytes, `used` how many rows of it are
   used: 0 for a new table, whatever its memory holds. Each call first refuses by 2 the memory isn't 1 to LCF_ROWS_MOST
   whole rows and nothing over, 16 more rows used than there is room for, or used rows that aren't in lowest terms, of
   denominator and quantity at least 1, in strictly rising ratio, 1 denominator 0. The ratio may have a common factor.
   Unused rows are neither read nor written, but for the one that a put fills and the one that a take frees. */

/* Puts quantity of a ratio in: adds to its row, or makes one at its place and moves those behind it up. Then refuses by
   15 quantity 0, 13 a sum above 4294967295, 11 a new ratio where all rows are used. */
struct lcf_stocked lcf_stock_put(void *table, size_t length, size_t used, uint32_t numerator, uint32_t denominator,
                                 uint32_t quantity);

/* Takes quantity of a ratio out. A row that has none left goes: those behind it move down, and the last used row is
   filled with zeros. Then refuses by 15 quantity 0, 12 no row of the ratio, 14 the row has fewer. */
struct lcf_stocked lcf_stock_take(void *table, size_t length, size_t used, uint32_t numerator, uint32_t denominator,
                                  uint32_t quantity);

/* Gives the index and the quantity of a ratio's row. Then refuses by 12 no row of the ratio. */
struct lcf_found lcf_stock_find(const void *table, size_t length, size_t used, uint32_t numerator,
                                uint32_t denominator);

/* Gives the first row at or above a ratio; the rows from there on follow in the array. */
struct lcf_listed lcf_stock_from(const void *table, size_t length, size_t used, uint32_t numerator,
                                 uint32_t denominator);

#ifdef __cplusplus
}
#endif

#endif
