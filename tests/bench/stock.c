/* Counts the four calls of a stock table, at the most rows and at few, and filling a table row by row. Each counted
   call has a table of its own that was made before, since putting and taking change it. */
#include "bench.h"
#include <stdio.h>
#include <stdlib.h>
#include <string.h>

static const struct size {
    size_t rows, calls;
    const char *name, *bar;
} sizes[] = {{LCF_ROWS_MOST, 16, "2,048 rows", "1.05"}, {FEW_ROWS, STOCK_CALLS, "16 rows", "1.2"}};

/* Rows with different ratios, as they were drawn and lowest first. */
static struct set {
    const char *name;
    struct lcf_row (*draw)(void);
    struct lcf_row drawn[LCF_ROWS_MOST], sorted[LCF_ROWS_MOST];
} set;

/* What the counted calls are handed. */
static struct {
    size_t count, length;
    size_t used[STOCK_CALLS];
    struct lcf_row asked[STOCK_CALLS], table[STOCK_CALLS][LCF_ROWS_MOST];
} calls;

static struct stock_answers answers[SIDES];

static void find(const struct side *c, struct stock_answers *a) {
    for (size_t i = 0; i < calls.count; i++) {
        struct lcf_row r = calls.asked[i];
        a->found[i] = c->stock_find(a->table[i], calls.length, calls.used[i], r.numerator, r.denominator);
    }
}

static void from(const struct side *c, struct stock_answers *a) {
    for (size_t i = 0; i < calls.count; i++) {
        struct lcf_row r = calls.asked[i];
        a->listed[i] = c->stock_from(a->table[i], calls.length, calls.used[i], r.numerator, r.denominator);
    }
}

static void put(const struct side *c, struct stock_answers *a) {
    for (size_t i = 0; i < calls.count; i++) {
        struct lcf_row r = calls.asked[i];
        a->stocked[i] = c->stock_put(a->table[i], calls.length, calls.used[i], r.numerator, r.denominator, r.quantity);
    }
}

static void take(const struct side *c, struct stock_answers *a) {
    for (size_t i = 0; i < calls.count; i++) {
        struct lcf_row r = calls.asked[i];
        a->stocked[i] = c->stock_take(a->table[i], calls.length, calls.used[i], r.numerator, r.denominator, r.quantity);
    }
}

/* What call i asks for. */
static void ask_row_there(size_t i) {
    calls.asked[i] = calls.table[i][random_number() % calls.used[i]];
}

static void ask_any(size_t i) {
    calls.asked[i] = set.draw();
}

static void ask_first(size_t i) {
    calls.asked[i] = calls.table[i][0];
}

/* The first row, which the table has no more. */
static void ask_lower(size_t i) {
    struct lcf_row *table = calls.table[i];
    calls.asked[i] = table[0];
    memmove(table, table + 1, --calls.used[i] * sizeof *table);
}

static const struct row {
    const char *name;
    void (*ask)(size_t call);
    void (*run)(const struct side *, struct stock_answers *);
} rows[] = {
    {"stock find", ask_row_there, find},
    {"stock from", ask_any, from},
    {"stock put to a row", ask_row_there, put},
    {"stock put at the front", ask_lower, put},
    {"stock take of the first row", ask_first, take},
};

/* Every table takes rows from all over the set. */
static void prepare(const struct row *row, const struct size *size) {
    size_t apart = LCF_ROWS_MOST / size->rows;
    calls.count = size->calls;
    calls.length = size->rows * sizeof(struct lcf_row);
    for (size_t i = 0; i < size->calls; i++) {
        for (size_t k = 0; k < size->rows; k++)
            calls.table[i][k] = set.sorted[k * apart + i % apart];
        calls.used[i] = size->rows;
        row->ask(i);
    }
}

static bool count_row(const struct row *row, const struct size *size) {
    char name[64];
    snprintf(name, sizeof name, "%s, %s", row->name, size->name);
    prepare(row, size);
    for (int s = 0; s < SIDES; s++) {
        memcpy(answers[s].table, calls.table, sizeof calls.table);
        count_from_here(name, set.name, sides[s].name, size->calls, size->bar);
        row->run(&sides[s], &answers[s]);
        count_to_here();
    }
    return same_stock_answers(&answers[PROVED], &answers[PLAIN]);
}

/* Puts all rows into one table, in the order in which they were drawn. */
static bool count_filling(void) {
    for (int s = 0; s < SIDES; s++) {
        struct lcf_row *table = answers[s].table[0];
        size_t used = 0;
        count_from_here("stock put, filling 2,048 rows", set.name, sides[s].name, LCF_ROWS_MOST, "");
        for (size_t i = 0; i < LCF_ROWS_MOST; i++) {
            struct lcf_row r = set.drawn[i];
            used = sides[s].stock_put(table, sizeof set.drawn, used, r.numerator, r.denominator, r.quantity).used;
        }
        count_to_here();
        if (s != EMPTY && memcmp(table, set.sorted, sizeof set.sorted))
            return false;
    }
    return true;
}

static int by_cross_products(const void *a, const void *b) {
    const struct lcf_row *j = a, *k = b;
    uint64_t left = (uint64_t)j->numerator * k->denominator, right = (uint64_t)k->numerator * j->denominator;
    return (left > right) - (left < right);
}

static struct lcf_row in_lowest_terms(struct lcf_row row) {
    uint32_t divisor = row.numerator, rest = row.denominator;
    while (rest) {
        uint32_t next = divisor % rest;
        divisor = rest;
        rest = next;
    }
    return (struct lcf_row){row.numerator / divisor, row.denominator / divisor, row.quantity};
}

static bool is_drawn(struct lcf_row row, size_t count) {
    for (size_t i = 0; i < count; i++)
        if (by_cross_products(&set.drawn[i], &row) == 0)
            return true;
    return false;
}

static bool count_set(void) {
    for (size_t n = 0; n < LCF_ROWS_MOST;) {
        set.drawn[n] = in_lowest_terms(set.draw());
        n += !is_drawn(set.drawn[n], n);
    }
    memcpy(set.sorted, set.drawn, sizeof set.drawn);
    qsort(set.sorted, LCF_ROWS_MOST, sizeof *set.sorted, by_cross_products);
    for (const struct size *size = sizes; size < sizes + sizeof sizes / sizeof *sizes; size++)
        for (const struct row *row = rows; row < rows + sizeof rows / sizeof *rows; row++)
            if (!count_row(row, size))
                return false;
    return count_filling();
}

static uint32_t some_quantity(void) {
    return 1 + random_number() % 1000;
}

static struct lcf_row random_ratio(void) {
    uint32_t p = random_number(), q = 1 + random_number() % UINT32_MAX;
    return (struct lcf_row){p, q, some_quantity()};
}

static uint32_t some_teeth(void) {
    return TEETH_FROM + random_number() % (TEETH_TO - TEETH_FROM + 1);
}

static struct lcf_row pair_of_wheels(void) {
    uint32_t p = some_teeth(), q = some_teeth();
    return (struct lcf_row){p, q, some_quantity()};
}

bool count_stocks(void) {
    set.name = "random";
    set.draw = random_ratio;
    if (!count_set())
        return false;
    set.name = "wheels";
    set.draw = pair_of_wheels;
    return count_set();
}
