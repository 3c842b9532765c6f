/* Sorting ratios: by the bytes of their columns, and by cross products. */
#include "bench.h"
#include <stdlib.h>
#include <string.h>

enum { SORTED = 100000 };

/* A row of a stock table as an index holds it: the column, and where the row is. */
struct record {
    uint8_t column[LCF_COLUMN_BYTES];
    uint32_t row;
};

struct pair {
    uint32_t p, q;
};

static struct pair pairs[SORTED], crossed[SORTED];
static struct record records[SORTED];

static int by_column(const void *a, const void *b) {
    return memcmp(((const struct record *)a)->column, ((const struct record *)b)->column, LCF_COLUMN_BYTES);
}

static int by_cross_products(const void *a, const void *b) {
    const struct pair *j = a, *k = b;
    uint64_t left = (uint64_t)j->p * k->q, right = (uint64_t)k->p * j->q;
    return (left > right) - (left < right);
}

static void make_columns(void) {
    for (uint32_t i = 0; i < SORTED; i++) {
        lcf_write_column(pairs[i].p, pairs[i].q, records[i].column, LCF_COLUMN_BYTES);
        records[i].row = i;
    }
}

bool count_sorts(void) {
    for (size_t i = 0; i < SORTED; i++)
        pairs[i] = (struct pair){random_number(), 1 + random_number() % UINT32_MAX};

    memcpy(crossed, pairs, sizeof pairs);
    count_from_here("sort by cross products", "random", "plain", SORTED, "");
    qsort(crossed, SORTED, sizeof *crossed, by_cross_products);
    count_to_here();

    make_columns();
    count_from_here("sort by columns", "random", "proved", SORTED, "");
    qsort(records, SORTED, sizeof *records, by_column);
    count_to_here();

    count_from_here("sort by columns, made first", "random", "proved", SORTED, "");
    make_columns();
    qsort(records, SORTED, sizeof *records, by_column);
    count_to_here();

    for (size_t i = 0; i < SORTED; i++)
        if (by_cross_products(&crossed[i], &pairs[records[i].row]) != 0)
            return false;
    return true;
}
