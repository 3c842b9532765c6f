/* The calls of a stock table in plain C. Judging makes the key of every row, so a ratio's place is found on the way. */
#include "plain.h"
#include "plain_table.h"
#include <string.h>

/* A ratio in lowest terms, the first row that isn't below it, and whether that row is its own. */
struct place {
    uint32_t refusal;
    uint32_t numerator, denominator;
    size_t row;
    bool held;
};

static struct place look(const struct lcf_row *rows, size_t length, size_t used, uint32_t p, uint32_t q) {
    struct block key = {0, 0};
    uint32_t quotients, divisor = 1;
    if (q) key = spell(p, q, &quotients, &divisor);
    size_t row;
    uint32_t fault = plain_judge(rows, length, used, key, &row);
    if (fault == 0 && q == 0) fault = LCF_ZERO_DENOMINATOR;
    if (fault) return (struct place){.refusal = fault};
    p /= divisor;
    q /= divisor;
    bool held = row < used && rows[row].numerator == p && rows[row].denominator == q;
    return (struct place){0, p, q, row, held};
}

struct lcf_stocked plain_stock_put(void *table, size_t length, size_t used, uint32_t numerator, uint32_t denominator,
                                   uint32_t quantity) {
    struct lcf_row *rows = table;
    struct place at = look(rows, length, used, numerator, denominator);
    if (at.refusal) return (struct lcf_stocked){.refusal = at.refusal};
    if (quantity == 0) return (struct lcf_stocked){.refusal = LCF_NO_QUANTITY};
    struct lcf_row *row = rows + at.row;
    if (at.held) {
        if (row->quantity > UINT32_MAX - quantity) return (struct lcf_stocked){.refusal = LCF_LARGE_SUM};
        row->quantity += quantity;
        return (struct lcf_stocked){0, row->quantity, used, at.row};
    }
    if (used == length / sizeof *rows) return (struct lcf_stocked){.refusal = LCF_TABLE_FULL};
    memmove(row + 1, row, (used - at.row) * sizeof *row);
    *row = (struct lcf_row){at.numerator, at.denominator, quantity};
    return (struct lcf_stocked){0, quantity, used + 1, at.row};
}

struct lcf_stocked plain_stock_take(void *table, size_t length, size_t used, uint32_t numerator, uint32_t denominator,
                                    uint32_t quantity) {
    struct lcf_row *rows = table;
    struct place at = look(rows, length, used, numerator, denominator);
    if (at.refusal) return (struct lcf_stocked){.refusal = at.refusal};
    if (quantity == 0) return (struct lcf_stocked){.refusal = LCF_NO_QUANTITY};
    if (!at.held) return (struct lcf_stocked){.refusal = LCF_NO_SUCH_RATIO};
    struct lcf_row *row = rows + at.row;
    if (row->quantity < quantity) return (struct lcf_stocked){.refusal = LCF_TOO_FEW};
    row->quantity -= quantity;
    if (row->quantity) return (struct lcf_stocked){0, row->quantity, used, at.row};
    memmove(row, row + 1, (used - 1 - at.row) * sizeof *row);
    rows[used - 1] = (struct lcf_row){0, 0, 0};
    return (struct lcf_stocked){0, 0, used - 1, at.row};
}

struct lcf_found plain_stock_find(const void *table, size_t length, size_t used, uint32_t numerator,
                                  uint32_t denominator) {
    const struct lcf_row *rows = table;
    struct place at = look(rows, length, used, numerator, denominator);
    if (at.refusal) return (struct lcf_found){.refusal = at.refusal};
    if (!at.held) return (struct lcf_found){.refusal = LCF_NO_SUCH_RATIO};
    return (struct lcf_found){0, rows[at.row].quantity, at.row};
}

struct lcf_listed plain_stock_from(const void *table, size_t length, size_t used, uint32_t numerator,
                                   uint32_t denominator) {
    struct place at = look(table, length, used, numerator, denominator);
    if (at.refusal) return (struct lcf_listed){.refusal = at.refusal};
    if (at.row == used) return (struct lcf_listed){.found = false};
    struct lcf_row row = ((const struct lcf_row *)table)[at.row];
    return (struct lcf_listed){0, row.numerator, row.denominator, row.quantity, at.row, true};
}
