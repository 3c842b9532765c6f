/* Judging a stock table in plain C: one Euclid a row makes its key and tells whether it is in lowest terms. This is a
   file of its own, since gcc puts `spell` into the loop where it is called at one place alone. */
#include "plain_table.h"

static inline bool is_below(struct block a, struct block b) {
    return a.high != b.high ? a.high < b.high : a.low < b.low;
}

uint32_t plain_judge(const struct lcf_row *rows, size_t length, size_t used, struct block key, size_t *below) {
    if (length == 0 || length > LCF_ROWS_MOST * sizeof *rows || length % sizeof *rows) return LCF_SHORT_BUFFER;
    if (used > length / sizeof *rows) return LCF_UNSOUND_TABLE;
    struct block last = {0, 0};
    size_t count = 0;
    for (size_t i = 0; i < used; i++) {
        if (rows[i].denominator == 0 || rows[i].quantity == 0) return LCF_UNSOUND_TABLE;
        uint32_t quotients, divisor;
        struct block own = spell(rows[i].numerator, rows[i].denominator, &quotients, &divisor);
        if (divisor != 1 || (i > 0 && !is_below(last, own))) return LCF_UNSOUND_TABLE;
        count += is_below(own, key);
        last = own;
    }
    *below = count;
    return LCF_OK;
}
