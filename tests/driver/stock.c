/* The calls of a stock table. Taking and putting tell the whole table after the call: a refused one has left it as it
   was. */
#include "driver.h"
#include "lcf.h"

#include <string.h>

enum { ROW = sizeof(struct lcf_row) };
_Static_assert(ROW == 12, "a row is three numbers of 32 bits and nothing else");

static uint32_t number_at(const uint8_t *bytes) {
    return bytes[0] | (uint32_t)bytes[1] << 8 | (uint32_t)bytes[2] << 16 | (uint32_t)bytes[3] << 24;
}

/* Whether a C program that reads the used rows as structs sees the numbers that their bytes are. No proof covers it. */
static void check_rows(const struct lent *table, size_t used) {
    static struct lcf_row rows[LENT_MOST / ROW];
    if (used > table->length / ROW) return;
    memcpy(rows, table->bytes, used * ROW);
    for (size_t i = 0; i < used; i++) {
        const uint8_t *row = table->bytes + i * ROW;
        if (rows[i].numerator == number_at(row) && rows[i].denominator == number_at(row + 4) &&
            rows[i].quantity == number_at(row + 8))
            continue;
        tell_fault("a row read as a struct isn't what its bytes are");
        return;
    }
}

static uint32_t term(const char *field) {
    return (uint32_t)number(field, UINT32_MAX);
}

static void tell_stocked(struct lcf_stocked answer) {
    tell(answer.refusal);
    tell(answer.used);
    tell(answer.row);
    tell(answer.quantity);
    tell_table();
    if (answer.refusal == LCF_OK) check_rows(&out, answer.used);
}

void stock_put(char **input) {
    size_t used = number(input[1], SIZE_MAX);
    uint32_t p = term(input[2]), q = term(input[3]), quantity = term(input[4]);
    lend_table(input[0]);
    tell_stocked(lcf_stock_put(out.bytes, out.length, used, p, q, quantity));
}

void stock_take(char **input) {
    size_t used = number(input[1], SIZE_MAX);
    uint32_t p = term(input[2]), q = term(input[3]), quantity = term(input[4]);
    lend_table(input[0]);
    tell_stocked(lcf_stock_take(out.bytes, out.length, used, p, q, quantity));
}

void stock_find(char **input) {
    size_t used = number(input[1], SIZE_MAX);
    uint32_t p = term(input[2]), q = term(input[3]);
    lend_first(input[0]);
    struct lcf_found answer = lcf_stock_find(first.bytes, first.length, used, p, q);
    tell(answer.refusal);
    tell(answer.row);
    tell(answer.quantity);
    if (answer.refusal == LCF_OK) check_rows(&first, used);
}

void stock_from(char **input) {
    size_t used = number(input[1], SIZE_MAX);
    uint32_t p = term(input[2]), q = term(input[3]);
    lend_first(input[0]);
    struct lcf_listed answer = lcf_stock_from(first.bytes, first.length, used, p, q);
    tell(answer.refusal);
    tell_flag(&answer.found);
    tell(answer.row);
    tell(answer.numerator);
    tell(answer.denominator);
    tell(answer.quantity);
    if (answer.refusal == LCF_OK) check_rows(&first, used);
}
