/* Calls of one stock table: a few that fill it, and one after it got a fault at times. What each must give and leave is
   worked out here, row by row. */
#include "feed.h"
#include "fuzz.h"
#include "lcf.h"

#include <string.h>

enum { ROW = 12, CALL_MOST = 19 }; /* bytes of a row, and the most of the input that a call takes */

static size_t used;            /* rows of the table, which is lent as `out` */
static uint8_t due[LENT_MOST]; /* the table as it must be after the call */

static uint32_t number_at(const uint8_t *at) {
    return at[0] | (uint32_t)at[1] << 8 | (uint32_t)at[2] << 16 | (uint32_t)at[3] << 24;
}

static void write_number(uint8_t *at, uint32_t value) {
    for (int i = 0; i < 4; i++) at[i] = (uint8_t)(value >> 8 * i);
}

/* The greatest divisor by halving and subtracting. */
static uint32_t divisor(uint32_t a, uint32_t b) {
    if (a == 0 || b == 0) return a | b;
    if (a % 2 == 0 && b % 2 == 0) return 2 * divisor(a / 2, b / 2);
    while (a != b) {
        if (a % 2 == 0)
            a /= 2;
        else if (b % 2 == 0)
            b /= 2;
        else if (a > b)
            a -= b;
        else
            b -= a;
    }
    return a;
}

/* How a row's ratio stands to p/q: -1 below it, 0 the same, 1 above. */
static int standing(const uint8_t *row, uint32_t p, uint32_t q) {
    uint64_t one = (uint64_t)number_at(row) * q, other = (uint64_t)p * number_at(row + 4);
    return (one > other) - (one < other);
}

static bool is_sound(size_t i) {
    const uint8_t *row = out.bytes + i * ROW;
    uint32_t p = number_at(row), q = number_at(row + 4);
    if (q == 0 || number_at(row + 8) == 0 || divisor(p, q) != 1) return false;
    return i == 0 || standing(row - ROW, p, q) < 0;
}

/* The refusals that every call of a table begins with. */
static uint32_t judge(uint32_t q) {
    if (out.length % ROW != 0 || out.length < ROW || out.length > LCF_ROWS_MOST * ROW) return LCF_SHORT_BUFFER;
    if (used > out.length / ROW) return LCF_UNSOUND_TABLE;
    for (size_t i = 0; i < used; i++)
        if (!is_sound(i)) return LCF_UNSOUND_TABLE;
    return q == 0 ? LCF_ZERO_DENOMINATOR : LCF_OK;
}

/* The index of the first row at or above p/q; the count of used rows where there is none. */
static size_t place_of(uint32_t p, uint32_t q) {
    size_t i = 0;
    while (i < used && standing(out.bytes + i * ROW, p, q) < 0) i++;
    return i;
}

/* What there is of p/q, whose place is row i; 0 where it has no row. */
static uint32_t held_at(size_t i, uint32_t p, uint32_t q) {
    const uint8_t *row = out.bytes + i * ROW;
    return i < used && standing(row, p, q) == 0 ? number_at(row + 8) : 0;
}

static struct lcf_stocked refused(uint32_t number) {
    return (struct lcf_stocked){.refusal = number};
}

/* What putting in must give. It is done in `due`. */
static struct lcf_stocked due_put(uint32_t p, uint32_t q, uint32_t quantity) {
    uint32_t refusal = in_order(judge(q), quantity == 0 ? LCF_NO_QUANTITY : LCF_OK);
    if (refusal != LCF_OK) return refused(refusal);
    size_t row = place_of(p, q);
    uint32_t held = held_at(row, p, q), by = divisor(p, q);
    uint8_t *at = due + row * ROW;
    if (held + (uint64_t)quantity > UINT32_MAX) return refused(LCF_LARGE_SUM);
    if (held == 0 && used == out.length / ROW) return refused(LCF_TABLE_FULL);
    if (held == 0) memmove(at + ROW, at, (used - row) * ROW);
    write_number(at, p / by);
    write_number(at + 4, q / by);
    write_number(at + 8, held + quantity);
    return (struct lcf_stocked){LCF_OK, held + quantity, used + (held == 0), row};
}

/* What taking out must give. It is done in `due`. */
static struct lcf_stocked due_take(uint32_t p, uint32_t q, uint32_t quantity) {
    uint32_t refusal = in_order(judge(q), quantity == 0 ? LCF_NO_QUANTITY : LCF_OK);
    if (refusal != LCF_OK) return refused(refusal);
    size_t row = place_of(p, q);
    uint32_t held = held_at(row, p, q);
    uint8_t *at = due + row * ROW;
    if (held == 0) return refused(LCF_NO_SUCH_RATIO);
    if (held < quantity) return refused(LCF_TOO_FEW);
    write_number(at + 8, held - quantity);
    if (held > quantity) return (struct lcf_stocked){LCF_OK, held - quantity, used, row};
    memmove(at, at + ROW, (used - row - 1) * ROW);
    memset(due + (used - 1) * ROW, 0, ROW);
    return (struct lcf_stocked){LCF_OK, 0, used - 1, row};
}

static void check_table(void) {
    MUST(is_kept(&out, out.length));
    MUST(out.length == 0 || memcmp(out.bytes, due, out.length) == 0);
}

static void check_stocked(struct lcf_stocked answer, struct lcf_stocked must) {
    check_table();
    MUST(answer.refusal == must.refusal);
    MUST(answer.quantity == must.quantity);
    MUST(answer.used == must.used);
    MUST(answer.row == must.row);
    if (answer.refusal == LCF_OK) used = answer.used;
}

/* Mostly a small number, so that ratios come again. */
static uint32_t take_small(void) {
    uint8_t byte = take();
    return byte < 240 ? byte % 8 : take_term();
}

/* Mostly one near 0 or near the largest. */
static uint32_t take_quantity(void) {
    uint8_t byte = take();
    return byte < 160 ? byte % 8 : byte < 240 ? UINT32_MAX - byte % 8 : take_term();
}

static void put(void) {
    uint32_t p = take_small(), q = take_small(), quantity = take_quantity();
    struct lcf_stocked must = due_put(p, q, quantity);
    check_stocked(lcf_stock_put(out.bytes, out.length, used, p, q, quantity), must);
}

static void take_out_of(void) {
    uint32_t p = take_small(), q = take_small(), quantity = take_quantity();
    struct lcf_stocked must = due_take(p, q, quantity);
    check_stocked(lcf_stock_take(out.bytes, out.length, used, p, q, quantity), must);
}

static void find(void) {
    uint32_t p = take_small(), q = take_small(), refusal = judge(q);
    struct lcf_found answer = lcf_stock_find(out.bytes, out.length, used, p, q);
    size_t row = refusal == LCF_OK ? place_of(p, q) : 0;
    uint32_t held = refusal == LCF_OK ? held_at(row, p, q) : 0;
    check_table();
    MUST(answer.refusal == in_order(refusal, held == 0 ? LCF_NO_SUCH_RATIO : LCF_OK));
    MUST(answer.quantity == held);
    MUST(answer.row == (held == 0 ? 0 : row));
}

static void from(void) {
    static const uint8_t none[ROW];
    uint32_t p = take_small(), q = take_small(), refusal = judge(q);
    struct lcf_listed answer = lcf_stock_from(out.bytes, out.length, used, p, q);
    size_t row = refusal == LCF_OK ? place_of(p, q) : used;
    const uint8_t *at = row < used ? out.bytes + row * ROW : none;
    check_table();
    MUST(answer.refusal == refusal);
    MUST(answer.found == (row < used));
    MUST(answer.row == (row < used ? row : 0));
    MUST(answer.numerator == number_at(at));
    MUST(answer.denominator == number_at(at + 4));
    MUST(answer.quantity == number_at(at + 8));
}

/* Makes a call. As long as it doesn't work out a change, the table must be left as it is. */
static void call(void) {
    static void (*const calls[])(void) = {put, put, put, take_out_of, take_out_of, find, from};
    if (out.length > 0) memcpy(due, out.bytes, out.length);
    calls[take() % (sizeof calls / sizeof *calls)]();
}

/* Lends the table anew with one fault, or none: in a bit, in a byte, in the count of used rows, or in the length. */
static void damage(void) {
    size_t length = out.length;
    memcpy(due, out.bytes, length);
    switch (take() % 8) {
    case 0:
    case 1: due[take() % length] ^= (uint8_t)(1 << take() % 8); break;
    case 2: due[take() % length] = take(); break;
    case 3: used = take_size(); break;
    case 4: length -= 1 + take() % length; break;
    }
    lend(&out, length, due, number + 1);
}

/* Mostly a table of few rows, at times of about the most that there may be, or with a row cut short. Calls fill it as
   long as the bytes are enough for one more, for a fault and for the last call. */
void stock(void) {
    uint8_t size = take(), cut = take();
    size_t rows = size < 240 ? 1 + size % 8 : LCF_ROWS_MOST - 14 + size % 16;
    lend(&out, rows * ROW - (cut < ROW ? cut : 0), NULL, number);
    used = 0;
    while (bytes_left >= 2 * CALL_MOST + 3) call();
    damage();
    call();
}
