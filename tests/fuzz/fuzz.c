/* A libFuzzer target: forms calls out of the bytes and checks what must hold of any answer, without a reference. The
   archive isn't instrumented; the fuzzer finds its way by the branches of these checks, which walk the keys and the
   rows. */
#include "fuzz.h"
#include "feed.h"
#include "lcf.h"

#include <stdio.h>
#include <stdlib.h>
#include <string.h>

static const uint64_t LIMIT = UINT32_MAX;

void violated(const char *condition, const char *where) {
    fprintf(stderr, "fuzz: %s: this must hold: %s\n", where, condition);
    abort();
}

/* A refused call changed nothing; another only what it wrote. */
static void check_lent(uint32_t refusal, size_t written) {
    MUST(is_kept(&first, 0));
    MUST(is_kept(&second, 0));
    MUST(written <= out.length || refusal != 0);
    MUST(is_kept(&out, refusal == 0 ? written : 0));
}

static uint32_t judge(const uint8_t *key, size_t length) {
    if (length == 0) return LCF_EMPTY_KEY;
    if (length > LCF_TEXT_BYTES) return LCF_LONG_KEY;
    for (size_t i = 0; i < length; i++)
        if (key[i] != '0' && key[i] != '1') return LCF_STRANGE_CHARACTER;
    return length > 1 && key[length - 1] == '0' ? LCF_LAST_ZERO : LCF_OK;
}

static uint32_t judge_room(size_t asked) {
    return out.length < asked ? LCF_SHORT_BUFFER : LCF_OK;
}

uint32_t in_order(uint32_t one, uint32_t next) {
    return one != LCF_OK ? one : next;
}

static bool bit_at(const struct lent *key, size_t i) {
    return i < key->length && key->bytes[i] == '1';
}

static uint64_t divisor(uint64_t a, uint64_t b) {
    return b == 0 ? a : divisor(b, a % b);
}

/* Stepping gives Euclid's quotients in the even-ended form, without a leading 0, and then the end. */
static void check_quotients(const uint8_t *key, size_t length, uint64_t p, uint64_t q, uint32_t quotients) {
    uint64_t list[64], rest;
    size_t count = 0;
    for (; q != 0; p = q, q = rest) {
        list[count++] = p / q;
        rest = p % q;
    }
    if (count % 2 == 0) {
        list[count - 1]--;
        list[count++] = 1;
    }
    size_t skipped = list[0] == 0;
    struct lcf_started started = lcf_start(key, length);
    struct lcf_place place = started.place;
    MUST(started.refusal == LCF_OK);
    MUST(quotients == count - skipped);
    for (size_t i = skipped; i <= count; i++) {
        struct lcf_stepped stepped = lcf_step(key, length, place);
        MUST(stepped.refusal == LCF_OK);
        MUST(stepped.found == (i < count));
        MUST(stepped.quotient == (i < count ? list[i] : 0));
        place = stepped.place;
    }
}

/* A written key is one, is read as the lowest terms, and has the quotients. */
static void check_key(const uint8_t *key, struct lcf_written answer, uint32_t p, uint32_t q) {
    uint64_t by = divisor(p, q);
    MUST(judge(key, answer.characters) == LCF_OK);
    struct lcf_ratio ratio = lcf_read_text(key, answer.characters);
    MUST(ratio.refusal == LCF_OK && ratio.numerator == p / by && ratio.denominator == q / by);
    check_quotients(key, answer.characters, p, q, answer.quotients);
}

static void write_text(void) {
    uint32_t p = take_term(), q = take_term();
    take_out(LCF_TEXT_BYTES);
    struct lcf_written answer = lcf_write_text(p, q, out.bytes, out.length);
    check_lent(answer.refusal, answer.characters);
    MUST(answer.refusal == in_order(q == 0 ? LCF_ZERO_DENOMINATOR : LCF_OK, judge_room(LCF_TEXT_BYTES)));
    if (answer.refusal == LCF_OK)
        check_key(out.bytes, answer, p, q);
    else
        MUST(answer.characters == 0 && answer.quotients == 0);
}

static void write_column(void) {
    uint8_t text[LCF_TEXT_BYTES];
    uint32_t p = take_term(), q = take_term();
    take_out(LCF_COLUMN_BYTES);
    struct lcf_written answer = lcf_write_column(p, q, out.bytes, out.length);
    check_lent(answer.refusal, LCF_COLUMN_BYTES);
    MUST(answer.refusal == in_order(q == 0 ? LCF_ZERO_DENOMINATOR : LCF_OK, judge_room(LCF_COLUMN_BYTES)));
    if (answer.refusal == LCF_OK) {
        struct lcf_text as_text = lcf_column_to_text(out.bytes, LCF_COLUMN_BYTES, text, sizeof text);
        MUST(as_text.refusal == LCF_OK && as_text.characters == answer.characters);
        check_key(text, answer, p, q);
    } else
        MUST(answer.characters == 0 && answer.quotients == 0);
}

/* Whether the stepped quotients make a ratio out of range: convergents only grow. */
static bool is_out_of_range(const uint8_t *key, size_t length) {
    bool below_one = key[0] == '0';
    uint64_t p = !below_one, p_before = below_one, q = below_one, q_before = !below_one;
    struct lcf_place place = lcf_start(key, length).place;
    for (int steps = 0;; steps++) {
        struct lcf_stepped stepped = lcf_step(key, length, place);
        MUST(steps <= LCF_TEXT_BYTES);
        if (stepped.refusal != LCF_OK) return true;
        if (!stepped.found) return false;
        uint64_t next_p = stepped.quotient * p + p_before, next_q = stepped.quotient * q + q_before;
        if (next_p > LIMIT || next_q > LIMIT) return true;
        p_before = p, q_before = q, p = next_p, q = next_q;
        place = stepped.place;
    }
}

/* What was read, of a key without fault, is written as that key; refused is exactly what is out of range. */
static void check_ratio(struct lcf_ratio ratio, const uint8_t *key, size_t length) {
    uint8_t again[LCF_TEXT_BYTES];
    MUST(ratio.refusal == (is_out_of_range(key, length) ? LCF_OUT_OF_RANGE : LCF_OK));
    if (ratio.refusal != LCF_OK) return;
    struct lcf_written written = lcf_write_text(ratio.numerator, ratio.denominator, again, sizeof again);
    MUST(divisor(ratio.numerator, ratio.denominator) == 1);
    MUST(written.refusal == LCF_OK && written.characters == length && memcmp(again, key, length) == 0);
}

static void read_text(void) {
    take_key(&first, 0);
    struct lcf_ratio answer = lcf_read_text(first.bytes, first.length);
    uint32_t due = judge(first.bytes, first.length);
    check_lent(answer.refusal, 0);
    MUST(answer.refusal == LCF_OK || (answer.numerator == 0 && answer.denominator == 0));
    if (due == LCF_OK)
        check_ratio(answer, first.bytes, first.length);
    else
        MUST(answer.refusal == due);
}

static void read_column(void) {
    uint8_t text[LCF_TEXT_BYTES];
    take_column();
    struct lcf_ratio answer = lcf_read_column(first.bytes, first.length);
    struct lcf_text as_text = lcf_column_to_text(first.bytes, first.length, text, sizeof text);
    check_lent(answer.refusal, 0);
    MUST(answer.refusal == LCF_OK || (answer.numerator == 0 && answer.denominator == 0));
    if (first.length == LCF_COLUMN_BYTES)
        check_ratio(answer, text, as_text.characters);
    else
        MUST(answer.refusal == LCF_WRONG_COLUMN);
}

static void column_to_text(void) {
    uint8_t column[LCF_COLUMN_BYTES];
    take_column();
    take_out(LCF_TEXT_BYTES);
    struct lcf_text answer = lcf_column_to_text(first.bytes, first.length, out.bytes, out.length);
    uint32_t due = first.length == LCF_COLUMN_BYTES ? LCF_OK : LCF_WRONG_COLUMN;
    check_lent(answer.refusal, answer.characters);
    MUST(answer.refusal == in_order(due, judge_room(LCF_TEXT_BYTES)));
    MUST(answer.refusal == LCF_OK || answer.characters == 0);
    if (answer.refusal != LCF_OK) return;
    MUST(lcf_text_to_column(out.bytes, answer.characters, column, sizeof column).refusal == LCF_OK);
    MUST(memcmp(column, first.bytes, sizeof column) == 0);
}

static void text_to_column(void) {
    uint8_t text[LCF_TEXT_BYTES];
    take_key(&first, 0);
    take_out(LCF_COLUMN_BYTES);
    uint32_t refusal = lcf_text_to_column(first.bytes, first.length, out.bytes, out.length).refusal;
    check_lent(refusal, LCF_COLUMN_BYTES);
    MUST(refusal == in_order(judge(first.bytes, first.length), judge_room(LCF_COLUMN_BYTES)));
    if (refusal != LCF_OK) return;
    for (size_t i = 0; i < LCF_TEXT_BYTES; i++) MUST((out.bytes[i / 8] >> (7 - i % 8) & 1) == bit_at(&first, i));
    struct lcf_text back = lcf_column_to_text(out.bytes, LCF_COLUMN_BYTES, text, sizeof text);
    MUST(back.characters == first.length && memcmp(text, first.bytes, first.length) == 0);
}

/* Comparing and the earlier of two: both by the order of the columns. */
static void compare(void) {
    uint8_t columns[2][LCF_COLUMN_BYTES];
    take_key(&first, 0);
    take_second();
    struct lcf_standing answer = lcf_compare(first.bytes, first.length, second.bytes, second.length);
    uint32_t which = lcf_earlier(first.bytes, first.length, second.bytes, second.length);
    check_lent(answer.refusal, 0);
    MUST(answer.refusal == in_order(judge(first.bytes, first.length), judge(second.bytes, second.length)));
    if (answer.refusal != LCF_OK) {
        MUST(answer.standing == 0 && which == 0);
        return;
    }
    lcf_text_to_column(first.bytes, first.length, columns[0], LCF_COLUMN_BYTES);
    lcf_text_to_column(second.bytes, second.length, columns[1], LCF_COLUMN_BYTES);
    int order = memcmp(columns[0], columns[1], LCF_COLUMN_BYTES);
    MUST(answer.standing == (order < 0 ? LCF_BEFORE : order == 0 ? LCF_SAME : LCF_AFTER));
    MUST(which == (order <= 0 ? 1 : 2));
}

static void cut(void) {
    take_key(&first, 0);
    take_out(LCF_TEXT_BYTES);
    size_t width = take_size();
    struct lcf_text answer = lcf_cut(first.bytes, first.length, width, out.bytes, out.length);
    uint32_t due = in_order(judge(first.bytes, first.length), width < 1 || width > 96 ? LCF_OUTSIDE : LCF_OK);
    check_lent(answer.refusal, answer.characters);
    MUST(answer.refusal == in_order(due, judge_room(LCF_TEXT_BYTES)));
    MUST(answer.refusal == LCF_OK || answer.characters == 0);
    if (answer.refusal != LCF_OK) return;
    MUST(judge(out.bytes, answer.characters) == LCF_OK);
    MUST(answer.characters <= width && answer.characters <= first.length);
    MUST(memcmp(out.bytes, first.bytes, answer.characters) == 0);
    for (size_t i = answer.characters; i < width; i++) MUST(!bit_at(&first, i));
}

static void start(void) {
    take_key(&first, 0);
    struct lcf_started answer = lcf_start(first.bytes, first.length);
    check_lent(answer.refusal, 0);
    MUST(answer.refusal == judge(first.bytes, first.length));
    MUST(answer.place.used == (answer.refusal == LCF_OK));
    MUST(answer.place.turned == (answer.refusal == LCF_OK && first.bytes[0] == '0'));
}

/* The characters from a place on are the quotient's word, turned where a turned one is due. */
static void check_word(struct lcf_place place, struct lcf_stepped answer) {
    size_t digits = 32 - (size_t)__builtin_clz(answer.quotient), at = place.used;
    for (size_t i = 1; i < digits; i++) MUST(bit_at(&first, at++) != place.turned);
    MUST(bit_at(&first, at++) == place.turned);
    for (size_t i = digits - 1; i > 0; i--)
        MUST(bit_at(&first, at++) == ((answer.quotient >> (i - 1) & 1) != place.turned));
    MUST(answer.place.used == at && answer.place.turned == !place.turned);
}

/* Refused by 7 is a run of more than 31; the end is where a turned word is due and only zeros remain. */
static void check_step(struct lcf_place place, struct lcf_stepped answer) {
    size_t run = 0;
    while (run < 200 && bit_at(&first, place.used + run) != place.turned) run++;
    if (run == 200)
        MUST(answer.refusal == LCF_OK && !answer.found);
    else if (run > 31)
        MUST(answer.refusal == LCF_OUT_OF_RANGE);
    else {
        MUST(answer.refusal == LCF_OK && answer.found && answer.quotient > 0);
        check_word(place, answer);
    }
}

static void step(void) {
    take_key(&first, 0);
    struct lcf_place place = {take_size(), take() % 2 == 1};
    struct lcf_stepped answer = lcf_step(first.bytes, first.length, place);
    uint32_t due =
        in_order(judge(first.bytes, first.length), place.used < 1 || place.used > 160 ? LCF_OUTSIDE : LCF_OK);
    check_lent(answer.refusal, 0);
    if (due == LCF_OK)
        check_step(place, answer);
    else
        MUST(answer.refusal == due);
    if (answer.refusal == LCF_OK && answer.found) return;
    MUST(!answer.found && answer.quotient == 0);
    MUST(answer.place.used == place.used && answer.place.turned == place.turned);
}

int LLVMFuzzerTestOneInput(const uint8_t *data, size_t size);

int LLVMFuzzerTestOneInput(const uint8_t *data, size_t size) {
    static void (*const calls[])(void) = {write_text,     write_column, read_text, read_column, column_to_text,
                                          text_to_column, compare,      cut,       start,       step,
                                          stock};
    feed(data, size);
    calls[take() % (sizeof calls / sizeof *calls)]();
    return 0;
}
