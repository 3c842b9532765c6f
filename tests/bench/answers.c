/* Whether two sides agree. Structs are compared field by field, since what lies between the fields is nobody's. */
#include "bench.h"
#include <string.h>

static bool same_written(struct lcf_written a, struct lcf_written b) {
    return a.refusal == b.refusal && a.quotients == b.quotients && a.characters == b.characters;
}

static bool same_ratio(struct lcf_ratio a, struct lcf_ratio b) {
    return a.refusal == b.refusal && a.numerator == b.numerator && a.denominator == b.denominator;
}

static bool same_standing(struct lcf_standing a, struct lcf_standing b) {
    return a.refusal == b.refusal && a.standing == b.standing;
}

static bool same_text(struct lcf_text a, struct lcf_text b) {
    return a.refusal == b.refusal && a.characters == b.characters;
}

static bool same_place(struct lcf_place a, struct lcf_place b) {
    return a.used == b.used && a.turned == b.turned;
}

static bool same_started(struct lcf_started a, struct lcf_started b) {
    return a.refusal == b.refusal && same_place(a.place, b.place);
}

static bool same_stepped(struct lcf_stepped a, struct lcf_stepped b) {
    return a.refusal == b.refusal && a.quotient == b.quotient && a.found == b.found && same_place(a.place, b.place);
}

static bool same_at(const struct answers *a, const struct answers *b, size_t i) {
    return same_written(a->write_column[i], b->write_column[i]) && same_written(a->write_text[i], b->write_text[i]) &&
           same_ratio(a->read_column[i], b->read_column[i]) && same_ratio(a->read_text[i], b->read_text[i]) &&
           same_standing(a->compare[i], b->compare[i]) && same_standing(a->compare_near[i], b->compare_near[i]) &&
           same_text(a->cut[i], b->cut[i]) && same_started(a->start[i], b->start[i]);
}

bool same_answers(const struct answers *a, const struct answers *b, size_t count, size_t steps) {
    for (size_t i = 0; i < count; i++)
        if (!same_at(a, b, i))
            return false;
    for (size_t i = 0; i < steps; i++)
        if (!same_stepped(a->step[i], b->step[i]))
            return false;
    return !memcmp(a->column, b->column, sizeof a->column) && !memcmp(a->text, b->text, sizeof a->text) &&
           !memcmp(a->cut_text, b->cut_text, sizeof a->cut_text);
}

static bool same_stocked(struct lcf_stocked a, struct lcf_stocked b) {
    return a.refusal == b.refusal && a.quantity == b.quantity && a.used == b.used && a.row == b.row;
}

static bool same_found(struct lcf_found a, struct lcf_found b) {
    return a.refusal == b.refusal && a.quantity == b.quantity && a.row == b.row;
}

static bool same_listed(struct lcf_listed a, struct lcf_listed b) {
    return a.refusal == b.refusal && a.numerator == b.numerator && a.denominator == b.denominator &&
           a.quantity == b.quantity && a.row == b.row && a.found == b.found;
}

bool same_stock_answers(const struct stock_answers *a, const struct stock_answers *b) {
    for (size_t i = 0; i < STOCK_CALLS; i++)
        if (!same_stocked(a->stocked[i], b->stocked[i]) || !same_found(a->found[i], b->found[i]) ||
            !same_listed(a->listed[i], b->listed[i]))
            return false;
    return !memcmp(a->table, b->table, sizeof a->table);
}
