/* Counts the instructions of each call, proved and in plain C, over random ratios and over wheels, and checks that the
   two give the same. Each count is a line on standard error: row|set|side|calls|bar|count. */
#include "bench.h"
#include <stdio.h>
#include <stdlib.h>
#include <string.h>

/* Ratios, and what the calls are handed of them: keys, widths to cut to, places to start from, which key each is
   compared with, and which is next to it in order. */
static struct set {
    const char *name;
    size_t count, steps;
    uint32_t p[KEYS], q[KEYS], quotients[KEYS];
    uint8_t column[KEYS][LCF_COLUMN_BYTES], text[KEYS][LCF_TEXT_BYTES];
    size_t length[KEYS], width[KEYS], other[KEYS], near[KEYS];
    struct lcf_place start[KEYS];
} set;

static struct answers answers[SIDES];

static void write_column(const struct side *c, struct answers *a) {
    for (size_t i = 0; i < set.count; i++)
        a->write_column[i] = c->write_column(set.p[i], set.q[i], a->column[i], LCF_COLUMN_BYTES);
}

static void write_text(const struct side *c, struct answers *a) {
    for (size_t i = 0; i < set.count; i++)
        a->write_text[i] = c->write_text(set.p[i], set.q[i], a->text[i], LCF_TEXT_BYTES);
}

static void read_column(const struct side *c, struct answers *a) {
    for (size_t i = 0; i < set.count; i++)
        a->read_column[i] = c->read_column(set.column[i], LCF_COLUMN_BYTES);
}

static void read_text(const struct side *c, struct answers *a) {
    for (size_t i = 0; i < set.count; i++)
        a->read_text[i] = c->read_text(set.text[i], set.length[i]);
}

static void compare(const struct side *c, struct answers *a) {
    for (size_t i = 0; i < set.count; i++) {
        size_t j = set.other[i];
        a->compare[i] = c->compare(set.text[i], set.length[i], set.text[j], set.length[j]);
    }
}

static void compare_near(const struct side *c, struct answers *a) {
    for (size_t i = 0; i < set.count; i++) {
        size_t j = set.near[i];
        a->compare_near[i] = c->compare(set.text[i], set.length[i], set.text[j], set.length[j]);
    }
}

static void cut(const struct side *c, struct answers *a) {
    for (size_t i = 0; i < set.count; i++)
        a->cut[i] = c->cut(set.text[i], set.length[i], set.width[i], a->cut_text[i], LCF_TEXT_BYTES);
}

static void start(const struct side *c, struct answers *a) {
    for (size_t i = 0; i < set.count; i++)
        a->start[i] = c->start(set.text[i], set.length[i]);
}

/* Each key to its end, so one step more than it has quotients. */
static void step(const struct side *c, struct answers *a) {
    struct lcf_stepped *to = a->step;
    for (size_t i = 0; i < set.count; i++) {
        struct lcf_place place = set.start[i];
        for (uint32_t left = set.quotients[i] + 1; left; left--) {
            *to = c->step(set.text[i], set.length[i], place);
            place = to++->place;
        }
    }
}

/* bar: how many times what plain C takes the proved call may take; "" where none is set. */
static const struct row {
    const char *name, *bar;
    void (*run)(const struct side *, struct answers *);
} rows[] = {
    {"write column", "1.0", write_column}, {"write text", "1.0", write_text}, {"read column", "1.5", read_column},
    {"read text", "1.5", read_text},       {"compare", "1.2", compare},       {"compare near", "", compare_near},
    {"cut", "1.5", cut},                   {"start", "", start},           {"step", "1.5", step},
};

static int by_column(const void *a, const void *b) {
    return memcmp(set.column[*(const size_t *)a], set.column[*(const size_t *)b], LCF_COLUMN_BYTES);
}

static void prepare(void) {
    static size_t sorted[KEYS];
    set.steps = 0;
    for (size_t i = 0; i < set.count; i++) {
        lcf_write_column(set.p[i], set.q[i], set.column[i], LCF_COLUMN_BYTES);
        struct lcf_written w = lcf_write_text(set.p[i], set.q[i], set.text[i], LCF_TEXT_BYTES);
        set.length[i] = w.characters;
        set.quotients[i] = w.quotients;
        set.steps += w.quotients + 1;
        set.width[i] = 1 + random_number() % w.characters;
        set.start[i] = lcf_start(set.text[i], w.characters).place;
        set.other[i] = (i + 1) % set.count;
        sorted[i] = i;
    }
    qsort(sorted, set.count, sizeof *sorted, by_column);
    for (size_t i = 0; i < set.count; i++)
        set.near[sorted[i]] = sorted[i + 1 < set.count ? i + 1 : i - 1];
}

static bool count_set(void) {
    prepare();
    for (const struct row *row = rows; row < rows + sizeof rows / sizeof *rows; row++)
        for (int s = 0; s < SIDES; s++) {
            count_from_here(row->name, set.name, sides[s].name, row->run == step ? set.steps : set.count, row->bar);
            row->run(&sides[s], &answers[s]);
            count_to_here();
        }
    return same_answers(&answers[PROVED], &answers[PLAIN], set.count, set.steps);
}

static bool count_random(void) {
    set.name = "random";
    set.count = RANDOM;
    for (size_t i = 0; i < RANDOM; i++) {
        set.p[i] = random_number();
        set.q[i] = 1 + random_number() % UINT32_MAX;
    }
    return count_set();
}

/* Every pair, each put in at a random place. */
static bool count_wheels(void) {
    set.name = "wheels";
    set.count = WHEELS;
    size_t n = 0;
    for (uint32_t p = TEETH_FROM; p <= TEETH_TO; p++)
        for (uint32_t q = TEETH_FROM; q <= TEETH_TO; q++, n++) {
            size_t at = random_number() % (n + 1);
            set.p[n] = set.p[at], set.q[n] = set.q[at];
            set.p[at] = p, set.q[at] = q;
        }
    return count_set();
}

int main(void) {
    if (count_random() && count_wheels() && count_sorts() && count_stocks())
        return 0;
    fputs("the proved library and plain C differ\n", stdout);
    return 1;
}
