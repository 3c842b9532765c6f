/* The three sides, and counting. */
#define _DEFAULT_SOURCE /* for syscall */
#include "bench.h"
#include "plain.h"
#include <stdio.h>
#include <unistd.h>

static struct lcf_written no_write(uint32_t p, uint32_t q, uint8_t *out, size_t length) {
    (void)p, (void)q, (void)out, (void)length;
    return (struct lcf_written){0};
}

static struct lcf_ratio no_read(const uint8_t *key, size_t length) {
    (void)key, (void)length;
    return (struct lcf_ratio){0};
}

static struct lcf_standing no_compare(const uint8_t *j, size_t m, const uint8_t *k, size_t n) {
    (void)j, (void)m, (void)k, (void)n;
    return (struct lcf_standing){0};
}

static struct lcf_text no_cut(const uint8_t *key, size_t length, size_t width, uint8_t *out, size_t room) {
    (void)key, (void)length, (void)width, (void)out, (void)room;
    return (struct lcf_text){0};
}

static struct lcf_started no_start(const uint8_t *key, size_t length) {
    (void)key, (void)length;
    return (struct lcf_started){0};
}

static struct lcf_stepped no_step(const uint8_t *key, size_t length, struct lcf_place place) {
    (void)key, (void)length;
    return (struct lcf_stepped){.place = place};
}

static struct lcf_stocked no_stock(void *table, size_t length, size_t used, uint32_t p, uint32_t q, uint32_t quantity) {
    (void)table, (void)length, (void)used, (void)p, (void)q, (void)quantity;
    return (struct lcf_stocked){0};
}

static struct lcf_found no_find(const void *table, size_t length, size_t used, uint32_t p, uint32_t q) {
    (void)table, (void)length, (void)used, (void)p, (void)q;
    return (struct lcf_found){0};
}

static struct lcf_listed no_from(const void *table, size_t length, size_t used, uint32_t p, uint32_t q) {
    (void)table, (void)length, (void)used, (void)p, (void)q;
    return (struct lcf_listed){0};
}

const struct side sides[SIDES] = {
    {"proved", lcf_write_column, lcf_write_text, lcf_read_column, lcf_read_text, lcf_compare, lcf_cut, lcf_start,
     lcf_step, lcf_stock_put, lcf_stock_take, lcf_stock_find, lcf_stock_from},
    {"plain", plain_write_column, plain_write_text, plain_read_column, plain_read_text, plain_compare, plain_cut,
     plain_start, plain_step, plain_stock_put, plain_stock_take, plain_stock_find, plain_stock_from},
    {"empty", no_write, no_write, no_read, no_read, no_compare, no_cut, no_start, no_step, no_stock, no_stock, no_find,
     no_from},
};

/* A system call that no kernel has. */
enum { MARK = 0x4c4346 };

void count_from_here(const char *row, const char *set, const char *side, size_t calls, const char *bar) {
    fprintf(stderr, "%s|%s|%s|%zu|%s|", row, set, side, calls, bar);
    syscall(MARK, 0);
}

void count_to_here(void) {
    syscall(MARK, 1);
}

/* SplitMix64. */
uint64_t random_number(void) {
    static uint64_t state;
    uint64_t z = state += 0x9e3779b97f4a7c15;
    z = (z ^ z >> 30) * 0xbf58476d1ce4e5b9;
    z = (z ^ z >> 27) * 0x94d049bb133111eb;
    return z ^ z >> 31;
}
