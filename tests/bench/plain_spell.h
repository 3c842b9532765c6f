/* Making a key in plain C. The word of a number of k + 1 binary digits is a + 2^(2k+1) - 3 * 2^k in 2k + 1 bits, the
   turned word 3 * 2^k - 1 - a. */
#ifndef PLAIN_SPELL_H
#define PLAIN_SPELL_H

#include <stddef.h>
#include <stdint.h>

/* A string of bits as a number in two machine words. */
struct string {
    uint64_t high, low;
    unsigned bits;
};

/* A key's 96 bits, from the top of high down to the lowest of low. */
struct block {
    uint64_t high;
    uint32_t low;
};

static inline struct string append(struct string s, uint64_t word, unsigned n) {
    return (struct string){s.high << n | s.low >> (64 - n), (s.low << n) + word, s.bits + n};
}

static inline struct string append_word(struct string s, uint32_t a) {
    unsigned k = 31 - __builtin_clz(a), n = 2 * k + 1;
    return append(s, a + ((uint64_t)1 << n) - ((uint64_t)3 << k), n);
}

static inline struct string append_turned(struct string s, uint32_t a) {
    unsigned k = 31 - __builtin_clz(a);
    return append(s, ((uint64_t)3 << k) - 1 - a, 2 * k + 1);
}

/* One Euclid: quotients don't depend on common factors, and the last divisor is the greatest common one. */
static inline struct block spell(uint32_t p, uint32_t q, uint32_t *quotients, uint32_t *divisor) {
    struct string s = {0, 0, 1};
    uint32_t d = q, r = p, count = 0;
    if (p >= q) {
        s = append_word((struct string){0, 1, 1}, p / q);
        r = p % q;
        count = 1;
    }
    while (r) {
        uint32_t t = (d - 1) % r + 1;
        s = append_turned(s, (d - 1) / r);
        s = append_word(s, r / t);
        d = t;
        r = r % t;
        count += 2;
    }
    *quotients = count;
    *divisor = d;
    if (s.bits <= 64) return (struct block){s.low << (64 - s.bits), 0};
    return (struct block){s.high << (128 - s.bits) | s.low >> (s.bits - 64), s.low << (128 - s.bits) >> 32};
}

/* Zeros behind are dropped, but the first character stays. */
static inline size_t characters_of(struct block b) {
    if (b.low) return 96 - __builtin_ctz(b.low);
    return b.high ? 64 - __builtin_ctzll(b.high) : 1;
}

/* The top eight bits as characters. The product has a copy of them at every ninth place, so that the bit wanted in each
   of its bytes stands at the same place there. */
static inline uint64_t spread(uint64_t bits) {
    return ((bits >> 56) * 0x8040201008040201 >> 7 & 0x0101010101010101) + 0x3030303030303030;
}

#endif
