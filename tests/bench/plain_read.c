/* Reading in plain C: the run of a word by the leading zeros of the bits or of their complement, and the ratio by
   forward convergents. */
#include "plain.h"
#include "plain_text.h"

/* What is left of a string, from the top down. */
struct rest {
    uint64_t high, low;
};

static inline struct rest drop(struct rest s, unsigned n) {
    return (struct rest){s.high << n | s.low >> 1 >> (63 - n), s.low << n};
}

/* The number whose digits follow a run of r and the bit that stops it. */
static inline uint64_t number_after(uint64_t bits, unsigned r) {
    return (bits << r | (uint64_t)1 << 63) >> (63 - r);
}

static inline struct lcf_ratio read_bits(struct rest s) {
    const struct lcf_ratio over = {.refusal = LCF_OUT_OF_RANGE};
    /* p/q is the last convergent where a turned word is due, and u/v where a word is */
    uint64_t p = 0, q = 1, u = 1, v = 0;
    bool word = s.high >> 63;
    s = drop(s, 1);
    if (word) goto word;
    for (;;) {
        unsigned r;
        uint64_t a;
        if (s.high == 0) return s.low ? over : (struct lcf_ratio){0, p, q};
        r = __builtin_clzll(s.high);
        if (r > 31) return over;
        a = number_after(~s.high, r);
        u += a * p;
        v += a * q;
        if ((u | v) >> 32) return over;
        s = drop(s, 2 * r + 1);
    word:
        if (s.high >> 32 == UINT32_MAX) return over;
        r = __builtin_clzll(~s.high);
        a = number_after(s.high, r);
        p += a * u;
        q += a * v;
        if ((p | q) >> 32) return over;
        s = drop(s, 2 * r + 1);
    }
}

struct lcf_ratio plain_read_column(const uint8_t *column, size_t length) {
    if (length != LCF_COLUMN_BYTES) return (struct lcf_ratio){.refusal = LCF_WRONG_COLUMN};
    uint64_t high;
    uint32_t low;
    memcpy(&high, column, 8);
    memcpy(&low, column + 8, 4);
    return read_bits((struct rest){__builtin_bswap64(high), (uint64_t)__builtin_bswap32(low) << 32});
}

struct lcf_ratio plain_read_text(const uint8_t *key, size_t length) {
    uint32_t fault = judge(key, length);
    if (fault) return (struct lcf_ratio){.refusal = fault};
    if (length <= 64) return read_bits((struct rest){gather(key, length), 0});
    return read_bits((struct rest){gather(key, 64), gather(key + 64, length - 64)});
}
