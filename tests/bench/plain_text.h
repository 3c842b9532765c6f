/* Text keys in plain C, eight characters at a time: a group is one machine word, its first character lowest. */
#ifndef PLAIN_TEXT_H
#define PLAIN_TEXT_H

#include "lcf.h"
#include <string.h>

static inline uint64_t load8(const uint8_t *k) {
    uint64_t group;
    memcpy(&group, k, 8);
    return group;
}

/* Whether each of eight characters is 0 or 1: they differ in the lowest bit alone. */
static inline bool plain8(uint64_t group) {
    return (group & 0xfefefefefefefefe) == 0x3030303030303030;
}

/* The first of refusals 3 to 6 that a text key meets, or 0. The last group overlaps the one before. */
static inline uint32_t judge(const uint8_t *k, size_t n) {
    if (n == 0) return LCF_EMPTY_KEY;
    if (n > LCF_TEXT_BYTES) return LCF_LONG_KEY;
    if (n < 8) {
        for (size_t i = 0; i < n; i++)
            if ((k[i] & 0xfe) != '0') return LCF_STRANGE_CHARACTER;
    } else {
        for (size_t i = 0; i + 8 <= n; i += 8)
            if (!plain8(load8(k + i))) return LCF_STRANGE_CHARACTER;
        if (!plain8(load8(k + n - 8))) return LCF_STRANGE_CHARACTER;
    }
    return n > 1 && k[n - 1] == '0' ? LCF_LAST_ZERO : LCF_OK;
}

/* At most 64 judged characters as bits from the top of a machine word down. The product adds the eight lowest bits up
   in its top byte, the first on top. */
static inline uint64_t gather(const uint8_t *k, size_t n) {
    uint64_t bits = 0;
    size_t i = 0;
    for (; i + 8 <= n; i += 8)
        bits |= (load8(k + i) & 0x0101010101010101) * 0x8040201008040201 >> 56 << (56 - i);
    for (; i < n; i++) bits |= (uint64_t)(k[i] & 1) << (63 - i);
    return bits;
}

#endif
