/* Writing in plain C. */
#include "plain.h"
#include "plain_spell.h"
#include <string.h>

struct lcf_written plain_write_column(uint32_t numerator, uint32_t denominator, uint8_t *out, size_t length) {
    if (denominator == 0) return (struct lcf_written){.refusal = LCF_ZERO_DENOMINATOR};
    if (length < LCF_COLUMN_BYTES) return (struct lcf_written){.refusal = LCF_SHORT_BUFFER};
    uint32_t quotients, divisor;
    struct block b = spell(numerator, denominator, &quotients, &divisor);
    uint64_t high = __builtin_bswap64(b.high);
    uint32_t low = __builtin_bswap32(b.low);
    memcpy(out, &high, 8);
    memcpy(out + 8, &low, 4);
    return (struct lcf_written){0, quotients, characters_of(b)};
}

/* The first n of 64 bits as characters. */
static inline void put(uint8_t *out, uint64_t bits, size_t n) {
    size_t i = 0;
    for (; i + 8 <= n; i += 8, bits <<= 8) {
        uint64_t group = spread(bits);
        memcpy(out + i, &group, 8);
    }
    for (; i < n; i++, bits <<= 1) out[i] = '0' + (bits >> 63);
}

struct lcf_written plain_write_text(uint32_t numerator, uint32_t denominator, uint8_t *out, size_t length) {
    if (denominator == 0) return (struct lcf_written){.refusal = LCF_ZERO_DENOMINATOR};
    if (length < LCF_TEXT_BYTES) return (struct lcf_written){.refusal = LCF_SHORT_BUFFER};
    uint32_t quotients, divisor;
    struct block b = spell(numerator, denominator, &quotients, &divisor);
    size_t n = characters_of(b);
    put(out, b.high, n < 64 ? n : 64);
    if (n > 64) put(out + 64, (uint64_t)b.low << 32, n - 64);
    return (struct lcf_written){0, quotients, n};
}
