/* Comparing, cutting and stepping in plain C. */
#include "plain.h"
#include "plain_text.h"

struct lcf_standing plain_compare(const uint8_t *first, size_t first_length, const uint8_t *second,
                                  size_t second_length) {
    uint32_t fault = judge(first, first_length);
    if (fault == 0) fault = judge(second, second_length);
    if (fault) return (struct lcf_standing){.refusal = fault};
    size_t shorter = first_length < second_length ? first_length : second_length;
    int by = memcmp(first, second, shorter);
    if (by == 0) by = (first_length > second_length) - (first_length < second_length);
    return (struct lcf_standing){0, by < 0 ? LCF_BEFORE : by > 0 ? LCF_AFTER : LCF_SAME};
}

struct lcf_text plain_cut(const uint8_t *key, size_t key_length, size_t width, uint8_t *out, size_t length) {
    uint32_t fault = judge(key, key_length);
    if (fault) return (struct lcf_text){.refusal = fault};
    if (width == 0 || width > LCF_TEXT_BYTES) return (struct lcf_text){.refusal = LCF_OUTSIDE};
    if (length < LCF_TEXT_BYTES) return (struct lcf_text){.refusal = LCF_SHORT_BUFFER};
    size_t n = width < key_length ? width : key_length;
    while (n > 1 && key[n - 1] == '0') n--;
    memcpy(out, key, n);
    return (struct lcf_text){0, n};
}

struct lcf_started plain_start(const uint8_t *key, size_t length) {
    uint32_t fault = judge(key, length);
    if (fault) return (struct lcf_started){.refusal = fault};
    return (struct lcf_started){0, {1, key[0] == '0'}};
}

/* Words are short, so the characters are read where they stand: the run up to the one that stops it, then as many
   digits. Past the key they are zeros; in a turned word 0 and 1 change places. */
struct lcf_stepped plain_step(const uint8_t *key, size_t length, struct lcf_place place) {
    uint32_t fault = judge(key, length);
    if (fault) return (struct lcf_stepped){.refusal = fault, .place = place};
    if (place.used == 0 || place.used > 160) return (struct lcf_stepped){.refusal = LCF_OUTSIDE, .place = place};
    if (place.turned && place.used >= length) return (struct lcf_stepped){.place = place};
    uint8_t one = place.turned ? '0' : '1';
    size_t at = place.used, run = 0;
    while (at < length && key[at] == one) at++, run++;
    if (run > 31) return (struct lcf_stepped){.refusal = LCF_OUT_OF_RANGE, .place = place};
    at++;
    uint32_t value = 1;
    for (size_t i = 0; i < run; i++, at++) value = 2 * value + ((at < length ? key[at] : '0') == one);
    return (struct lcf_stepped){0, value, true, {at, !place.turned}};
}
