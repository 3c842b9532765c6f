/* The calls of lcf.h in plain C: the yardstick that the proved ones are counted against. Each takes and gives the same,
   refuses in the same order, and has written nothing where it refuses. */
#ifndef PLAIN_H
#define PLAIN_H

#include "lcf.h"

struct lcf_written plain_write_text(uint32_t numerator, uint32_t denominator, uint8_t *out, size_t length);
struct lcf_written plain_write_column(uint32_t numerator, uint32_t denominator, uint8_t *out, size_t length);
struct lcf_ratio plain_read_text(const uint8_t *key, size_t length);
struct lcf_ratio plain_read_column(const uint8_t *column, size_t length);
struct lcf_standing plain_compare(const uint8_t *first, size_t first_length, const uint8_t *second,
                                  size_t second_length);
struct lcf_text plain_cut(const uint8_t *key, size_t key_length, size_t width, uint8_t *out, size_t length);
struct lcf_started plain_start(const uint8_t *key, size_t length);
struct lcf_stepped plain_step(const uint8_t *key, size_t length, struct lcf_place place);
struct lcf_stocked plain_stock_put(void *table, size_t length, size_t used, uint32_t numerator, uint32_t denominator,
                                   uint32_t quantity);
struct lcf_stocked plain_stock_take(void *table, size_t length, size_t used, uint32_t numerator, uint32_t denominator,
                                    uint32_t quantity);
struct lcf_found plain_stock_find(const void *table, size_t length, size_t used, uint32_t numerator,
                                  uint32_t denominator);
struct lcf_listed plain_stock_from(const void *table, size_t length, size_t used, uint32_t numerator,
                                   uint32_t denominator);

#endif
