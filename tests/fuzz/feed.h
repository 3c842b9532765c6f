/* Input for a call out of the fuzzer's bytes. */
#ifndef FEED_H
#define FEED_H

#include "lent.h"

extern uint64_t number; /* decides on the places of lent memory; made of the bytes, so that a finding can be repeated */
extern size_t bytes_left;
extern struct lent first, second, out;

/* Takes new bytes, and forgets what was lent. */
void feed(const uint8_t *data, size_t size);

/* The next byte, or 0 where there is none left. */
uint8_t take(void);

/* A 32-bit number of any count of digits. */
uint32_t take_term(void);

/* Mostly a small number, at times one that a narrower type would take for small. */
size_t take_size(void);

/* Lends a key, with a fault at times. */
void take_key(struct lent *lent, uint64_t salt);

/* The second key of a pair: any, or the first one with a character turned and its end cut off. */
void take_second(void);

void take_column(void);

/* A buffer of the length that is asked for, or any. */
void take_out(size_t asked);

#endif
