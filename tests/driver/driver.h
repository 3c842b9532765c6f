/* What the driver's files share: a line's fields as input, what is told of an answer, and the calls in a file of their
   own. */
#ifndef DRIVER_H
#define DRIVER_H

#include "lent.h"

extern struct lent first, out; /* what a call only reads, and what it may change */

/* A field as a number of at most `most`. */
uint64_t number(const char *field, uint64_t most);

/* Lends a field's bytes as `first`, and as `out`. */
void lend_first(const char *field);
void lend_table(const char *field);

void tell(uint64_t value);

/* A flag by its byte: one that is neither 0 nor 1 is an error. */
void tell_flag(const bool *flag);

/* The whole table in `out`, which a call may change anywhere. */
void tell_table(void);

/* What makes the answer differ from any that a line has. */
void tell_fault(const char *fault);

/* The calls of a stock table. */
void stock_put(char **input);
void stock_take(char **input);
void stock_find(char **input);
void stock_from(char **input);

#endif
