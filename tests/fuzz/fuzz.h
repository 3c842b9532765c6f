/* What the fuzz target's files share. */
#ifndef FUZZ_H
#define FUZZ_H

#include <stdint.h>

#define MUST(condition) ((condition) ? (void)0 : violated(#condition, __func__))

void violated(const char *condition, const char *where);

/* The first refusal that applies. */
uint32_t in_order(uint32_t one, uint32_t next);

/* Calls of one stock table. */
void stock(void);

#endif
