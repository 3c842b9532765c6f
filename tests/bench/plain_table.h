/* What the calls of a stock table share. */
#ifndef PLAIN_TABLE_H
#define PLAIN_TABLE_H

#include "lcf.h"
#include "plain_spell.h"

/* The first of refusals 2 and 16 that a table meets, or 0; and then how many of its rows are below a key. */
uint32_t plain_judge(const struct lcf_row *rows, size_t length, size_t used, struct block key, size_t *below);

#endif
