/* Memory to lend to a call: between guards, at every alignment, at times with its end or its beginning directly at
   memory that can't be touched, so that a read or write outside is seen. */
#ifndef LENT_H
#define LENT_H

#include <stdbool.h>
#include <stddef.h>
#include <stdint.h>

enum { LENT_GUARD = 64, LENT_MOST = 24588 }; /* a row more than the largest table has */

struct lent {
    uint8_t *bytes; /* what is lent */
    size_t length;
    uint8_t *block;   /* the memory that it lies in */
    uint8_t *watched; /* the lent bytes and their guards */
    size_t watched_length;
    size_t front;                                        /* how many of the watched bytes come before the lent ones */
    uint8_t before[LENT_GUARD + LENT_MOST + LENT_GUARD]; /* what was watched, as it was lent */
};

/* Lends content, or a pattern where that is NULL, of at most LENT_MOST bytes. The number decides on place and pattern:
   equal numbers make equal ones. No bytes at all are lent as NULL one time in two. */
void lend(struct lent *lent, size_t length, const uint8_t *content, uint64_t number);

/* Forgets what was lent: nothing is watched. */
void take_back(struct lent *lent);

/* Whether everything that is watched is as it was lent, but for the first `written` of the lent bytes. */
bool is_kept(const struct lent *lent, size_t written);

#endif
