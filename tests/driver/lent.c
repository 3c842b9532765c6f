#define _DEFAULT_SOURCE
#include "lent.h"

#include <stdio.h>
#include <stdlib.h>
#include <string.h>
#include <sys/mman.h>

/* As large as the largest page of any machine that emulates this one, so that protection holds there too. */
enum { BLOCK = 65536 };

/* A block between two that can't be touched. */
static uint8_t *new_block(void) {
    uint8_t *memory = mmap(NULL, 3 * BLOCK, PROT_NONE, MAP_PRIVATE | MAP_ANONYMOUS, -1, 0);
    if (memory == MAP_FAILED || mprotect(memory + BLOCK, BLOCK, PROT_READ | PROT_WRITE) != 0) {
        perror("memory to lend");
        exit(1);
    }
    return memory + BLOCK;
}

/* Where the lent bytes begin in their block: one time in four they end with it, one in four they begin with it. */
static size_t place(size_t length, uint64_t mixed) {
    switch (mixed % 4) {
    case 0: return BLOCK - length;
    case 1: return 0;
    default: return LENT_GUARD + mixed / 4 % 8;
    }
}

void lend(struct lent *lent, size_t length, const uint8_t *content, uint64_t number) {
    uint64_t mixed = number * 0x9e3779b97f4a7c15 >> 32;
    size_t at = place(length, mixed);
    size_t first = at < LENT_GUARD ? 0 : at - LENT_GUARD;
    size_t last = at + length + LENT_GUARD > BLOCK ? BLOCK : at + length + LENT_GUARD;
    if (length > LENT_MOST) {
        fprintf(stderr, "%zu bytes are too many to lend\n", length);
        exit(1);
    }
    if (lent->block == NULL) lent->block = new_block();
    lent->bytes = lent->block + at;
    lent->length = length;
    lent->watched = lent->block + first;
    lent->watched_length = last - first;
    lent->front = at - first;
    for (size_t i = 0; i < lent->watched_length; i++) lent->watched[i] = (uint8_t)(mixed / 32 + 29 * i);
    if (content != NULL) memcpy(lent->bytes, content, length);
    memcpy(lent->before, lent->watched, lent->watched_length);
    if (length == 0 && mixed / 32 % 2 == 0) lent->bytes = NULL;
}

void take_back(struct lent *lent) {
    lent->watched_length = 0;
}

bool is_kept(const struct lent *lent, size_t written) {
    if (lent->watched_length == 0) return true;
    size_t behind = lent->front + written;
    return memcmp(lent->watched, lent->before, lent->front) == 0 &&
           memcmp(lent->watched + behind, lent->before + behind, lent->watched_length - behind) == 0;
}
