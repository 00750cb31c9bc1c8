/*
 * Memory to lend to the archive. What is lent lies against a page that nobody may touch, before its first byte or after its last,
 * so that a read or a write past that end traps. On its other side lies a page at least of a fixed pattern, which is compared
 * after the call, so that a write past that end is seen. The sanitizers would notice neither: the archive's code is not
 * instrumented by them, and reads and writes what it likes of the memory around an ordinary block.
 */
#ifndef LENT_H
#define LENT_H

#include "checks.h"

/* At the end of a page, numbers are aligned for their type and often for nothing larger. */
enum place { AT_START, AT_END, PLACES };

typedef struct {
    unsigned char *pages; /* those that may be touched */
    size_t total;         /* their bytes */
    unsigned char *data;  /* what is lent now */
    size_t size;          /* its bytes */
} lent;

/* Pages to lend up to `most` bytes from. */
lent lent_pages(size_t most);

/* Lends a copy of `size` bytes at the start or at the end of the pages. Of 0 bytes, it lends NULL or the page that traps. */
void *lend(lent *memory, const void *content, size_t size, enum place place);

/*
 * Lends so many places to be written. Each holds a number of its own, which is its complement where the slice lies at an end: so a place
 * that is written is seen, even if once what is written is what was there. `content` then has them too.
 */
int64_t *lend_places(lent *memory, int64_t *content, size_t places, enum place place);

/* Compares what is lent with `content`, and all around it with the pattern. */
void compare_lent(const lent *memory, const void *content, const char *what);

/* Address space that nobody may touch, for lengths that no store of the test's own could have. */
void *untouchable(size_t size);

#endif
