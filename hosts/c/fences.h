/* Bytes that a test hands over to be read, in pages that can only be read, between two that cannot be touched. */
#ifndef FENCES_H
#define FENCES_H

#include <stddef.h>
#include <stdint.h>

/* Where the bytes stand in their pages: behind the first page that cannot be touched, or before the second. */
enum side { BEHIND_THE_FIRST, BEFORE_THE_SECOND };

struct fenced {
    uint8_t *pages;
    size_t size;
    const uint8_t *bytes;
};

/*
 * A copy of the bytes between fences: a byte that is read too many on this side, and any byte that is written, ends the program. What a page has
 * beside the bytes is 0. Where there are no bytes, `bytes` is at the border of the two pages.
 */
struct fenced fence(const uint8_t *bytes, size_t length, enum side side);

/* Gives the pages back. */
void take_down(struct fenced *fenced);

#endif
