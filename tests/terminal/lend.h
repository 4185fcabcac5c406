/*
 * Memory to lend to a call, between guard pages that no program may touch, so that a read or a write past either end stops the driver, and with a copy of what
 * it held, so that a place that had to stay is seen to have stayed. Assumes POSIX mmap.
 */
#ifndef LEND_H
#define LEND_H

#include <stddef.h>
#include <stdint.h>

/* The most numbers that one piece of lent memory has: a field's 6,144, and room for more than is allowed. */
#define LEND_MOST 8192

/* Sets up the pages; call it once. */
void lend_begin(void);

/* `count` numbers of arbitrary content, filled anew. There are five pieces, `place` 0 to 4; each ends or begins at a guard page, in turn. */
int64_t *lend(int place, size_t count);

/* The same for counts of 32 bits. Where the piece is at the beginning it starts at the guard page or one count behind it, an address that no int64_t has. */
uint32_t *lend_counts(int place, size_t count);

/* Notes what the piece holds now, after the caller filled it. */
void lend_note(int place);

/* Whether the numbers from `from` on, up to the piece's end, are as noted; with the slack of the page that the piece does not use. */
int lend_kept(int place, size_t from);

/* Whether a piece lent for an answer of one number is right: it holds the number, or on a refusal what it held. */
int lend_answered(int place, int refused, int64_t number);

#endif
