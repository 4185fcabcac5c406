/* See lend.h. */
#define _DEFAULT_SOURCE
#include "lend.h"

#include <stdio.h>
#include <stdlib.h>
#include <string.h>
#include <sys/mman.h>
#include <unistd.h>

#include "random.h"

enum { PIECES = 5 };

static struct piece {
    unsigned char *room, *lent, noted[LEND_MOST * sizeof(int64_t) + 65536];
    size_t size, used; /* of the room between the guard pages, and of what is lent of it, in bytes */
    int at_end;
} pieces[PIECES];

void lend_begin(void) {
    size_t page = (size_t)sysconf(_SC_PAGESIZE);
    size_t size = (LEND_MOST * sizeof(int64_t) + page - 1) / page * page;
    for (int i = 0; i < PIECES; i++) {
        unsigned char *all = mmap(NULL, size + 2 * page, PROT_NONE, MAP_PRIVATE | MAP_ANONYMOUS, -1, 0);
        if (all == MAP_FAILED || mprotect(all + page, size, PROT_READ | PROT_WRITE) != 0 || size > sizeof pieces[i].noted) {
            perror("lend_begin");
            exit(2);
        }
        pieces[i].room = all + page;
        pieces[i].size = size;
    }
}

/* The bytes round a small piece that are filled and watched; guard pages watch the rest. */
static size_t watched(const struct piece *p, size_t *from) {
    size_t begin = (size_t)(p->lent - p->room), end = begin + p->used, margin = 64;
    *from = begin < margin ? 0 : begin - margin;
    size_t to = p->size - end < margin ? p->size : end + margin;
    return to - *from;
}

/* So many bytes at the end of the room or, in turn, so far behind its beginning. */
static void *lend_bytes(int place, size_t used, size_t behind) {
    struct piece *p = &pieces[place];
    p->used = used;
    p->at_end = !p->at_end;
    p->lent = p->room + (p->at_end ? p->size - used : behind);
    size_t from, size = watched(p, &from);
    for (size_t i = 0; i < size; i += sizeof(uint64_t)) {
        uint64_t bits = random_bits();
        memcpy(p->room + from + i, &bits, size - i < sizeof bits ? size - i : sizeof bits);
    }
    lend_note(place);
    return p->lent;
}

int64_t *lend(int place, size_t count) { return lend_bytes(place, count * sizeof(int64_t), 0); }

uint32_t *lend_counts(int place, size_t count) { return lend_bytes(place, count * sizeof(uint32_t), random_below(2) * sizeof(uint32_t)); }

void lend_note(int place) {
    struct piece *p = &pieces[place];
    size_t from, size = watched(p, &from);
    memcpy(p->noted + from, p->room + from, size);
}

int lend_kept(int place, size_t from_number) {
    struct piece *p = &pieces[place];
    size_t from, size = watched(p, &from);
    size_t begin = (size_t)(p->lent - p->room), after = begin + from_number * sizeof(int64_t);
    return memcmp(p->noted + from, p->room + from, begin - from) == 0 && memcmp(p->noted + after, p->room + after, from + size - after) == 0;
}

int lend_answered(int place, int refused, int64_t number) {
    if (refused) return lend_kept(place, 0);
    return memcmp(pieces[place].lent, &number, sizeof number) == 0 && lend_kept(place, 1);
}
