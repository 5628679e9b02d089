/* One state lent twice, and calls on both with all that has to hold of them. */
#ifndef TWINS_H
#define TWINS_H

#include "guarded.h"

enum { MOST_NODES = 4100, MOST_FRAMES = 128, MOST_REQUESTS = 12 * MOST_FRAMES + 11, MOST_ROOM = 6 * MOST_FRAMES + 255 };

/* The first touches a page that faults after each slice, the second one before each slice.
 * What an input builds or damages is the first; each call begins with the second made equal to it. */
typedef struct twins {
    loan first, second;
    uint8_t *before; /* all that was lent to the call at hand */
    uint8_t *after;
    uint8_t *good; /* the last state that was served or formed */
} twins;

typedef struct call {
    uint8_t requests[MOST_REQUESTS];
    size_t requests_size, room_size;
    int one_by_one; /* whether the second twin's frames are sent in batches of their own */
} call;

void make_twins(twins *t);
/* Lends these sizes, all bytes of one fixed pattern; they may be wrong by up to twice what MOST_NODES needs. */
void lend_twins(twins *t, jumperloft1_sizes_of sizes);
int sizes_fit(jumperloft1_sizes_of sizes);
/* What the first twin holds is what a refused batch leads back to; if it has to be, it is well-formed. */
void begin_here(twins *t, int well_formed);
/* What the library says of the sizes of so many nodes. */
void check_sizes(size_t nodes);

/* Each gives back the number reported, or aborts with what is wrong. A batch refused with 11 ends with the last good state. */
uint32_t form_checked(twins *t);
uint32_t batch_checked(twins *t, const call *c);

/* Prints each call from now on. */
void print_calls(void);

#endif
