/* Calls under the library's names that do nothing but note what they are handed. */
#ifndef NOTING_H
#define NOTING_H

#include "guarded.h"

/* What jumperloft1_sizes answers to as many nodes as stand in it; to any other number it answers none. */
extern jumperloft1_sizes_of noted_sizes;
/* The nodes that it was asked for last. */
extern size_t asked_nodes;

/* What form or batch was handed last; a form has no requests and no room. */
typedef struct handed {
    const void *slices[SLICES];
    size_t counts[SLICES];
} handed;
extern handed last_handed;

/* What both report. */
extern const jumperloft1_report told;

#endif
