/* An input is a row of steps of 8 bytes: the first says what is lent, each other one does something with it. */
#ifndef STEPS_H
#define STEPS_H

#include "twins.h"

enum { STEP = 8 };

/* the first byte of a step, modulo ACTIONS, with what the others mean */
enum {
    FRAME,     /* a frame that makes sense mostly joins the batch: operation, party, slot, destination, index, -, value */
    RAW_FRAME, /* a frame of just these bytes: party, operation, slot, destination, index, value */
    PUSHES,    /* so many elements pushed by turns from one slot to another, the source released: party, slot, slot, count, value */
    TAIL,      /* bytes that make no whole frame: count, value */
    CALL,      /* the batch is called: room, by how much, one by one */
    FORM,
    DAMAGE, /* slice, how, place (2), number (2), count */
    FILL,   /* slice, or all; how; a pattern of 4 bytes */
    ACTIONS
};

/* how a state begins, the fifth byte of the first step, modulo BEGINNINGS; before it stand the nodes, whether a size is
 * wrong, which one and how, after it the length (2) and the bits of a folded list */
enum { FORMED, FOLDED, AS_IF_FRESH, BEGINNINGS };
enum { WRONG_SIZE = 224 }; /* from here on a size is wrong */
enum { MANY = 255 };       /* as the nodes: the most that are lent */

enum { SET, PLUS_ONE, MINUS_ONE, FLIP, HIGH, SWAP, COPY, COPY_RUN, DAMAGES };
enum { EXACT, SHORT, NO_ROOM_AT_ALL, LONGER, ROOMS };

/* What an input leads to. */
void run_steps(twins *t, const uint8_t *data, size_t size);

/* ---- what the steps are made of */

void begin(twins *t, const uint8_t *step);
/* In a fresh state of 30 nodes or more: a list in party 0's slot 0 whose equal full subtrees are one node. */
void make_folded(const jumperloft1_state *state, uint32_t bits, uint32_t length);
/* Gives back the place that was damaged, counted within a record: a node's cells, a version, a walk's numbers or its levels. */
size_t damage(const twins *t, const uint8_t *step);
void fill_slices(const twins *t, const uint8_t *step);

/* Writes the inputs that a fuzzer starts from to a folder. */
void write_seeds(const char *folder);

#endif
