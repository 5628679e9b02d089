/* A plain reading of a state: whether it is well-formed, what it holds, and what a frame has to make of it. */
#ifndef CONTENTS_H
#define CONTENTS_H

#include <jumperloft.h>

enum { FREE_KIND, LEAF_KIND, BRANCH_KIND };
enum { LEVELS = 15 }; /* of a list at most, and of a walk's stack */
/* a walk's numbers */
enum { WALK_LIVE, WALK_ROOT, WALK_BITS, WALK_LENGTH, TAKEN_IN_FRONT, TAKEN_AT_BACK, WALK_RECORD };

/* What a frame says; the places in the tables count only as far as the operation has them. */
typedef struct frame_fields {
    uint8_t operation;
    uint32_t index, value;
    size_t source, target, walk, to_open;
} frame_fields;

enum { PROBES = 16 };

/* A slot's list: all of it up to so many elements, else elements from all over it. Zero where the slot is empty. */
typedef struct contents {
    uint32_t live, bits, length, probes[PROBES];
} contents;

frame_fields fields_of(const uint8_t *frame);
uint32_t height_of(uint32_t bits, uint32_t length);
uint32_t count_free(const uint8_t *kinds, size_t nodes);
/* The number that a frame has to be answered with in this state. */
uint32_t expected_number(const jumperloft1_state *state, const uint8_t *frame);
/* Of any bytes, of up to twice MOST_NODES nodes. */
int is_well_formed(const jumperloft1_state *state);
/* Of every slot of a well-formed state. */
void read_contents(const jumperloft1_state *state, contents all[JUMPERLOFT1_VERSIONS]);

/* After a frame that was done: its answer, the list that it filled in, and that every other slot holds what it held. */
void check_done(const jumperloft1_state *after, const contents before[JUMPERLOFT1_VERSIONS], const uint8_t *frame,
    jumperloft1_answer answer);

#endif
