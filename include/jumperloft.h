/* Jumperloft, edition 1: a persistent vector over memory that a host lends.
 *
 * A host lends a state once, forms it, and sends batches of frames; up to eight parties share the state.
 * The library owns no memory and no global, and calls nothing but memcpy and memset.
 * "Document 01" decides what a frame does and which number is given back. */
#ifndef JUMPERLOFT1_H
#define JUMPERLOFT1_H

#include <stddef.h>
#include <stdint.h>

/* Before each of the library's calls. Hidden, a call goes to the copy that the caller is linked with, whatever its link
 * line and the loader do. Who exports the calls on purpose defines this before the header is included: as nothing, say. */
#ifndef JUMPERLOFT1_CALL
#ifdef __GNUC__
#define JUMPERLOFT1_CALL __attribute__((visibility("hidden")))
#else
#define JUMPERLOFT1_CALL
#endif
#endif

#ifdef __cplusplus
extern "C" {
#endif

/* ---- sizes and limits */

#define JUMPERLOFT1_MAX_NODES 65536u
#define JUMPERLOFT1_NODE_CELLS 32u
#define JUMPERLOFT1_PARTIES 8u /* party 0 is the host */
#define JUMPERLOFT1_SLOTS 8u   /* of each party */
#define JUMPERLOFT1_WALKS 2u   /* of each party */
#define JUMPERLOFT1_VERSIONS (JUMPERLOFT1_PARTIES * JUMPERLOFT1_SLOTS)
#define JUMPERLOFT1_WALK_NUMBERS (JUMPERLOFT1_PARTIES * JUMPERLOFT1_WALKS * 6u)
#define JUMPERLOFT1_WALK_LEVELS (JUMPERLOFT1_PARTIES * JUMPERLOFT1_WALKS * 2u * 15u)
#define JUMPERLOFT1_DEFAULT_BITS 5u
#define JUMPERLOFT1_MAX_BITS 5u /* bits are 1 to this */
#define JUMPERLOFT1_MAX_LENGTH 32768u
#define JUMPERLOFT1_FRAME_SIZE 12u
#define JUMPERLOFT1_ANSWER_SIZE 6u
#define JUMPERLOFT1_STACK_SIZE 1048576u

/* ---- operations; what each field of a frame means to it stands beside it, other fields are ignored */

enum {
    JUMPERLOFT1_NEW = 0x00,        /* an empty version in destination, index = bits */
    JUMPERLOFT1_CLONE = 0x01,      /* slot to destination */
    JUMPERLOFT1_RELEASE = 0x02,    /* slot */
    JUMPERLOFT1_LEN = 0x03,        /* slot; answers the length */
    JUMPERLOFT1_GET = 0x04,        /* slot, index; answers the element */
    JUMPERLOFT1_SET = 0x05,        /* slot to destination, index, value */
    JUMPERLOFT1_PUSH_BACK = 0x06,  /* slot to destination, value */
    JUMPERLOFT1_DROP_LAST = 0x07,  /* slot to destination */
    JUMPERLOFT1_OPEN_WALK = 0x08,  /* on slot, the walk's number in destination */
    JUMPERLOFT1_NEXT = 0x09,       /* the walk's number in slot; answers the element */
    JUMPERLOFT1_NEXT_BACK = 0x0A,  /* the walk's number in slot; answers the element */
    JUMPERLOFT1_CLOSE_WALK = 0x0B, /* the walk's number in slot */
    JUMPERLOFT1_HAND_OVER = 0x0C,  /* host only: slot of party "index" to destination of party "value" */
    JUMPERLOFT1_FREE_NODES = 0x0D, /* host only; answers the free nodes */
    JUMPERLOFT1_FIRST = 0x0E,      /* slot; answers the element */
    JUMPERLOFT1_LAST = 0x0F,       /* slot; answers the element */
    JUMPERLOFT1_COMPARE = 0x10     /* slot with destination; answers -1, 0 or 1 in two's complement */
};

/* ---- numbers given back: 0 to 10 in an answer, 0 and 11 to 13 in a report */

enum {
    JUMPERLOFT1_DONE = 0,
    JUMPERLOFT1_NO_PARTY = 1,      /* party above 7 */
    JUMPERLOFT1_NO_OPERATION = 2,  /* operation above 10 hexadecimal */
    JUMPERLOFT1_HOST_ONLY = 3,     /* hand-over or free nodes from a party other than 0 */
    JUMPERLOFT1_OUT_OF_RANGE = 4,  /* a slot above 7, a walk above 1, or a named party above 7 */
    JUMPERLOFT1_EMPTY_SOURCE = 5,  /* a named source slot is empty, or the walk is closed */
    JUMPERLOFT1_LIVE_TARGET = 6,   /* the slot to be filled is live, or the walk to be opened is open */
    JUMPERLOFT1_BAD_BITS = 7,      /* bits outside 1 to 5 */
    JUMPERLOFT1_NOTHING_THERE = 8, /* no element there, or the walk has ended */
    JUMPERLOFT1_FULL = 9,          /* push on a length of 32,768 */
    JUMPERLOFT1_NO_NODES = 10,     /* fewer free nodes than the charge */
    JUMPERLOFT1_ILL_FORMED = 11,   /* the state is not well-formed, or its sizes don't fit */
    JUMPERLOFT1_NO_ROOM = 12,      /* answer room below 6 bytes a frame */
    JUMPERLOFT1_RAGGED = 13,       /* request bytes not a multiple of 12 */
    JUMPERLOFT1_NOT_A_FRAME = 14   /* the program only: a line that isn't a frame */
};

/* ---- records */

/* One record of the version table. */
typedef struct jumperloft1_version {
    uint32_t live, root, bits, length;
} jumperloft1_version;

/* What a call reports: the number given back, and how many frames ran. */
typedef struct jumperloft1_report {
    uint32_t number;
    size_t frames;
} jumperloft1_report;

/* How many elements each slice of a state has; nodes is the count of kinds. */
typedef struct jumperloft1_sizes_of {
    size_t nodes, used, cells, counts, order;
    size_t versions, walk_numbers, walk_nodes, walk_indices;
} jumperloft1_sizes_of;

/* A lent state: a pointer for each slice, and the sizes. A host fills it once. */
typedef struct jumperloft1_state {
    uint8_t *kinds;
    uint8_t *used;
    uint32_t *counts;
    uint32_t *cells;
    uint32_t *order;
    jumperloft1_version *versions;
    uint32_t *walk_numbers;
    uint32_t *walk_nodes;
    int32_t *walk_indices;
    jumperloft1_sizes_of sizes;
} jumperloft1_state;

/* What stands in the 6 bytes of an answer. */
typedef struct jumperloft1_answer {
    uint8_t number;
    uint8_t fresh; /* the nodes that the call took */
    uint32_t value;
} jumperloft1_answer;

/* ---- the library's calls
 *
 * Any bytes may be lent. What a caller has to see to, as nothing in C can check it:
 *  - each pointer is aligned for its type and has as many elements as its count says, for the whole call;
 *    it may be null only where the count is 0;
 *  - no two slices overlap, the requests and the room included;
 *  - no other call, and no other writer, is at work on the same state, requests or room;
 *  - JUMPERLOFT1_STACK_SIZE bytes of stack are left. A batch uses 534 KiB of stack at any number of nodes, for the audit
 *    has its tables there; with less it ends in a fault at the guard page below the stack, and never in silence. */

/* The sizes of a state of so many nodes; all 0 where nodes is 0 or above JUMPERLOFT1_MAX_NODES. */
JUMPERLOFT1_CALL jumperloft1_sizes_of jumperloft1_sizes(size_t nodes);

/* Makes a fresh state: all slots empty, all walks closed, all nodes free. The cells stay as they are.
 * Reports DONE, or ILL_FORMED where the sizes don't fit, and then nothing is written; 0 frames either way. */
JUMPERLOFT1_CALL jumperloft1_report jumperloft1_form(
    uint8_t *kinds, size_t kinds_count,
    uint8_t *used, size_t used_count,
    uint32_t *counts, size_t counts_count,
    const uint32_t *cells, size_t cells_count,
    uint32_t *order, size_t order_count,
    jumperloft1_version *versions, size_t versions_count,
    uint32_t *walk_numbers, size_t walk_numbers_count,
    uint32_t *walk_nodes, size_t walk_nodes_count,
    int32_t *walk_indices, size_t walk_indices_count);

/* Audits the state once, then runs the frames of the requests in order, each answered at its 6 bytes of the room.
 * Reports DONE and the count of frames; a refused frame is answered with its number, and the next one runs.
 * Reports RAGGED, NO_ROOM or ILL_FORMED, checked in that order, and then nothing is written and no frame ran.
 * An empty batch is audited. Room beyond 6 bytes a frame stays untouched.
 * A call audits the whole state, so put many frames in one. */
JUMPERLOFT1_CALL jumperloft1_report jumperloft1_batch(
    uint8_t *kinds, size_t kinds_count,
    uint8_t *used, size_t used_count,
    uint32_t *counts, size_t counts_count,
    uint32_t *cells, size_t cells_count,
    uint32_t *order, size_t order_count,
    jumperloft1_version *versions, size_t versions_count,
    uint32_t *walk_numbers, size_t walk_numbers_count,
    uint32_t *walk_nodes, size_t walk_nodes_count,
    int32_t *walk_indices, size_t walk_indices_count,
    const uint8_t *requests, size_t requests_count,
    uint8_t *room, size_t room_count);

/* ---- a state as one thing */

/* The bytes of one block that holds a state of so many nodes; 0 where there is no such state. */
static inline size_t jumperloft1_bytes_for(size_t nodes)
{
    const jumperloft1_sizes_of n = jumperloft1_sizes(nodes);
    return n.nodes + n.used
        + sizeof(uint32_t) * (n.counts + n.cells + n.order + n.walk_numbers + n.walk_nodes)
        + sizeof(jumperloft1_version) * n.versions + sizeof(int32_t) * n.walk_indices;
}

/* Lays a state out in a block of jumperloft1_bytes_for(nodes) bytes, aligned for uint32_t, as malloc gives it.
 * Returns 1, or 0 where there is no such state or no such block; then the state is left as it was. */
static inline int jumperloft1_lay_out(void *memory, size_t nodes, jumperloft1_state *state)
{
    const jumperloft1_sizes_of n = jumperloft1_sizes(nodes);
    if (n.nodes == 0 || memory == NULL || (uintptr_t)memory % sizeof(uint32_t) != 0) {
        return 0;
    }
    /* words first, bytes last, so that each slice is aligned */
    state->cells = (uint32_t *)memory;
    state->counts = state->cells + n.cells;
    state->order = state->counts + n.counts;
    state->walk_numbers = state->order + n.order;
    state->walk_nodes = state->walk_numbers + n.walk_numbers;
    state->walk_indices = (int32_t *)(void *)(state->walk_nodes + n.walk_nodes);
    state->versions = (jumperloft1_version *)(void *)(state->walk_indices + n.walk_indices);
    state->kinds = (uint8_t *)(void *)(state->versions + n.versions);
    state->used = state->kinds + n.nodes;
    state->sizes = n;
    return 1;
}

/* jumperloft1_form on a state. */
static inline jumperloft1_report jumperloft1_form_state(const jumperloft1_state *state)
{
    const jumperloft1_sizes_of *n = &state->sizes;
    return jumperloft1_form(state->kinds, n->nodes, state->used, n->used, state->counts, n->counts,
        state->cells, n->cells, state->order, n->order, state->versions, n->versions,
        state->walk_numbers, n->walk_numbers, state->walk_nodes, n->walk_nodes,
        state->walk_indices, n->walk_indices);
}

/* jumperloft1_batch on a state. */
static inline jumperloft1_report jumperloft1_run(const jumperloft1_state *state,
    const uint8_t *requests, size_t requests_count, uint8_t *room, size_t room_count)
{
    const jumperloft1_sizes_of *n = &state->sizes;
    return jumperloft1_batch(state->kinds, n->nodes, state->used, n->used, state->counts, n->counts,
        state->cells, n->cells, state->order, n->order, state->versions, n->versions,
        state->walk_numbers, n->walk_numbers, state->walk_nodes, n->walk_nodes,
        state->walk_indices, n->walk_indices, requests, requests_count, room, room_count);
}

/* ---- frames and answers as bytes, most significant first */

static inline void jumperloft1_put_word(uint8_t *bytes, uint32_t word)
{
    bytes[0] = (uint8_t)(word >> 24);
    bytes[1] = (uint8_t)(word >> 16);
    bytes[2] = (uint8_t)(word >> 8);
    bytes[3] = (uint8_t)word;
}

/* Writes the 12 bytes of a frame. */
static inline void jumperloft1_put_frame(uint8_t *frame, uint8_t party, uint8_t operation,
    uint8_t slot, uint8_t destination, uint32_t index, uint32_t value)
{
    frame[0] = party;
    frame[1] = operation;
    frame[2] = slot;
    frame[3] = destination;
    jumperloft1_put_word(frame + 4, index);
    jumperloft1_put_word(frame + 8, value);
}

/* Sets the party of every frame in so many bytes of requests, whatever stood there.
 * A host that keeps its state does this to a plug-in's frames, where the plug-in can't write any more, and runs them. */
static inline void jumperloft1_set_party(uint8_t *requests, size_t requests_count, uint8_t party)
{
    for (size_t at = 0; at < requests_count; at += JUMPERLOFT1_FRAME_SIZE) {
        requests[at] = party;
    }
}

/* Reads the 6 bytes of an answer. */
static inline jumperloft1_answer jumperloft1_get_answer(const uint8_t *bytes)
{
    jumperloft1_answer answer;
    answer.number = bytes[0];
    answer.fresh = bytes[1];
    answer.value = (uint32_t)bytes[2] << 24 | (uint32_t)bytes[3] << 16 | (uint32_t)bytes[4] << 8 | bytes[5];
    return answer;
}

#ifdef __cplusplus
}
#endif

#endif
