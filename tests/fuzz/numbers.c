/* The number that a frame has to be answered with: document 01's checks 1 to 10, in that order. */
#include "contents.h"

/* what an operation has its fields for */
enum { SOURCE = 1, TARGET = 2, WALK = 4, TO_OPEN = 8, SECOND = 16, PARTIES = 32 };

static const uint8_t uses[JUMPERLOFT1_COMPARE + 1] = {[JUMPERLOFT1_NEW] = TARGET,
    [JUMPERLOFT1_CLONE] = SOURCE | TARGET, [JUMPERLOFT1_RELEASE] = SOURCE, [JUMPERLOFT1_LEN] = SOURCE,
    [JUMPERLOFT1_GET] = SOURCE, [JUMPERLOFT1_SET] = SOURCE | TARGET, [JUMPERLOFT1_PUSH_BACK] = SOURCE | TARGET,
    [JUMPERLOFT1_DROP_LAST] = SOURCE | TARGET, [JUMPERLOFT1_OPEN_WALK] = SOURCE | TO_OPEN, [JUMPERLOFT1_NEXT] = WALK,
    [JUMPERLOFT1_NEXT_BACK] = WALK, [JUMPERLOFT1_CLOSE_WALK] = WALK,
    [JUMPERLOFT1_HAND_OVER] = SOURCE | TARGET | PARTIES, [JUMPERLOFT1_FREE_NODES] = 0, [JUMPERLOFT1_FIRST] = SOURCE,
    [JUMPERLOFT1_LAST] = SOURCE, [JUMPERLOFT1_COMPARE] = SOURCE | SECOND};

static int out_of_range(const uint8_t *frame, uint8_t used, const frame_fields *f)
{
    return (used & SOURCE && frame[2] >= JUMPERLOFT1_SLOTS) || (used & (TARGET | SECOND) && frame[3] >= JUMPERLOFT1_SLOTS)
        || (used & WALK && frame[2] >= JUMPERLOFT1_WALKS) || (used & TO_OPEN && frame[3] >= JUMPERLOFT1_WALKS)
        || (used & PARTIES && (f->index >= JUMPERLOFT1_PARTIES || f->value >= JUMPERLOFT1_PARTIES));
}

/* Checks 1 to 4 need no state. */
static uint32_t number_without_state(const uint8_t *frame, const frame_fields *f)
{
    const int host_only = f->operation == JUMPERLOFT1_HAND_OVER || f->operation == JUMPERLOFT1_FREE_NODES;
    if (frame[0] >= JUMPERLOFT1_PARTIES) {
        return JUMPERLOFT1_NO_PARTY;
    }
    if (f->operation > JUMPERLOFT1_COMPARE) {
        return JUMPERLOFT1_NO_OPERATION;
    }
    if (host_only && frame[0] != 0) {
        return JUMPERLOFT1_HOST_ONLY;
    }
    return out_of_range(frame, uses[f->operation], f) ? JUMPERLOFT1_OUT_OF_RANGE : JUMPERLOFT1_DONE;
}

static int nothing_there(const frame_fields *f, const jumperloft1_version *v, const uint32_t *walk)
{
    switch (f->operation) {
    case JUMPERLOFT1_GET:
    case JUMPERLOFT1_SET: return f->index >= v->length;
    case JUMPERLOFT1_FIRST:
    case JUMPERLOFT1_LAST:
    case JUMPERLOFT1_DROP_LAST: return v->length == 0;
    case JUMPERLOFT1_NEXT:
    case JUMPERLOFT1_NEXT_BACK: return walk[TAKEN_IN_FRONT] + walk[TAKEN_AT_BACK] == walk[WALK_LENGTH];
    default: return 0;
    }
}

static uint32_t charge(const frame_fields *f, const jumperloft1_version *v)
{
    switch (f->operation) {
    case JUMPERLOFT1_NEW: return 1;
    case JUMPERLOFT1_PUSH_BACK: return height_of(v->bits, v->length + 1) + 1;
    case JUMPERLOFT1_SET:
    case JUMPERLOFT1_DROP_LAST: return height_of(v->bits, v->length) + 1;
    default: return 0;
    }
}

uint32_t expected_number(const jumperloft1_state *s, const uint8_t *frame)
{
    const frame_fields f = fields_of(frame);
    const uint32_t early = number_without_state(frame, &f);
    if (early != JUMPERLOFT1_DONE) {
        return early;
    }
    /* of what a frame doesn't use, the place may be none */
    const uint8_t used = uses[f.operation];
    const jumperloft1_version *v = &s->versions[used & SOURCE ? f.source : 0];
    const jumperloft1_version *other = &s->versions[used & (TARGET | SECOND) ? f.target : 0];
    const uint32_t *walk = s->walk_numbers + WALK_RECORD * (used & WALK ? f.walk : used & TO_OPEN ? f.to_open : 0);
    if ((used & SOURCE && !v->live) || (used & SECOND && !other->live) || (used & WALK && !walk[WALK_LIVE])) {
        return JUMPERLOFT1_EMPTY_SOURCE;
    }
    if ((used & TARGET && other->live) || (used & TO_OPEN && walk[WALK_LIVE])) {
        return JUMPERLOFT1_LIVE_TARGET;
    }
    if (f.operation == JUMPERLOFT1_NEW && (f.index < 1 || f.index > 5)) {
        return JUMPERLOFT1_BAD_BITS;
    }
    if (nothing_there(&f, v, walk)) {
        return JUMPERLOFT1_NOTHING_THERE;
    }
    if (f.operation == JUMPERLOFT1_PUSH_BACK && v->length == JUMPERLOFT1_MAX_LENGTH) {
        return JUMPERLOFT1_FULL;
    }
    return charge(&f, v) > count_free(s->kinds, s->sizes.nodes) ? JUMPERLOFT1_NO_NODES : JUMPERLOFT1_DONE;
}
