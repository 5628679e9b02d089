/* What a state holds, and what a frame has to make of it. */
#include "contents.h"

#include "hold.h"

#include <string.h>

/* ---- reading */

uint32_t height_of(uint32_t bits, uint32_t length)
{
    uint32_t height = 0;
    while (length > UINT32_C(1) << bits * (height + 1)) {
        height++;
    }
    return height;
}

static uint32_t element(const jumperloft1_state *s, const jumperloft1_version *v, uint32_t index)
{
    const uint32_t mask = (UINT32_C(1) << v->bits) - 1;
    uint32_t node = v->root;
    for (uint32_t level = height_of(v->bits, v->length); level > 0; level--) {
        node = s->cells[JUMPERLOFT1_NODE_CELLS * node + (index >> v->bits * level & mask)];
    }
    return s->cells[JUMPERLOFT1_NODE_CELLS * node + (index & mask)];
}

static uint32_t probe(uint32_t i, uint32_t length)
{
    return length <= PROBES ? i : (uint32_t)((uint64_t)i * (length - 1) / (PROBES - 1));
}

void read_contents(const jumperloft1_state *state, contents all[JUMPERLOFT1_VERSIONS])
{
    memset(all, 0, JUMPERLOFT1_VERSIONS * sizeof all[0]);
    for (size_t i = 0; i < JUMPERLOFT1_VERSIONS; i++) {
        const jumperloft1_version *v = &state->versions[i];
        all[i].live = v->live;
        all[i].bits = v->bits;
        all[i].length = v->length;
        for (uint32_t k = 0; k < PROBES && k < v->length; k++) {
            all[i].probes[k] = element(state, v, probe(k, v->length));
        }
    }
}

static uint32_t compared(const jumperloft1_state *s, const jumperloft1_version *a, const jumperloft1_version *b)
{
    for (uint32_t i = 0; i < a->length && i < b->length; i++) {
        const uint32_t left = element(s, a, i), right = element(s, b, i);
        if (left != right) {
            return left < right ? UINT32_MAX : 1;
        }
    }
    return a->length < b->length ? UINT32_MAX : a->length > b->length;
}

uint32_t count_free(const uint8_t *kinds, size_t nodes)
{
    uint32_t count = 0;
    for (size_t i = 0; i < nodes; i++) {
        count += kinds[i] == FREE_KIND;
    }
    return count;
}

/* ---- what a frame makes */

frame_fields fields_of(const uint8_t *frame)
{
    const uint32_t index = (uint32_t)frame[4] << 24 | (uint32_t)frame[5] << 16 | (uint32_t)frame[6] << 8 | frame[7];
    const uint32_t value = (uint32_t)frame[8] << 24 | (uint32_t)frame[9] << 16 | (uint32_t)frame[10] << 8 | frame[11];
    const int handed = frame[1] == JUMPERLOFT1_HAND_OVER;
    const size_t from = handed ? index : frame[0], to = handed ? value : frame[0];
    const frame_fields f = {frame[1], index, value, JUMPERLOFT1_SLOTS * from + frame[2], JUMPERLOFT1_SLOTS * to + frame[3],
        JUMPERLOFT1_WALKS * (size_t)frame[0] + frame[2], JUMPERLOFT1_WALKS * (size_t)frame[0] + frame[3]};
    return f;
}

/* The slot that a frame fills or empties, or none. */
static size_t changed_slot(const frame_fields *f)
{
    switch (f->operation) {
    case JUMPERLOFT1_NEW:
    case JUMPERLOFT1_CLONE:
    case JUMPERLOFT1_SET:
    case JUMPERLOFT1_PUSH_BACK:
    case JUMPERLOFT1_DROP_LAST:
    case JUMPERLOFT1_HAND_OVER: return f->target;
    case JUMPERLOFT1_RELEASE: return f->source;
    default: return JUMPERLOFT1_VERSIONS;
    }
}

/* The list in the target against the one in the source, which stays as it was. */
static void check_filled(const jumperloft1_state *s, const frame_fields *f)
{
    const jumperloft1_version *from = &s->versions[f->source], *to = &s->versions[f->target];
    if (f->operation == JUMPERLOFT1_NEW) {
        hold(to->live == 1 && to->bits == f->index && to->length == 0, "a new list is empty and has the bits asked for");
        return;
    }
    const uint32_t more = f->operation == JUMPERLOFT1_PUSH_BACK, less = f->operation == JUMPERLOFT1_DROP_LAST;
    hold(to->live == 1 && to->bits == from->bits, "what was filled in has the bits of its source");
    hold(to->length == from->length + more - less, "what was filled in has the length that it should");
    hold(!more || element(s, to, from->length) == f->value, "what was pushed stands last");
    hold(f->operation != JUMPERLOFT1_SET || element(s, to, f->index) == f->value, "what was set stands there");
    for (uint32_t k = 0; k < PROBES && k < to->length - more; k++) {
        const uint32_t at = probe(k, to->length - more);
        const int was_set = f->operation == JUMPERLOFT1_SET && at == f->index;
        hold(was_set || element(s, to, at) == element(s, from, at), "all else stands where it stood");
    }
}

/* The element that a walk gave last, from the front or from the back. */
static uint32_t walked(const jumperloft1_state *s, const frame_fields *f)
{
    const uint32_t *w = s->walk_numbers + WALK_RECORD * f->walk;
    const jumperloft1_version v = {w[WALK_LIVE], w[WALK_ROOT], w[WALK_BITS], w[WALK_LENGTH]};
    return element(s, &v, f->operation == JUMPERLOFT1_NEXT ? w[TAKEN_IN_FRONT] - 1 : v.length - w[TAKEN_AT_BACK]);
}

static uint32_t expected_value(const jumperloft1_state *s, const frame_fields *f)
{
    const jumperloft1_version *v = &s->versions[f->source];
    switch (f->operation) {
    case JUMPERLOFT1_LEN: return v->length;
    case JUMPERLOFT1_GET: return element(s, v, f->index);
    case JUMPERLOFT1_FIRST: return element(s, v, 0);
    case JUMPERLOFT1_LAST: return element(s, v, v->length - 1);
    case JUMPERLOFT1_NEXT:
    case JUMPERLOFT1_NEXT_BACK: return walked(s, f);
    case JUMPERLOFT1_FREE_NODES: return count_free(s->kinds, s->sizes.nodes);
    case JUMPERLOFT1_COMPARE: return compared(s, v, &s->versions[f->target]);
    default: return 0;
    }
}

void check_done(const jumperloft1_state *after, const contents before[JUMPERLOFT1_VERSIONS], const uint8_t *frame,
    jumperloft1_answer answer)
{
    contents now[JUMPERLOFT1_VERSIONS];
    const frame_fields f = fields_of(frame);
    const size_t changed = changed_slot(&f);
    read_contents(after, now);
    for (size_t i = 0; i < JUMPERLOFT1_VERSIONS; i++) {
        hold(i == changed || memcmp(&now[i], &before[i], sizeof now[i]) == 0, "every other slot holds what it held");
    }
    if (f.operation == JUMPERLOFT1_RELEASE) {
        hold(now[changed].live == 0, "a released slot is empty");
    } else if (changed != JUMPERLOFT1_VERSIONS) {
        check_filled(after, &f);
    }
    hold(answer.value == expected_value(after, &f), "the answer is what a plain reading finds");
}
