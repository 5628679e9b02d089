/* An input's steps, one after another. */
#include "steps.h"

#include "seen.h"

#include <string.h>

/* The batch that is being made, and the last damage to the state since a batch saw it. */
typedef struct work {
    twins *t;
    call batch;
    uint8_t damaged[STEP];
    size_t damaged_place;
    int is_damaged;
} work;

/* ---- frames */

static void add_frame(work *w, uint8_t party, uint8_t operation, uint8_t slot, uint8_t destination, uint32_t index, uint32_t value)
{
    if (w->batch.requests_size + 12 <= 12 * MOST_FRAMES) {
        jumperloft1_put_frame(w->batch.requests + w->batch.requests_size, party, operation, slot, destination, index, value);
        w->batch.requests_size += 12;
    }
}

/* Most bytes give a number within its limit, so that an input gets somewhere; one beyond it is there too. */
static void add_sensible_frame(work *w, const uint8_t *step)
{
    const uint8_t operation = step[1] % (JUMPERLOFT1_COMPARE + 2);
    const int host_only = operation == JUMPERLOFT1_HAND_OVER || operation == JUMPERLOFT1_FREE_NODES;
    const int on_walk = operation >= JUMPERLOFT1_NEXT && operation <= JUMPERLOFT1_CLOSE_WALK;
    const uint8_t party = host_only && step[2] < 240 ? 0 : step[2] % 9;
    const uint8_t slot = (uint8_t)(step[3] % (on_walk ? 3 : 9));
    const uint8_t destination = (uint8_t)(step[4] % (operation == JUMPERLOFT1_OPEN_WALK ? 3 : 9));
    uint32_t index = step[5] < 240 ? step[5] : (uint32_t)step[5] << 24 | (uint32_t)step[6] << 8;
    uint32_t value = step[7];
    if (operation == JUMPERLOFT1_NEW) {
        index = step[5] % 7;
    } else if (operation == JUMPERLOFT1_HAND_OVER) {
        index = step[5] % 9;
        value = step[7] % 9;
    }
    add_frame(w, party, operation, slot, destination, index, value);
}

static void add_raw_frame(work *w, const uint8_t *step)
{
    const uint32_t index = step[5] < 128 ? step[5] : UINT32_C(0xFFFFFF00) | step[5];
    add_frame(w, step[1], step[2], step[3], step[4], index, (uint32_t)step[6] << 24 | step[7]);
}

static void add_pushes(work *w, const uint8_t *step)
{
    const uint8_t party = step[1] % 8, slots[2] = {step[2] % 8, step[3] % 8};
    for (unsigned i = 0; i < step[4] % (MOST_FRAMES / 2); i++) {
        add_frame(w, party, JUMPERLOFT1_PUSH_BACK, slots[i % 2], slots[1 - i % 2], 0, step[5] + i);
        add_frame(w, party, JUMPERLOFT1_RELEASE, slots[i % 2], 0, 0, 0);
    }
}

static void add_tail(work *w, const uint8_t *step)
{
    const size_t extra = step[1] % 12;
    if (w->batch.requests_size + extra <= MOST_REQUESTS) {
        memset(w->batch.requests + w->batch.requests_size, step[2], extra);
        w->batch.requests_size += extra;
    }
}

/* ---- calls */

static size_t room_for(size_t requests, const uint8_t *step)
{
    const size_t exact = JUMPERLOFT1_ANSWER_SIZE * (requests / JUMPERLOFT1_FRAME_SIZE);
    switch (step[1] % ROOMS) {
    case EXACT: return exact;
    case SHORT: return exact - (exact == 0 ? 0 : 1 + step[2] % exact);
    case NO_ROOM_AT_ALL: return 0;
    default: return exact + step[2];
    }
}

static void call_batch(work *w, const uint8_t *step)
{
    w->batch.room_size = room_for(w->batch.requests_size, step);
    w->batch.one_by_one = step[3] % 2;
    const uint32_t number = batch_checked(w->t, &w->batch);
    if (w->is_damaged && (number == JUMPERLOFT1_DONE || number == JUMPERLOFT1_ILL_FORMED)) {
        const unsigned kind = w->damaged[0] % ACTIONS == FILL ? DAMAGES + w->damaged[2] % 4u : w->damaged[2] % (unsigned)DAMAGES;
        saw_damage(w->damaged[1] % LENT, kind, w->damaged_place, number);
        w->is_damaged = 0;
    }
    w->batch.requests_size = 0;
}

static void spoil(work *w, const uint8_t *step)
{
    if (step[0] % ACTIONS == DAMAGE) {
        w->damaged_place = damage(w->t, step);
    } else {
        w->damaged_place = 0;
        fill_slices(w->t, step);
    }
    memcpy(w->damaged, step, STEP);
    w->is_damaged = 1;
}

void run_steps(twins *t, const uint8_t *data, size_t size)
{
    static const uint8_t none[STEP] = {0};
    static work w;
    w.t = t;
    w.batch.requests_size = 0;
    w.is_damaged = 0;
    const uint8_t *first = size >= STEP ? data : none;
    check_sizes((size_t)first[5] << 16 | (size_t)first[6] << 8 | first[7]);
    begin(t, first);
    for (size_t i = STEP; i + STEP <= size; i += STEP) {
        const uint8_t *step = data + i;
        switch (step[0] % ACTIONS) {
        case FRAME: add_sensible_frame(&w, step); break;
        case RAW_FRAME: add_raw_frame(&w, step); break;
        case PUSHES: add_pushes(&w, step); break;
        case TAIL: add_tail(&w, step); break;
        case CALL: call_batch(&w, step); break;
        case FORM: form_checked(t); break;
        default: spoil(&w, step);
        }
    }
    call_batch(&w, none);
}
