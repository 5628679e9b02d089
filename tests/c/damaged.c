/* Requests by chance over good states, and states that are damaged by chance. */
#include "checks.h"

#include <stdio.h>
#include <stdlib.h>
#include <string.h>

enum { FRAMES = 24, BYTES = 12 * FRAMES, ANSWERS = 6 * FRAMES };

static uint8_t *bytes_of(const loan *lent)
{
    uint8_t *copy = (uint8_t *)malloc(lent->bytes);
    if (copy == NULL) {
        exit(2);
    }
    return copy;
}

static uint32_t whole_batch(const loan *lent)
{
    const jumperloft1_report report = batch_of(lent, BYTES, ANSWERS);
    want(report.frames == (report.number == JUMPERLOFT1_DONE ? FRAMES : 0), "the count of frames");
    return report.number;
}

/* A list by chance in slot 0 of a party, as long as the nodes suffice; slot 1 is used on the way. */
static void grow(const loan *lent)
{
    const uint8_t party = (uint8_t)chance(3);
    const uint32_t bits = 1 + chance(5);
    const uint32_t length = chance(60);
    uint8_t frame[12], answer[6];
    jumperloft1_put_frame(frame, party, JUMPERLOFT1_NEW, 0, 0, bits, 0);
    jumperloft1_run(&lent->state, frame, 12, answer, 6);
    for (uint32_t i = 0; i < 2 * length; i++) {
        uint8_t two[24], answered[12];
        const uint8_t from = i % 2;
        jumperloft1_put_frame(two, party, JUMPERLOFT1_PUSH_BACK, from, 1 - from, 0, i);
        jumperloft1_put_frame(two + 12, party, JUMPERLOFT1_RELEASE, from, 0, 0, 0);
        jumperloft1_run(&lent->state, two, 24, answered, 12);
        if (answered[0] != JUMPERLOFT1_DONE) {
            return;
        }
    }
}

/* ---- one batch against its frames one by one */

static void frame_by_frame(const loan *whole, const loan *single, uint8_t *copy)
{
    put_frames(whole->slices[REQUESTS].data, FRAMES);
    fill(whole->slices[ROOM].data, whole->slices[ROOM].size);
    save(whole, copy);
    load(single, copy);
    want(whole_batch(whole) == JUMPERLOFT1_DONE, "a batch runs");
    uint8_t *answers = single->slices[ROOM].data;
    for (size_t i = 0; i < FRAMES; i++) {
        const jumperloft1_report report = jumperloft1_run(&single->state, single->slices[REQUESTS].data + 12 * i, 12, answers + 6 * i, 6);
        want(report.number == JUMPERLOFT1_DONE && report.frames == 1, "a frame runs");
        const jumperloft1_answer answer = jumperloft1_get_answer(answers + 6 * i);
        want(answer.number <= JUMPERLOFT1_NO_NODES, "an answer's number is 0 to 10");
        want(answer.number == JUMPERLOFT1_DONE || (answer.fresh == 0 && answer.value == 0), "a refusal's answer");
    }
    save(single, copy);
    want(same(whole, copy), "one batch does what its frames do one by one");
    want(batch_of(whole, 0, 0).number == JUMPERLOFT1_DONE, "the state stays well-formed");
}

void random_requests(unsigned long batches)
{
    static const size_t nodes[] = {1, 3, 9, 60, 300};
    const size_t kinds = sizeof nodes / sizeof nodes[0];
    unsigned long step = 0;
    for (size_t i = 0; i < 2 * kinds; i++) {
        loan whole = lend(nodes[i / 2], BYTES, ANSWERS + 3, i % 2 ? AT_START : AT_END);
        loan single = lend(nodes[i / 2], BYTES, ANSWERS + 3, i % 2 ? AT_START : AT_END);
        uint8_t *copy = bytes_of(&whole);
        for (unsigned long k = 0; k < batches / (2 * kinds) + 1; k++) {
            at_work_on("random requests", step++);
            if (k % 20 == 0) {
                form_of(&whole);
                grow(&whole);
            }
            frame_by_frame(&whole, &single, copy);
        }
        free(copy);
        give_back(&whole);
        give_back(&single);
    }
    char line[80];
    snprintf(line, sizeof line, "random requests, %lu batches of %d frames", step, (int)FRAMES);
    say(line);
}

/* ---- damaged states */

/* A state under test, the good state that it comes from, and the bytes that were lent. */
typedef struct field {
    loan lent;
    uint8_t *good;
    uint8_t *before;
} field;

static void renew(field *f)
{
    load(&f->lent, f->good);
    if (chance(8) == 0) {
        form_of(&f->lent);
        grow(&f->lent);
    }
    put_frames(f->lent.slices[REQUESTS].data, FRAMES);
    want(whole_batch(&f->lent) == JUMPERLOFT1_DONE, "a good state is served");
    save(&f->lent, f->good);
}

/* Any bytes; or small numbers everywhere; or a good state with a few bytes changed. */
static void damage(const field *f)
{
    const loan *lent = &f->lent;
    const uint32_t how = chance(8);
    for (int i = 0; how < 2 && i < LENT; i++) {
        const slice *s = &lent->slices[i];
        fill(s->data, s->size);
        for (size_t k = 0; how == 1 && k < s->size; k++) {
            const int low = i == KINDS || i == USED || k % 4 == 0;
            s->data[k] = low ? s->data[k] % 3 : 0;
        }
    }
    for (uint32_t changes = 1 + chance(3); how >= 2 && changes > 0; changes--) {
        const slice *s = &lent->slices[chance(LENT)];
        uint8_t *byte = s->data + (chance(2) ? chance((uint32_t)s->size) : chance(s->size < 48 ? (uint32_t)s->size : 48) / 4 * 4);
        switch (chance(4)) {
        case 0: *byte = (uint8_t)chance(256); break;
        case 1: *byte = (uint8_t)(*byte + 1); break;
        case 2: *byte = (uint8_t)(*byte - 1); break;
        default: *byte = (uint8_t)(*byte ^ 1u << chance(8));
        }
    }
}

/* Lends it: if it is refused, once more over memory that can't be written to. */
static int lend_damaged(const field *f)
{
    const loan *lent = &f->lent;
    save(lent, f->before);
    const uint32_t number = whole_batch(lent);
    if (number != JUMPERLOFT1_ILL_FORMED) {
        want(number == JUMPERLOFT1_DONE, "served or refused with 11");
        want(batch_of(lent, 0, 0).number == JUMPERLOFT1_DONE, "what was served stays well-formed");
        return 0;
    }
    want(same(lent, f->before), "a refusal changes not a byte");
    read_only(lent);
    want(batch_of(lent, BYTES, ANSWERS).number == JUMPERLOFT1_ILL_FORMED, "refused again, read-only");
    want(batch_of(lent, 0, 0).number == JUMPERLOFT1_ILL_FORMED, "an empty batch is refused, read-only");
    want(batch_of(lent, BYTES, ANSWERS - 1).number == JUMPERLOFT1_NO_ROOM, "12 comes before 11, read-only");
    want(batch_of(lent, BYTES - 1, ANSWERS).number == JUMPERLOFT1_RAGGED, "13 comes before 11, read-only");
    writable(lent);
    want(same(lent, f->before), "read-only, nothing changed");
    return 1;
}

void damaged_states(unsigned long states)
{
    enum { FIELDS = 12 };
    static const size_t nodes[FIELDS / 2] = {1, 6, 40, 256, 300, 4500};
    field fields[FIELDS];
    unsigned long refusals = 0;
    for (int i = 0; i < FIELDS; i++) {
        fields[i].lent = lend(nodes[i / 2], BYTES, ANSWERS, i % 2 ? AT_START : AT_END);
        form_of(&fields[i].lent);
        fields[i].good = bytes_of(&fields[i].lent);
        fields[i].before = bytes_of(&fields[i].lent);
        save(&fields[i].lent, fields[i].good);
    }
    for (unsigned long step = 0; step < states; step++) {
        at_work_on("damaged states", step);
        field *f = &fields[chance(100) == 0 ? FIELDS - 1 - chance(2) : chance(FIELDS - 2)];
        renew(f);
        damage(f);
        refusals += (unsigned long)lend_damaged(f);
    }
    for (int i = 0; i < FIELDS; i++) {
        free(fields[i].good);
        free(fields[i].before);
        give_back(&fields[i].lent);
    }
    char line[120];
    snprintf(line, sizeof line, "damaged states, %lu refused and %lu still well-formed", refusals, states - refusals);
    say(line);
}
