/* What has to hold of a batch that ran. */
#include "served.h"

#include "contents.h"
#include "hold.h"
#include "seen.h"

#include <string.h>

/* Whether a frame that was answered so can have changed the state. */
static int changes(const uint8_t *frame, const uint8_t *answer)
{
    const uint8_t operation = frame[1];
    const int reads = operation == JUMPERLOFT1_LEN || operation == JUMPERLOFT1_GET || operation == JUMPERLOFT1_FREE_NODES
        || operation == JUMPERLOFT1_FIRST || operation == JUMPERLOFT1_LAST || operation == JUMPERLOFT1_COMPARE;
    return answer[0] == JUMPERLOFT1_DONE && !reads;
}

static void check_answers(const twins *t, const call *c)
{
    const uint8_t *room = t->first.slices[ROOM].data;
    int changed = 0, given_back = 0;
    size_t fresh = 0;
    for (size_t i = 0; i < frames_of(c); i++) {
        const uint8_t *frame = c->requests + 12 * i;
        const jumperloft1_answer answer = jumperloft1_get_answer(room + 6 * i);
        hold(answer.number <= JUMPERLOFT1_NO_NODES, "an answer's number is 0 to 10");
        hold(answer.number == JUMPERLOFT1_DONE || (answer.fresh == 0 && answer.value == 0), "a refusal answers 0 fresh and 0");
        changed |= changes(frame, room + 6 * i);
        given_back |= frame[1] == JUMPERLOFT1_RELEASE || frame[1] == JUMPERLOFT1_CLOSE_WALK;
        fresh += answer.fresh;
        saw_answer(frame[1], answer.number);
    }
    hold(changed || same_state(&t->first, t->before), "frames that are refused or only read change nothing");
    /* the kinds are the first slice of the copy */
    const size_t nodes = t->first.state.sizes.nodes;
    const size_t free_before = count_free(t->before, nodes), free_after = count_free(t->first.state.kinds, nodes);
    hold(given_back || free_after + fresh == free_before, "the free nodes fall by fresh");
}

static void run_one_by_one(const twins *t, const call *c)
{
    const loan *lent = &t->second;
    for (size_t i = 0; i < frames_of(c); i++) {
        const uint8_t *frame = c->requests + 12 * i;
        uint8_t *answer = lent->slices[ROOM].data + 6 * i;
        contents before[JUMPERLOFT1_VERSIONS];
        save(lent, t->after);
        read_contents(&lent->state, before);
        const uint32_t expected = expected_number(&lent->state, frame);
        const jumperloft1_report report = jumperloft1_run(&lent->state, lent->slices[REQUESTS].data + 12 * i, 12, answer, 6);
        hold(reports(report, JUMPERLOFT1_DONE, 1), "a frame runs alone");
        hold(answer[0] == expected, "the first check that applies is answered");
        hold(changes(frame, answer) || same_state(lent, t->after), "a frame that is refused or only reads changes nothing");
        if (answer[0] == JUMPERLOFT1_DONE) {
            check_done(&lent->state, before, frame, jumperloft1_get_answer(answer));
        }
    }
}

/* What a batch has only to read, or nothing to do with. */
static void check_untouched(const twins *t, const call *c)
{
    const slice *requests = &t->first.slices[REQUESTS], *room = &t->first.slices[ROOM];
    const size_t answered = JUMPERLOFT1_ANSWER_SIZE * frames_of(c), beyond = c->room_size - answered;
    const uint8_t *room_before = t->before + (t->first.bytes - c->room_size);
    hold(requests->size == 0 || memcmp(requests->data, c->requests, requests->size) == 0, "the requests stay as they are");
    hold(beyond == 0 || memcmp(room->data + answered, room_before + answered, beyond) == 0, "room beyond the answers stays as it is");
}

void check_served(const twins *t, const call *c, jumperloft1_report report)
{
    hold(report.frames == frames_of(c), "a batch reports its frames");
    check_untouched(t, c);
    check_answers(t, c);
    slice_read_only(&t->second, REQUESTS);
    if (c->one_by_one) {
        run_one_by_one(t, c);
    } else {
        const jumperloft1_report again = batch_of(&t->second, c->requests_size, c->room_size);
        hold(reports(again, JUMPERLOFT1_DONE, frames_of(c)), "a batch runs on the second twin too");
    }
    writable(&t->second);
    save(&t->second, t->after);
    hold(same(&t->first, t->after), "both twins are answered and changed alike");
    hold(reports(batch_of(&t->first, 0, 0), JUMPERLOFT1_DONE, 0) && is_well_formed(&t->first.state), "what was served is well-formed");
    hold(same(&t->first, t->after), "an empty batch changes nothing");
}
