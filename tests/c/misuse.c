/* What a careless or hostile host can lend: no fault, and what is refused is not written to.
 * misuse [STATES [SEED]]; STATES is how many damaged states are lent. */
#include "checks.h"

#include <stdio.h>
#include <stdlib.h>
#include <string.h>

enum { FRAMES = SESSION_FRAMES, BYTES = 12 * FRAMES, ANSWERS = 6 * FRAMES };

/* The example of document 01, as one batch. */
const uint8_t session[12 * SESSION_FRAMES] = {
    1, 0x00, 0, 0, 0, 0, 0, 5, 0, 0, 0, 0, 1, 0x06, 0, 1, 0, 0, 0, 0, 0, 0, 0, 7,
    1, 0x04, 1, 0, 0, 0, 0, 0, 0, 0, 0, 0, 1, 0x04, 1, 0, 0, 0, 0, 1, 0, 0, 0, 0,
    2, 0x03, 1, 0, 0, 0, 0, 0, 0, 0, 0, 0, 1, 0x08, 0, 0, 0, 0, 0, 0, 0, 0, 0, 0,
    1, 0x0A, 0, 0, 0, 0, 0, 0, 0, 0, 0, 0, 0, 0x0D, 0, 0, 0, 0, 0, 0, 0, 0, 0, 0};
static const uint8_t answers[ANSWERS] = {
    0, 1, 0, 0, 0, 0, 0, 1, 0, 0, 0, 0, 0, 0, 0, 0, 0, 7, 8, 0, 0, 0, 0, 0,
    5, 0, 0, 0, 0, 0, 0, 0, 0, 0, 0, 0, 8, 0, 0, 0, 0, 0, 0, 0, 0, 0, 0, 0xFE};

static void fill_all(const loan *lent)
{
    for (int i = 0; i < SLICES; i++) {
        fill(lent->slices[i].data, lent->slices[i].size);
    }
}

/* ---- sizes */

static void sizes(void)
{
    static const jumperloft1_sizes_of none;
    static const size_t all[] = {1, 256, JUMPERLOFT1_MAX_NODES};
    static const size_t no[] = {0, JUMPERLOFT1_MAX_NODES + 1, SIZE_MAX};
    for (int i = 0; i < 3; i++) {
        at_work_on("sizes", all[i]);
        const jumperloft1_sizes_of n = jumperloft1_sizes(all[i]);
        want(n.nodes == all[i] && n.used == all[i] && n.counts == all[i] && n.order == all[i], "one a node");
        want(n.cells == JUMPERLOFT1_NODE_CELLS * all[i], "cells");
        want(n.versions == JUMPERLOFT1_VERSIONS && n.walk_numbers == JUMPERLOFT1_WALK_NUMBERS, "records");
        want(n.walk_nodes == JUMPERLOFT1_WALK_LEVELS && n.walk_indices == JUMPERLOFT1_WALK_LEVELS, "levels");
        const jumperloft1_sizes_of without = jumperloft1_sizes(no[i]);
        want(memcmp(&without, &none, sizeof none) == 0 && jumperloft1_bytes_for(no[i]) == 0, "no such state");
    }
    want(sizeof(jumperloft1_version) == 16, "a version record has 16 bytes");
    say("sizes");
}

/* ---- forming */

static int is_fresh(const jumperloft1_state *s)
{
    int ok = 1;
    for (size_t i = 0; i < s->sizes.nodes; i++) {
        ok = ok && s->kinds[i] == 0 && s->used[i] == 0 && s->counts[i] == 0 && s->order[i] == s->sizes.nodes - 1 - i;
    }
    for (size_t i = 0; i < JUMPERLOFT1_VERSIONS; i++) {
        const jumperloft1_version *v = &s->versions[i];
        ok = ok && v->live == 0 && v->root == 0 && v->bits == 0 && v->length == 0;
    }
    for (size_t i = 0; i < JUMPERLOFT1_WALK_NUMBERS; i++) {
        ok = ok && s->walk_numbers[i] == 0;
    }
    for (size_t i = 0; i < JUMPERLOFT1_WALK_LEVELS; i++) {
        ok = ok && s->walk_nodes[i] == 0 && s->walk_indices[i] == 0;
    }
    return ok;
}

static void forming(side where)
{
    static const size_t all[] = {1, 2, 31, 255, 256, 257, 4096, 4097, JUMPERLOFT1_MAX_NODES};
    for (size_t i = 0; i < sizeof all / sizeof all[0]; i++) {
        at_work_on("forming", all[i]);
        loan lent = lend(all[i], BYTES, ANSWERS, where);
        fill_all(&lent);
        slice_read_only(&lent, CELLS);
        want(reports(form_of(&lent), JUMPERLOFT1_DONE, 0), "formed");
        writable(&lent);
        want(is_fresh(&lent.state), "fresh");
        want(reports(batch_of(&lent, 0, 0), JUMPERLOFT1_DONE, 0), "an empty batch");
        want(is_fresh(&lent.state), "still fresh");
        give_back(&lent);
    }
}

/* ---- the session of document 01 */

static void document_01(side where)
{
    at_work_on("the session of document 01", 0);
    loan lent = lend(256, BYTES, ANSWERS + 5, where);
    fill_all(&lent);
    want(reports(form_of(&lent), JUMPERLOFT1_DONE, 0), "formed");
    memcpy(lent.slices[REQUESTS].data, session, BYTES);
    uint8_t *room = lent.slices[ROOM].data;
    uint8_t beyond[5];
    memcpy(beyond, room + ANSWERS, 5);
    want(reports(batch_of(&lent, BYTES, ANSWERS + 5), JUMPERLOFT1_DONE, FRAMES), "eight frames");
    want(memcmp(room, answers, ANSWERS) == 0, "answers");
    want(memcmp(room + ANSWERS, beyond, 5) == 0, "room beyond untouched");
    want(memcmp(lent.slices[REQUESTS].data, session, BYTES) == 0, "requests untouched");
    give_back(&lent);
}

/* ---- what is lent, or not */

/* Null for all that a batch could be lent, and an empty batch with null requests and room on a good state. */
static void nothing_lent(void)
{
    at_work_on("null for all slices", 0);
    jumperloft1_state none;
    memset(&none, 0, sizeof none);
    want(reports(jumperloft1_form_state(&none), JUMPERLOFT1_ILL_FORMED, 0), "form");
    want(reports(jumperloft1_run(&none, NULL, 0, NULL, 0), JUMPERLOFT1_ILL_FORMED, 0), "batch");
    want(reports(jumperloft1_run(&none, session, BYTES, NULL, 0), JUMPERLOFT1_NO_ROOM, 0), "batch without room");
    loan lent = lend(3, 0, 0, AT_END);
    want(reports(form_of(&lent), JUMPERLOFT1_DONE, 0), "formed");
    want(reports(jumperloft1_run(&lent.state, NULL, 0, NULL, 0), JUMPERLOFT1_DONE, 0), "an empty batch");
    give_back(&lent);
}

/* One block of memory that nobody has written to: valgrind tells if what it holds decides anything. */
static void unwritten_memory(void)
{
    at_work_on("unwritten memory", 0);
    jumperloft1_state state;
    void *memory = malloc(jumperloft1_bytes_for(256));
    uint8_t room[ANSWERS];
    want(!jumperloft1_lay_out(memory, 0, &state) && !jumperloft1_lay_out(NULL, 256, &state), "no such state or block");
    want(!jumperloft1_lay_out((uint8_t *)memory + 1, 255, &state), "a block that isn't aligned");
    want(jumperloft1_lay_out(memory, 256, &state), "laid out");
    want(state.used + 256 == (uint8_t *)memory + jumperloft1_bytes_for(256), "the block is used to its end");
    want(reports(jumperloft1_form_state(&state), JUMPERLOFT1_DONE, 0), "formed");
    want(reports(jumperloft1_run(&state, session, BYTES, room, ANSWERS), JUMPERLOFT1_DONE, FRAMES), "eight frames");
    want(memcmp(room, answers, ANSWERS) == 0, "answers");
    free(memory);
}

int main(int count, char **words)
{
    const unsigned long states = count > 1 ? strtoul(words[1], NULL, 10) : 20000;
    const uint64_t seed = count > 2 ? strtoull(words[2], NULL, 10) : 1;
    printf("misuse: %lu damaged states, seed %llu\n", states, (unsigned long long)seed);
    seed_with(seed);
    catch_faults();
    sizes();
    for (int where = AT_END; where <= AT_START; where++) {
        forming((side)where);
        document_01((side)where);
        refusals((side)where);
        say(where == AT_END ? "forms, session and refusals, a page that faults after each slice"
                            : "forms, session and refusals, a page that faults before each slice");
    }
    nothing_lent();
    unwritten_memory();
    say("nothing lent, unwritten memory");
    random_requests(states / 10);
    damaged_states(states);
    forged_parties(states / 20 + 5);
    return finish("misuse");
}
