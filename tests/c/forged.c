/* Frames that bear any party's number, run as a host runs those of a plug-in that it lends nothing: with the plug-in's party
 * set in all of them. What the other parties have stays as it was; without that it does not. */
#include "checks.h"

#include <stdio.h>
#include <stdlib.h>
#include <string.h>

enum { FRAMES = 24, BYTES = 12 * FRAMES, ANSWERS = 6 * FRAMES, MOST_READS = 65536 };
enum { WALKS = JUMPERLOFT1_PARTIES * JUMPERLOFT1_WALKS, NUMBERS = JUMPERLOFT1_WALK_NUMBERS / WALKS, LEVELS = JUMPERLOFT1_WALK_LEVELS / WALKS };

/* All that the parties other than one have: records, walks, and the answers to a get of each element. */
typedef struct belongings {
    jumperloft1_version versions[JUMPERLOFT1_VERSIONS];
    uint32_t walks[WALKS][NUMBERS + 2 * LEVELS];
    uint8_t elements[6 * MOST_READS];
    size_t reads;
} belongings;

static void put_walk(const jumperloft1_state *s, size_t walk, uint32_t *to)
{
    memcpy(to, s->walk_numbers + NUMBERS * walk, NUMBERS * sizeof *to);
    memcpy(to + NUMBERS, s->walk_nodes + LEVELS * walk, LEVELS * sizeof *to);
    memcpy(to + NUMBERS + LEVELS, s->walk_indices + LEVELS * walk, LEVELS * sizeof *to);
}

static void look_at_others(const jumperloft1_state *s, uint8_t party, belongings *seen)
{
    static uint8_t frames[12 * MOST_READS];
    memset(seen, 0, sizeof *seen);
    for (uint8_t other = 0; other < JUMPERLOFT1_PARTIES; other++) {
        for (uint8_t i = 0; other != party && i < JUMPERLOFT1_WALKS; i++) {
            const size_t walk = (size_t)JUMPERLOFT1_WALKS * other + i;
            put_walk(s, walk, seen->walks[walk]);
        }
        for (uint8_t slot = 0; other != party && slot < JUMPERLOFT1_SLOTS; slot++) {
            const jumperloft1_version version = s->versions[JUMPERLOFT1_SLOTS * other + slot];
            seen->versions[JUMPERLOFT1_SLOTS * other + slot] = version;
            for (uint32_t i = 0; i < version.length && seen->reads < MOST_READS; i++) {
                jumperloft1_put_frame(frames + 12 * seen->reads++, other, JUMPERLOFT1_GET, slot, 0, i, 0);
            }
        }
    }
    want(seen->reads < MOST_READS, "all elements are read");
    want(reports(jumperloft1_run(s, frames, 12 * seen->reads, seen->elements, sizeof seen->elements), JUMPERLOFT1_DONE, seen->reads), "they are read");
}

static void as_party(const loan *lent, uint8_t party)
{
    uint8_t *frames = lent->slices[REQUESTS].data, *answers = lent->slices[ROOM].data;
    jumperloft1_set_party(frames, BYTES, party);
    want(reports(batch_of(lent, BYTES, ANSWERS), JUMPERLOFT1_DONE, FRAMES), "a batch runs");
    for (size_t i = 0; i < FRAMES; i++) {
        const uint8_t operation = frames[12 * i + 1];
        const int host_only = operation == JUMPERLOFT1_HAND_OVER || operation == JUMPERLOFT1_FREE_NODES;
        want(frames[12 * i] == party, "the party is set");
        want(party == 0 || host_only == (answers[6 * i] == JUMPERLOFT1_HOST_ONLY), "what is the host's alone");
    }
}

/* Says whether the forged frames would have changed what others have. */
static int try_forged(const loan *lent, uint8_t *copy, uint8_t party)
{
    static belongings before, after;
    put_frames(lent->slices[REQUESTS].data, FRAMES);
    look_at_others(&lent->state, party, &before);
    save(lent, copy);
    batch_of(lent, BYTES, ANSWERS);
    look_at_others(&lent->state, party, &after);
    const int harm = memcmp(&before, &after, sizeof before) != 0;
    load(lent, copy);
    as_party(lent, party);
    look_at_others(&lent->state, party, &after);
    want(memcmp(&before, &after, sizeof before) == 0, "others have what they had");
    return harm;
}

void forged_parties(unsigned long batches)
{
    loan lent = lend(600, BYTES, ANSWERS, AT_END);
    uint8_t *copy = (uint8_t *)malloc(lent.bytes);
    unsigned long harmful = 0;
    if (copy == NULL) {
        exit(2);
    }
    form_of(&lent);
    for (unsigned long step = 0; step < batches; step++) {
        at_work_on("forged parties", step);
        put_frames(lent.slices[REQUESTS].data, FRAMES);
        as_party(&lent, (uint8_t)(step % JUMPERLOFT1_PARTIES));
        harmful += (unsigned long)try_forged(&lent, copy, (uint8_t)(1 + chance(JUMPERLOFT1_PARTIES - 1)));
    }
    want(harmful > 0, "forged frames do harm if their party is not set");
    free(copy);
    give_back(&lent);
    char line[160];
    snprintf(line, sizeof line, "forged parties, %lu batches of %d frames: no harm with the party set, without in %lu", batches, (int)FRAMES, harmful);
    say(line);
}
