/* Batches and forms that are refused, all of them over memory that can't be written to. */
#include "checks.h"

#include <stdlib.h>
#include <string.h>

enum { BYTES = 12 * SESSION_FRAMES, ANSWERS = 6 * SESSION_FRAMES };

static uint8_t *copy_of(const loan *lent)
{
    uint8_t *copy = (uint8_t *)malloc(lent->bytes);
    if (copy == NULL) {
        exit(2);
    }
    save(lent, copy);
    return copy;
}

/* With all memory read-only: a form is refused with 11 if it is to be, and a batch with this number. */
static void refused(const loan *lent, size_t requests, size_t room, uint32_t number, int form_too)
{
    uint8_t *copy = copy_of(lent);
    read_only(lent);
    if (form_too) {
        want(reports(form_of(lent), JUMPERLOFT1_ILL_FORMED, 0), "form refused with 11");
    }
    want(reports(batch_of(lent, requests, room), number, 0), "batch refused");
    want(same(lent, copy), "not a byte changed");
    writable(lent);
    free(copy);
}

static void bad_lengths(side where)
{
    for (unsigned damaged = 0; damaged < 2; damaged++) {
        at_work_on("requests and room of bad lengths", damaged);
        loan lent = lend(40, BYTES, ANSWERS, where);
        form_of(&lent);
        memcpy(lent.slices[REQUESTS].data, session, BYTES);
        lent.state.versions[3].live = damaged;
        for (size_t requests = 1; requests < BYTES; requests++) {
            if (requests % JUMPERLOFT1_FRAME_SIZE != 0) {
                refused(&lent, requests, ANSWERS, JUMPERLOFT1_RAGGED, 0);
                refused(&lent, requests, 0, JUMPERLOFT1_RAGGED, 0);
            } else {
                refused(&lent, requests, requests / 2 - 1, JUMPERLOFT1_NO_ROOM, 0);
                refused(&lent, requests, 0, JUMPERLOFT1_NO_ROOM, 0);
            }
        }
        refused(&lent, BYTES, ANSWERS - 1, JUMPERLOFT1_NO_ROOM, 0);
        if (damaged) {
            refused(&lent, BYTES, ANSWERS, JUMPERLOFT1_ILL_FORMED, 0);
            refused(&lent, 0, 0, JUMPERLOFT1_ILL_FORMED, 0);
        }
        give_back(&lent);
    }
}

/* A state that would be fresh, but for its sizes. */
static void refused_sizes(jumperloft1_sizes_of n, side where)
{
    loan lent = lend_sizes(n, BYTES, ANSWERS, where);
    for (int i = 0; i < LENT; i++) {
        if (lent.slices[i].size != 0) {
            memset(lent.slices[i].data, 0, lent.slices[i].size);
        }
    }
    for (size_t i = 0; i < n.order; i++) {
        lent.state.order[i] = (uint32_t)(n.order - 1 - i);
    }
    memcpy(lent.slices[REQUESTS].data, session, BYTES);
    refused(&lent, BYTES, ANSWERS, JUMPERLOFT1_ILL_FORMED, 1);
    refused(&lent, 0, 0, JUMPERLOFT1_ILL_FORMED, 1);
    refused(&lent, 11, ANSWERS, JUMPERLOFT1_RAGGED, 1);
    refused(&lent, BYTES, ANSWERS - 1, JUMPERLOFT1_NO_ROOM, 1);
    give_back(&lent);
}

static void bad_sizes(side where)
{
    for (int which = 0; which < LENT; which++) {
        at_work_on("a slice of a wrong size", (unsigned long)which);
        for (int how = 0; how < 5; how++) {
            jumperloft1_sizes_of n = jumperloft1_sizes(40);
            size_t *count = count_of(&n, which);
            const size_t others[5] = {0, 1, *count - 1, *count + 1, 2 * *count};
            *count = others[how];
            refused_sizes(n, where);
        }
    }
    at_work_on("no nodes, and no slices", 0);
    jumperloft1_sizes_of n = jumperloft1_sizes(1);
    n.nodes = n.used = n.counts = n.cells = n.order = 0;
    refused_sizes(n, where);
    n.versions = n.walk_numbers = n.walk_nodes = n.walk_indices = 0;
    refused_sizes(n, where);
    at_work_on("one node too many", 0);
    n = jumperloft1_sizes(JUMPERLOFT1_MAX_NODES);
    n.nodes = n.used = n.counts = n.order = JUMPERLOFT1_MAX_NODES + 1;
    n.cells = JUMPERLOFT1_NODE_CELLS * n.nodes;
    refused_sizes(n, where);
}

void refusals(side where)
{
    bad_lengths(where);
    bad_sizes(where);
}
