/* One state lent twice: forming it, batches on it, and what a refusal leaves. */
#include "twins.h"

#include "contents.h"
#include "hold.h"
#include "seen.h"
#include "served.h"

#include <stdlib.h>
#include <string.h>

/* ---- lending */

void make_twins(twins *t)
{
    jumperloft1_sizes_of most = jumperloft1_sizes(MOST_NODES);
    for (int i = 0; i < LENT; i++) {
        *count_of(&most, i) *= 2;
    }
    t->first = lend_sizes(most, MOST_REQUESTS, MOST_ROOM, AT_END);
    t->second = lend_sizes(most, MOST_REQUESTS, MOST_ROOM, AT_START);
    t->before = (uint8_t *)malloc(t->first.bytes);
    t->after = (uint8_t *)malloc(t->first.bytes);
    t->good = (uint8_t *)malloc(t->first.bytes);
    if (t->before == NULL || t->after == NULL || t->good == NULL) {
        exit(2);
    }
}

static void lend_both(twins *t, jumperloft1_sizes_of sizes, size_t requests, size_t room)
{
    lend_anew(&t->first, sizes, requests, room, AT_END);
    lend_anew(&t->second, sizes, requests, room, AT_START);
}

void lend_twins(twins *t, jumperloft1_sizes_of sizes)
{
    lend_both(t, sizes, 0, 0);
    for (int i = 0; i < LENT; i++) {
        if (t->first.slices[i].size != 0) {
            memset(t->first.slices[i].data, 0xA5, t->first.slices[i].size);
        }
    }
    save(&t->first, t->good);
}

int sizes_fit(jumperloft1_sizes_of n)
{
    return n.nodes >= 1 && n.nodes <= JUMPERLOFT1_MAX_NODES && n.used == n.nodes && n.counts == n.nodes
        && n.order == n.nodes && n.cells == JUMPERLOFT1_NODE_CELLS * n.nodes && n.versions == JUMPERLOFT1_VERSIONS
        && n.walk_numbers == JUMPERLOFT1_WALK_NUMBERS && n.walk_nodes == JUMPERLOFT1_WALK_LEVELS
        && n.walk_indices == JUMPERLOFT1_WALK_LEVELS;
}

void check_sizes(size_t nodes)
{
    static const jumperloft1_sizes_of none;
    const jumperloft1_sizes_of sizes = jumperloft1_sizes(nodes);
    if (nodes == 0 || nodes > JUMPERLOFT1_MAX_NODES) {
        hold(memcmp(&sizes, &none, sizeof none) == 0, "there is no such state");
    } else {
        hold(sizes.nodes == nodes && sizes_fit(sizes), "the sizes of so many nodes");
    }
}

void begin_here(twins *t, int well_formed)
{
    save(&t->first, t->good);
    hold(!well_formed || reports(batch_of(&t->first, 0, 0), JUMPERLOFT1_DONE, 0), "a folded list is well-formed");
}

/* ---- forming */

uint32_t form_checked(twins *t)
{
    about(NULL);
    const uint32_t number = sizes_fit(t->first.state.sizes) ? JUMPERLOFT1_DONE : JUMPERLOFT1_ILL_FORMED;
    save(&t->first, t->before);
    load(&t->second, t->before);
    hold(reports(form_of(&t->first), number, 0), "formed exactly if the sizes fit");
    if (number == JUMPERLOFT1_DONE) {
        slice_read_only(&t->second, CELLS);
    } else {
        hold(same(&t->first, t->before), "a refused form changes not a byte");
        read_only(&t->second);
    }
    hold(reports(form_of(&t->second), number, 0), "formed again, where nothing may be written over memory that can't be");
    writable(&t->second);
    save(&t->second, t->after);
    hold(same(&t->first, t->after), "both forms make the same");
    hold(reports(batch_of(&t->first, 0, 0), number, 0), "an empty batch takes what was formed, and refuses sizes that don't fit");
    save(&t->first, t->good);
    return number;
}

/* ---- batches */

/* What a batch has to report. */
static uint32_t expected_report(const twins *t, const call *c)
{
    if (c->requests_size % JUMPERLOFT1_FRAME_SIZE != 0) {
        return JUMPERLOFT1_RAGGED;
    }
    if (c->room_size < JUMPERLOFT1_ANSWER_SIZE * frames_of(c)) {
        return JUMPERLOFT1_NO_ROOM;
    }
    return is_well_formed(&t->first.state) ? JUMPERLOFT1_DONE : JUMPERLOFT1_ILL_FORMED;
}

static void check_refused(const twins *t, const call *c, jumperloft1_report report)
{
    hold(report.frames == 0, "a refused batch reports no frames");
    hold(same(&t->first, t->before), "a refused batch changes not a byte");
    read_only(&t->second);
    const jumperloft1_report again = batch_of(&t->second, c->requests_size, c->room_size);
    hold(reports(again, report.number, 0), "refused again, over memory that can't be written to");
    if (report.number == JUMPERLOFT1_ILL_FORMED) {
        hold(reports(batch_of(&t->second, 0, 0), JUMPERLOFT1_ILL_FORMED, 0), "an empty batch is audited");
    }
    writable(&t->second);
    hold(same(&t->second, t->before), "refused again, not a byte changed");
}

uint32_t batch_checked(twins *t, const call *c)
{
    about(c);
    lend_both(t, t->first.state.sizes, c->requests_size, c->room_size);
    if (c->requests_size != 0) {
        memcpy(t->first.slices[REQUESTS].data, c->requests, c->requests_size);
    }
    for (size_t i = 0; i < c->room_size; i++) {
        t->first.slices[ROOM].data[i] = (uint8_t)(0xC9 + i);
    }
    save(&t->first, t->before);
    load(&t->second, t->before);
    const uint32_t expected = expected_report(t, c);
    const jumperloft1_report report = batch_of(&t->first, c->requests_size, c->room_size);
    print_answered(c, report, t->first.slices[ROOM].data);
    hold(report.number == expected, "13, 12 or 11 is reported exactly if it applies, and the first that does");
    if (report.number == JUMPERLOFT1_DONE) {
        check_served(t, c, report);
        save(&t->first, t->good);
        saw_state(&t->first.state);
    } else {
        check_refused(t, c, report);
    }
    if (report.number == JUMPERLOFT1_ILL_FORMED) {
        load(&t->first, t->good);
    }
    return report.number;
}
