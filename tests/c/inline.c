/* The header's inline functions at the edges of every argument, over calls that only note what they are handed. */
#define _DEFAULT_SOURCE
#include "checks.h"
#include "noting.h"

#include <stdlib.h>
#include <string.h>
#include <unistd.h>

static const uint32_t edges[] = {0, 1, 0x7F, 0x80, 0xFF, 0x100, 0xFFFF, 0x10000, 0x10001, 0xFFFFFF, 0x1000000, 0x1000001,
    0x01020304, 0x7FFFFFFF, 0x80000000, 0xF0E1D2C3, 0xFFFFFFFF};
enum { EDGES = sizeof edges / sizeof edges[0], CANARY = 0xA5 };

/* Most significant first. */
static uint8_t byte_of(uint32_t word, unsigned place)
{
    static const uint32_t weights[] = {0x1000000, 0x10000, 0x100, 1};
    return (uint8_t)(word / weights[place] % 256);
}

/* ---- frames and answers */

static void one_frame(uint8_t party, uint8_t operation, uint8_t slot, uint8_t destination, uint32_t index, uint32_t value)
{
    const uint8_t heads[4] = {party, operation, slot, destination};
    uint8_t bytes[12 + 2];
    memset(bytes, CANARY, sizeof bytes);
    jumperloft1_put_frame(bytes + 1, party, operation, slot, destination, index, value);
    for (unsigned i = 0; i < 4; i++) {
        want(bytes[1 + i] == heads[i], "the first four bytes of a frame");
        want(bytes[5 + i] == byte_of(index, i), "the index of a frame");
        want(bytes[9 + i] == byte_of(value, i), "the value of a frame");
    }
    want(bytes[0] == CANARY && bytes[13] == CANARY, "a frame has 12 bytes");
}

static void frames(void)
{
    at_work_on("frames", 0);
    for (unsigned i = 0; i < EDGES * EDGES; i++) {
        one_frame(1, JUMPERLOFT1_SET, 2, 3, edges[i / EDGES], edges[i % EDGES]);
    }
    for (unsigned i = 0; i < 256; i++) {
        one_frame((uint8_t)i, 0x11, 0x12, 0x13, 0x14151617, 0x18191A1B);
        one_frame(0x10, (uint8_t)i, 0x12, 0x13, 0x14151617, 0x18191A1B);
        one_frame(0x10, 0x11, (uint8_t)i, 0x13, 0x14151617, 0x18191A1B);
        one_frame(0x10, 0x11, 0x12, (uint8_t)i, 0x14151617, 0x18191A1B);
    }
}

static void answers(void)
{
    for (unsigned number = 0; number < 256; number++) {
        at_work_on("answers", number);
        for (unsigned i = 0; i < EDGES; i++) {
            const uint8_t fresh = (uint8_t)(255 - number);
            uint8_t bytes[6] = {(uint8_t)number, fresh};
            for (unsigned k = 0; k < 4; k++) {
                bytes[2 + k] = byte_of(edges[i], k);
            }
            const jumperloft1_answer answer = jumperloft1_get_answer(bytes);
            want(answer.number == number && answer.fresh == fresh && answer.value == edges[i], "an answer is read");
        }
    }
}

/* Every length, ragged ones too: the first byte of each frame that starts there, and no other. */
static void parties(void)
{
    enum { LONGEST = 5 * 12 + 1 };
    for (unsigned party = 0; party < 256; party += party < 8 ? 1 : 31) {
        at_work_on("parties", party);
        for (size_t length = 0; length <= LONGEST; length++) {
            uint8_t bytes[LONGEST + 2 * 12];
            memset(bytes, CANARY, sizeof bytes);
            jumperloft1_set_party(bytes + 1, length, (uint8_t)party);
            for (size_t i = 0; i < sizeof bytes; i++) {
                const int starts = i >= 1 && i - 1 < length && (i - 1) % 12 == 0;
                want(bytes[i] == (starts ? party : CANARY), "the party of every frame, and no other byte");
            }
        }
    }
}

/* ---- a state in one block */

static void refused_block(void *memory, size_t nodes)
{
    jumperloft1_state state, before;
    memset(&state, CANARY, sizeof state);
    memcpy(&before, &state, sizeof state);
    want(jumperloft1_lay_out(memory, nodes, &state) == 0, "there is no such state or block");
    want(memcmp(&state, &before, sizeof state) == 0, "then the state is left as it was");
}

/* Slices that follow one another in any order, from the start of the block to its end, each aligned. */
static void tiled(const jumperloft1_state *s, const uint8_t *memory, size_t bytes)
{
    const void *const slices[LENT] = {s->kinds, s->used, s->counts, s->cells, s->order, s->versions, s->walk_numbers,
        s->walk_nodes, s->walk_indices};
    const uint8_t *at = memory;
    for (int left = LENT; left > 0; left--) {
        int i = 0;
        while (i < LENT && slices[i] != (const void *)at) {
            i++;
        }
        want(i < LENT, "a slice starts where another ends");
        want(i == KINDS || i == USED || (uintptr_t)at % sizeof(uint32_t) == 0, "it is aligned");
        at += i < LENT ? slice_bytes(i, noted_sizes, 0, 0) : 0;
    }
    want(at == memory + bytes, "the last one ends with the block");
}

static void block(jumperloft1_sizes_of sizes)
{
    static const size_t none[] = {0, JUMPERLOFT1_MAX_NODES + 1, SIZE_MAX};
    at_work_on("a block", sizes.nodes);
    jumperloft1_state state;
    size_t bytes = 0;
    noted_sizes = sizes;
    for (int i = 0; i < LENT; i++) {
        bytes += slice_bytes(i, sizes, 0, 0);
    }
    uint8_t *memory = (uint8_t *)malloc(bytes);
    memset(&state, 0, sizeof state);
    want(jumperloft1_bytes_for(sizes.nodes) == bytes && asked_nodes == sizes.nodes, "the bytes of a block");
    asked_nodes = 0;
    want(jumperloft1_lay_out(memory, sizes.nodes, &state) == 1 && asked_nodes == sizes.nodes, "laid out");
    want(memcmp(&state.sizes, &sizes, sizeof sizes) == 0, "the sizes are the library's");
    tiled(&state, memory, bytes);
    refused_block(NULL, sizes.nodes);
    for (size_t astray = 1; astray < sizeof(uint32_t); astray++) {
        refused_block(memory + astray, sizes.nodes);
    }
    for (size_t i = 0; i < 3; i++) {
        want(jumperloft1_bytes_for(none[i]) == 0 && asked_nodes == none[i], "no bytes for no state");
        refused_block(memory, none[i]);
    }
    free(memory);
}

/* ---- what form and batch are handed */

static void handed_over(jumperloft1_sizes_of sizes, size_t requests, size_t room)
{
    at_work_on("what is handed over", sizes.nodes);
    loan lent = lend_sizes(sizes, requests, room, AT_END);
    for (int batch = 0; batch < 2; batch++) {
        const jumperloft1_report report = batch ? batch_of(&lent, requests, room) : form_of(&lent);
        want(reports(report, told.number, told.frames), "the report is the library's");
        for (int i = 0; i < (batch ? SLICES : LENT); i++) {
            const size_t count = i == REQUESTS ? requests : i == ROOM ? room : *count_of(&sizes, i);
            want(last_handed.slices[i] == lent.slices[i].data && last_handed.counts[i] == count, "each slice with its own count");
        }
    }
    give_back(&lent);
}

/* Counts that no memory has: none is cut short on its way. */
static void greatest_counts(void)
{
    jumperloft1_state state;
    memset(&state, 0, sizeof state);
    for (int i = 0; i < LENT; i++) {
        *count_of(&state.sizes, i) = SIZE_MAX - (size_t)i;
    }
    for (int batch = 0; batch < 2; batch++) {
        at_work_on("greatest counts", (unsigned long)batch);
        const jumperloft1_report report = batch ? jumperloft1_run(&state, NULL, SIZE_MAX - REQUESTS, NULL, SIZE_MAX - ROOM) : jumperloft1_form_state(&state);
        want(reports(report, told.number, told.frames), "the report is the library's");
        for (int i = 0; i < (batch ? SLICES : LENT); i++) {
            want(last_handed.slices[i] == NULL && last_handed.counts[i] == SIZE_MAX - (size_t)i, "a count is handed over whole");
        }
    }
}

/* No two alike. */
static jumperloft1_sizes_of distinct(size_t nodes)
{
    jumperloft1_sizes_of sizes;
    for (int i = 0; i < LENT; i++) {
        *count_of(&sizes, i) = nodes + 7 * (size_t)i;
    }
    return sizes;
}

/* As the library has them. */
static jumperloft1_sizes_of plain(size_t nodes)
{
    const jumperloft1_sizes_of sizes = {nodes, nodes, 32 * nodes, nodes, nodes, 64, 96, 480, 480};
    return sizes;
}

int main(void)
{
    static const size_t nodes[] = {1, 2, 3, 255, 256, 4096, JUMPERLOFT1_MAX_NODES};
    catch_faults();
    alarm(20); /* where a loop of the header's has no end */
    frames();
    answers();
    parties();
    for (size_t i = 0; i < sizeof nodes / sizeof nodes[0]; i++) {
        block(plain(nodes[i]));
        block(distinct(nodes[i]));
        handed_over(plain(nodes[i]), 12, 6);
        handed_over(distinct(nodes[i]), 12 * nodes[i] + 1, 6 * nodes[i] - 1);
    }
    greatest_counts();
    return finish("inline: frames, answers, parties, blocks, what is handed over");
}
