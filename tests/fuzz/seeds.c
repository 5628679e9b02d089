/* The inputs that the fuzzer starts from: one for each thing that an input can do. */
#include "steps.h"

#include <stdio.h>
#include <stdlib.h>

enum { MOST_STEPS = 64 };

static const char *seed_folder;
static unsigned seeds;
static uint8_t bytes[STEP * MOST_STEPS];
static size_t size;

static void put(uint8_t a, uint8_t b, uint8_t c, uint8_t d, uint8_t e, uint8_t f, uint8_t g, uint8_t h)
{
    const uint8_t step[STEP] = {a, b, c, d, e, f, g, h};
    for (int i = 0; i < STEP && size < sizeof bytes; i++) {
        bytes[size++] = step[i];
    }
}

static void put_frame(uint8_t party, uint8_t operation, uint8_t slot, uint8_t destination, uint8_t index, uint8_t value)
{
    put(FRAME, operation, party, slot, destination, index, 0, value);
}

static void put_call(uint8_t room, uint8_t by, uint8_t one_by_one)
{
    put(CALL, room, by, one_by_one, 0, 0, 0, 0);
}

/* Places in the table of nodes that begin() has. */
enum { NODES_1 = 0, NODES_3 = 2, NODES_64 = 8, NODES_256 = 10 };

static void start(uint8_t nodes, uint8_t beginning)
{
    size = 0;
    put(nodes, 0, 0, 0, beginning, 0, 0, 0);
}

static void finish(void)
{
    char name[4096];
    snprintf(name, sizeof name, "%s/seed_%02u", seed_folder, seeds++);
    FILE *file = fopen(name, "wb");
    if (file == NULL || fwrite(bytes, 1, size, file) != size || fclose(file) != 0) {
        perror(name);
        exit(2);
    }
}

/* A list of a party's in slot 0, or in slot 1 if the count is odd. */
static void put_list(uint8_t party, uint8_t bits, uint8_t count)
{
    put_frame(party, JUMPERLOFT1_NEW, 0, 0, bits, 0);
    put(PUSHES, party, 0, 1, count, 3, 0, 0);
}

static void edits(void)
{
    for (uint8_t bits = 1; bits <= 5; bits++) {
        start(NODES_256, FORMED);
        put_list(1, bits, 40);
        put_call(LONGER, 9, 0);
        put_frame(1, JUMPERLOFT1_SET, 0, 2, 17, 99);
        put_frame(1, JUMPERLOFT1_DROP_LAST, 0, 3, 0, 0);
        put_frame(1, JUMPERLOFT1_COMPARE, 0, 2, 0, 0);
        put_frame(1, JUMPERLOFT1_GET, 2, 0, 17, 0);
        put_frame(1, JUMPERLOFT1_RELEASE, 0, 0, 0, 0);
        put_frame(1, JUMPERLOFT1_LAST, 3, 0, 0, 0);
        put_call(EXACT, 0, 1);
        finish();
    }
}

static void walks(void)
{
    start(NODES_64, FORMED);
    put_list(0, 2, 6);
    put_frame(0, JUMPERLOFT1_HAND_OVER, 0, 1, 0, 2);
    put_frame(2, JUMPERLOFT1_OPEN_WALK, 1, 0, 0, 0);
    put_frame(2, JUMPERLOFT1_NEXT, 0, 0, 0, 0);
    put_frame(2, JUMPERLOFT1_NEXT_BACK, 0, 0, 0, 0);
    put_call(EXACT, 0, 1);
    put_frame(2, JUMPERLOFT1_RELEASE, 1, 0, 0, 0);
    put_frame(2, JUMPERLOFT1_NEXT, 0, 0, 0, 0);
    put_frame(2, JUMPERLOFT1_CLOSE_WALK, 0, 0, 0, 0);
    put_frame(0, JUMPERLOFT1_FREE_NODES, 0, 0, 0, 0);
    finish();
}

/* Few nodes, and a list that can't grow; then many. */
static void nodes_few_and_many(void)
{
    static const uint8_t nodes[] = {NODES_1, NODES_1 + 1, NODES_3, MANY};
    for (size_t i = 0; i < sizeof nodes; i++) {
        start(nodes[i], FORMED);
        put_list(3, 1, 5);
        put_frame(3, JUMPERLOFT1_CLONE, 0, 4, 0, 0);
        put(RAW_FRAME, 8, 0x11, 8, 8, 255, 255, 255);
        put_call(EXACT, 0, 1);
        finish();
    }
}

/* The greatest length at each bits: nothing can be pushed, and a walk is as deep as it gets. */
static void folded(void)
{
    for (uint8_t bits = 1; bits <= 5; bits++) {
        size = 0;
        put(0, 0, 0, 0, FOLDED, 0x80, 0, (uint8_t)(bits - 1));
        put_frame(0, JUMPERLOFT1_PUSH_BACK, 0, 1, 0, 1);
        put_frame(0, JUMPERLOFT1_DROP_LAST, 0, 2, 0, 0);
        put_frame(0, JUMPERLOFT1_SET, 0, 3, 200, 1);
        put_frame(0, JUMPERLOFT1_OPEN_WALK, 0, 0, 0, 0);
        put_frame(0, JUMPERLOFT1_NEXT, 0, 0, 0, 0);
        put_frame(0, JUMPERLOFT1_NEXT_BACK, 0, 0, 0, 0);
        put_call(EXACT, 0, 0);
        finish();
    }
}

static void refused_calls(void)
{
    start(NODES_64, FORMED);
    put_list(0, 5, 2);
    put_call(SHORT, 1, 0);
    put_list(0, 5, 2);
    put_call(NO_ROOM_AT_ALL, 0, 0);
    put_list(0, 5, 2);
    put(TAIL, 5, 7, 0, 0, 0, 0, 0);
    put_call(EXACT, 0, 0);
    put(TAIL, 11, 7, 0, 0, 0, 0, 0);
    put_call(NO_ROOM_AT_ALL, 0, 0);
    finish();
}

static void damaged(void)
{
    for (uint8_t which = 0; which < LENT; which++) {
        start(NODES_64, FORMED);
        put_list(0, 1, 9);
        put_frame(0, JUMPERLOFT1_OPEN_WALK, 1, 0, 0, 0);
        put_frame(0, JUMPERLOFT1_NEXT, 0, 0, 0, 0);
        put_call(EXACT, 0, 0);
        for (uint8_t how = SET; how < DAMAGES; how++) {
            put(DAMAGE, which, how, 0, 1, 0, 3, 4);
            put_frame(0, JUMPERLOFT1_GET, 1, 0, 0, 0);
            put_call(EXACT, 0, 0);
        }
        for (uint8_t how = 0; how < 4; how++) {
            put(FILL, which % 2 ? LENT : which, how, 7, 1, 8, 2, 0);
            put_call(EXACT, 0, 0);
        }
        finish();
    }
}

static void wrong_sizes(void)
{
    for (uint8_t which = 0; which < LENT; which++) {
        for (uint8_t how = 0; how < 6; how++) {
            size = 0;
            put(NODES_3, WRONG_SIZE, which, how, AS_IF_FRESH, 0, 0, 0);
            put(FORM, 0, 0, 0, 0, 0, 0, 0);
            put_list(0, 5, 2);
            put_call(LONGER, 3, 0);
            finish();
        }
    }
}

void write_seeds(const char *folder)
{
    seed_folder = folder;
    edits();
    walks();
    nodes_few_and_many();
    folded();
    refused_calls();
    damaged();
    wrong_sizes();
}
