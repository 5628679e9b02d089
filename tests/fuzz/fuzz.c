/* What libFuzzer calls. Words of ours on the command line, which libFuzzer passes over:
 * --seeds=FOLDER writes the inputs to start from and ends; --unreached lists the blocks that were not run at the end;
 * --print prints each call; --blind tells the fuzzer nothing, to see what its guidance is worth. */
#include "blocks.h"
#include "seen.h"
#include "steps.h"

#include <stdio.h>
#include <stdlib.h>
#include <string.h>

int LLVMFuzzerInitialize(int *count, char ***words);
int LLVMFuzzerTestOneInput(const uint8_t *data, size_t size);
size_t LLVMFuzzerMutate(uint8_t *data, size_t size, size_t most);
size_t LLVMFuzzerCustomMutator(uint8_t *data, size_t size, size_t most, unsigned seed);

static twins lent;
static int unreached;

static void at_end(void)
{
    say_blocks(unreached);
}

int LLVMFuzzerInitialize(int *count, char ***words)
{
    static const char seeds[] = "--seeds=";
    int blind = 0;
    for (int i = 1; i < *count; i++) {
        const char *word = (*words)[i];
        if (strncmp(word, seeds, sizeof seeds - 1) == 0) {
            write_seeds(word + sizeof seeds - 1);
            exit(0);
        } else if (strcmp(word, "--unreached") == 0) {
            unreached = 1;
        } else if (strcmp(word, "--print") == 0) {
            print_calls();
        } else if (strcmp(word, "--blind") == 0) {
            blind = 1;
            see_nothing();
        }
    }
    make_twins(&lent);
    trap_blocks(!blind);
    return atexit(at_end);
}

int LLVMFuzzerTestOneInput(const uint8_t *data, size_t size)
{
    trap_again();
    run_steps(&lent, data, size);
    return 0;
}

/* ---- mutation, mostly of whole steps, so that the steps behind keep their meaning */

static size_t insert_step(uint8_t *data, size_t size, size_t at, const uint8_t *step)
{
    uint8_t copy[STEP];
    memcpy(copy, step, STEP);
    memmove(data + at + STEP, data + at, size - at);
    memcpy(data + at, copy, STEP);
    return size + STEP;
}

static size_t remove_step(uint8_t *data, size_t size, size_t at)
{
    memmove(data + at, data + at + STEP, size - at - STEP);
    return size - STEP;
}

size_t LLVMFuzzerCustomMutator(uint8_t *data, size_t size, size_t most, unsigned seed)
{
    const size_t steps = size / STEP;
    if (steps < 2 || seed % 8 == 0) {
        return LLVMFuzzerMutate(data, size, most);
    }
    const unsigned how = seed / 8 % 8;
    const size_t at = STEP * (seed / 64 % steps), other = STEP * (seed / 4096 % steps);
    if (how == 0 && steps > 2) {
        return remove_step(data, size, at);
    }
    if (how <= 2 && size + STEP <= most) {
        size = insert_step(data, size, at, data + other);
    }
    LLVMFuzzerMutate(data + at, STEP, STEP);
    return size;
}
