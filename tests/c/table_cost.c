/* What the version table costs at the boundary: a refused batch that copies it out, one that doesn't, and one that copies it back too. */
#include <jumperloft.h>
#include <stdio.h>
#include <stdlib.h>
#include <time.h>

enum { ROUNDS = 31, CALLS = 20000 };

static int by_size(const void *a, const void *b)
{
    double x = *(const double *)a, y = *(const double *)b;
    return (x > y) - (x < y);
}

/* The median of the rounds, in nanoseconds a call. */
static double time_of(const jumperloft1_state *state, size_t requests)
{
    static const uint8_t frames[JUMPERLOFT1_FRAME_SIZE];
    double rounds[ROUNDS];
    for (int round = 0; round < ROUNDS; round++) {
        struct timespec from, to;
        clock_gettime(CLOCK_MONOTONIC, &from);
        for (int call = 0; call < CALLS; call++)
            jumperloft1_run(state, frames, requests, NULL, 0);
        clock_gettime(CLOCK_MONOTONIC, &to);
        rounds[round] = ((double)(to.tv_sec - from.tv_sec) * 1e9 + (double)(to.tv_nsec - from.tv_nsec)) / CALLS;
    }
    qsort(rounds, ROUNDS, sizeof rounds[0], by_size);
    return rounds[ROUNDS / 2];
}

int main(void)
{
    jumperloft1_state state;
    void *memory = malloc(jumperloft1_bytes_for(1));
    if (!jumperloft1_lay_out(memory, 1, &state) || jumperloft1_form_state(&state).number != JUMPERLOFT1_DONE)
        return 1;
    jumperloft1_state other = state;
    other.sizes.versions = JUMPERLOFT1_VERSIONS - 1;
    printf("a ragged batch, a table of 63 records, not copied: %.0f ns\n", time_of(&other, 1));
    printf("a ragged batch, a table of 64 records, copied out: %.0f ns\n", time_of(&state, 1));
    printf("an empty batch on 1 node, audited, copied out and back: %.0f ns\n", time_of(&state, 0));
    free(memory);
    return 0;
}
