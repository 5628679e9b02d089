// Another library under our names: it answers 0 to every frame and changes nothing in the lent state.
#undef EDITION
#define JUMPERLOFT1_CALL __attribute__((visibility("default")))
#include "boundary.h"
#include <string.h>

static unsigned calls;

// How many calls came here that were meant for the library.
JUMPERLOFT1_CALL unsigned harm_done(void)
{
    return calls;
}

jumperloft1_sizes_of jumperloft1_sizes(size_t nodes)
{
    calls++;
    return (jumperloft1_sizes_of){ .nodes = nodes };
}

jumperloft1_report jumperloft1_form(uint8_t *kinds, size_t a, uint8_t *used, size_t b, uint32_t *counts, size_t c,
    const uint32_t *cells, size_t d, uint32_t *order, size_t e, jumperloft1_version *versions, size_t f,
    uint32_t *walk_numbers, size_t g, uint32_t *walk_nodes, size_t h, int32_t *walk_indices, size_t i)
{
    (void)kinds, (void)a, (void)used, (void)b, (void)counts, (void)c, (void)cells, (void)d, (void)order, (void)e;
    (void)versions, (void)f, (void)walk_numbers, (void)g, (void)walk_nodes, (void)h, (void)walk_indices, (void)i;
    calls++;
    return (jumperloft1_report){ JUMPERLOFT1_DONE, 0 };
}

jumperloft1_report jumperloft1_batch(uint8_t *kinds, size_t a, uint8_t *used, size_t b, uint32_t *counts, size_t c,
    uint32_t *cells, size_t d, uint32_t *order, size_t e, jumperloft1_version *versions, size_t f,
    uint32_t *walk_numbers, size_t g, uint32_t *walk_nodes, size_t h, int32_t *walk_indices, size_t i,
    const uint8_t *requests, size_t asked, uint8_t *answers, size_t room)
{
    (void)kinds, (void)a, (void)used, (void)b, (void)counts, (void)c, (void)cells, (void)d, (void)order, (void)e;
    (void)versions, (void)f, (void)walk_numbers, (void)g, (void)walk_nodes, (void)h, (void)walk_indices, (void)i;
    (void)requests;
    calls++;
    memset(answers, 0, room);
    return (jumperloft1_report){ JUMPERLOFT1_DONE, asked / JUMPERLOFT1_FRAME_SIZE };
}
