/* The library with one fault, chosen by FAULT: misuse has to notice each. Linked with --wrap. */
#include <jumperloft.h>

#define STATE_PARAMETERS(cells_type)                                                                              \
    uint8_t *kinds, size_t kinds_count, uint8_t *used, size_t used_count, uint32_t *counts, size_t counts_count,  \
    cells_type *cells, size_t cells_count, uint32_t *order, size_t order_count, jumperloft1_version *versions,    \
    size_t versions_count, uint32_t *walk_numbers, size_t walk_numbers_count, uint32_t *walk_nodes,               \
    size_t walk_nodes_count, int32_t *walk_indices, size_t walk_indices_count
#define STATE_ARGUMENTS                                                                                           \
    kinds, kinds_count, used, used_count, counts, counts_count, cells, cells_count, order, order_count, versions, \
    versions_count, walk_numbers, walk_numbers_count, walk_nodes, walk_nodes_count, walk_indices, walk_indices_count

jumperloft1_report __real_jumperloft1_form(STATE_PARAMETERS(const uint32_t));
jumperloft1_report __wrap_jumperloft1_form(STATE_PARAMETERS(const uint32_t));
jumperloft1_report __real_jumperloft1_batch(STATE_PARAMETERS(uint32_t), const uint8_t *requests, size_t requests_count, uint8_t *room, size_t room_count);
jumperloft1_report __wrap_jumperloft1_batch(STATE_PARAMETERS(uint32_t), const uint8_t *requests, size_t requests_count, uint8_t *room, size_t room_count);

/* A read or a write that the compiler must keep. */
static void touch(const volatile void *byte)
{
    (void)*(const volatile uint8_t *)byte;
}

static void rewrite(volatile void *byte)
{
    volatile uint8_t *at = (volatile uint8_t *)byte;
    *at = *at;
}

jumperloft1_report __wrap_jumperloft1_form(STATE_PARAMETERS(const uint32_t))
{
    jumperloft1_report report = __real_jumperloft1_form(STATE_ARGUMENTS);
    const int done = report.number == JUMPERLOFT1_DONE;
    switch (FAULT) {
    case 1: if (done) rewrite((void *)(uintptr_t)cells); break;                   /* writes to the cells */
    case 2: if (done) touch(order + order_count); break;                          /* reads past the order */
    case 3: if (!done && versions_count > 64) report.number = 0; break;           /* takes a longer table */
    case 4: if (!done && kinds_count > 0) rewrite(kinds); break;                  /* writes though it refuses */
    default: break;
    }
    return report;
}

jumperloft1_report __wrap_jumperloft1_batch(STATE_PARAMETERS(uint32_t), const uint8_t *requests, size_t requests_count, uint8_t *room, size_t room_count)
{
    jumperloft1_report report = __real_jumperloft1_batch(STATE_ARGUMENTS, requests, requests_count, room, room_count);
    const int done = report.number == JUMPERLOFT1_DONE;
    const int damaged = report.number == JUMPERLOFT1_ILL_FORMED && versions_count == 64 && kinds_count > 0;
    switch (FAULT) {
    case 5: if (damaged) rewrite(versions); break;                                /* writes back what it read */
    case 6: if (report.number == JUMPERLOFT1_NO_ROOM && room_count > 0) room[0] ^= 1; break;
    case 7: if (report.number == JUMPERLOFT1_RAGGED && kinds_count > 0) rewrite(kinds); break;
    case 8: if (damaged) touch(cells + cells_count); break;                       /* reads past the end */
    case 9: if (damaged) touch((const uint8_t *)walk_indices - 1); break;         /* reads before the start */
    case 10: if (done && requests_count > 0) touch(requests + requests_count); break;
    case 11: if (done && requests_count / 2 < room_count) room[requests_count / 2] ^= 1; break;
    case 12: if (requests_count % 12 != 0 && room_count == 0) report.number = JUMPERLOFT1_NO_ROOM; break; /* checks in another order */
    case 13: if (damaged && requests_count == 0) report.number = JUMPERLOFT1_DONE; break; /* an empty batch not audited */
    case 14: if (requests_count > 12 && done) report.frames = 1; break;
    default: break;
    }
    return report;
}
