#include "noting.h"

jumperloft1_sizes_of noted_sizes;
size_t asked_nodes;
handed last_handed;
const jumperloft1_report told = {0x89ABCDEFu, SIZE_MAX - 5};

jumperloft1_sizes_of jumperloft1_sizes(size_t nodes)
{
    static const jumperloft1_sizes_of none;
    asked_nodes = nodes;
    return nodes == noted_sizes.nodes ? noted_sizes : none;
}

jumperloft1_report jumperloft1_form(uint8_t *kinds, size_t kinds_count, uint8_t *used, size_t used_count,
    uint32_t *counts, size_t counts_count, const uint32_t *cells, size_t cells_count, uint32_t *order, size_t order_count,
    jumperloft1_version *versions, size_t versions_count, uint32_t *walk_numbers, size_t walk_numbers_count,
    uint32_t *walk_nodes, size_t walk_nodes_count, int32_t *walk_indices, size_t walk_indices_count)
{
    const handed now = {
        {kinds, used, counts, cells, order, versions, walk_numbers, walk_nodes, walk_indices, NULL, NULL},
        {kinds_count, used_count, counts_count, cells_count, order_count, versions_count, walk_numbers_count,
            walk_nodes_count, walk_indices_count, 0, 0}};
    last_handed = now;
    return told;
}

jumperloft1_report jumperloft1_batch(uint8_t *kinds, size_t kinds_count, uint8_t *used, size_t used_count,
    uint32_t *counts, size_t counts_count, uint32_t *cells, size_t cells_count, uint32_t *order, size_t order_count,
    jumperloft1_version *versions, size_t versions_count, uint32_t *walk_numbers, size_t walk_numbers_count,
    uint32_t *walk_nodes, size_t walk_nodes_count, int32_t *walk_indices, size_t walk_indices_count,
    const uint8_t *requests, size_t requests_count, uint8_t *room, size_t room_count)
{
    const handed now = {
        {kinds, used, counts, cells, order, versions, walk_numbers, walk_nodes, walk_indices, requests, room},
        {kinds_count, used_count, counts_count, cells_count, order_count, versions_count, walk_numbers_count,
            walk_nodes_count, walk_indices_count, requests_count, room_count}};
    last_handed = now;
    return told;
}
