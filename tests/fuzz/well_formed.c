/* A plain audit: document 01's paragraph "The state is well-formed if", clause by clause, over any bytes. */
#include "contents.h"
#include "twins.h"

#include <string.h>

/* What a node was found to be: the height and the elements of the shape that reached it, or not reached. */
typedef struct shape {
    uint32_t bits, height, elements;
    int reached;
} shape;

/* of the audit at hand */
static shape shapes[2 * MOST_NODES];
static uint32_t links[2 * MOST_NODES];
static uint8_t in_order[2 * MOST_NODES];

static int blank(const uint32_t *words, size_t count)
{
    for (size_t i = 0; i < count; i++) {
        if (words[i] != 0) {
            return 0;
        }
    }
    return 1;
}

/* ---- versions */

/* Whether a node is the root of so many elements packed to the left, all levels of that height; a shape that was found is
 * not gone through again, so that a node with many links costs no more than one with few. */
static int has_shape(const jumperloft1_state *s, uint32_t bits, uint32_t node, uint32_t height, uint32_t elements)
{
    if (node >= s->sizes.nodes) {
        return 0;
    }
    shape *known = &shapes[node];
    if (known->reached && known->bits == bits && known->height == height && known->elements == elements) {
        return 1;
    }
    const uint32_t below = UINT32_C(1) << bits * height;
    const uint32_t children = (elements + below - 1) / below;
    if (children > UINT32_C(1) << bits || s->used[node] != children || s->kinds[node] != (height == 0 ? LEAF_KIND : BRANCH_KIND)) {
        return 0;
    }
    for (uint32_t i = 0; height > 0 && i < children; i++) {
        const uint32_t left = elements - i * below;
        if (!has_shape(s, bits, s->cells[JUMPERLOFT1_NODE_CELLS * node + i], height - 1, left < below ? left : below)) {
            return 0;
        }
    }
    const shape found = {bits, height, elements, 1};
    *known = found;
    return 1;
}

static int is_live(const jumperloft1_state *s, const jumperloft1_version *v)
{
    if (v->live != 1 || v->bits < 1 || v->bits > 5 || v->length > JUMPERLOFT1_MAX_LENGTH
        || !has_shape(s, v->bits, v->root, height_of(v->bits, v->length), v->length)) {
        return 0;
    }
    links[v->root]++;
    return 1;
}

static int versions_are_right(const jumperloft1_state *s)
{
    for (size_t i = 0; i < JUMPERLOFT1_VERSIONS; i++) {
        const jumperloft1_version *v = &s->versions[i];
        if ((v->live | v->root | v->bits | v->length) != 0 && !is_live(s, v)) {
            return 0;
        }
    }
    return 1;
}

/* ---- walks */

/* A stack is the way to what comes next, none before anything is taken or when all is; levels above it are 0. */
static int stack_is_right(const jumperloft1_state *s, size_t stack, const jumperloft1_version *v, uint32_t taken, uint32_t index)
{
    const uint32_t *nodes = s->walk_nodes + LEVELS * stack;
    const int32_t *indices = s->walk_indices + LEVELS * stack;
    uint32_t expected_nodes[LEVELS] = {0};
    int32_t expected_indices[LEVELS] = {0};
    if (taken != 0 && taken != v->length) {
        uint32_t node = v->root;
        for (uint32_t level = height_of(v->bits, v->length) + 1; level-- > 0;) {
            const uint32_t bucket = index >> v->bits * level & ((UINT32_C(1) << v->bits) - 1);
            expected_nodes[level] = node;
            expected_indices[level] = (int32_t)bucket;
            node = s->cells[JUMPERLOFT1_NODE_CELLS * node + bucket];
        }
    }
    return memcmp(nodes, expected_nodes, sizeof expected_nodes) == 0
        && memcmp(indices, expected_indices, sizeof expected_indices) == 0;
}

static int walk_is_right(const jumperloft1_state *s, size_t walk)
{
    const uint32_t *w = s->walk_numbers + WALK_RECORD * walk;
    const jumperloft1_version v = {w[WALK_LIVE], w[WALK_ROOT], w[WALK_BITS], w[WALK_LENGTH]};
    const uint32_t front = w[TAKEN_IN_FRONT], back = w[TAKEN_AT_BACK];
    if (!blank(w, WALK_RECORD) && (!is_live(s, &v) || front > v.length || back > v.length - front)) {
        return 0;
    }
    return stack_is_right(s, 2 * walk, &v, front, front) && stack_is_right(s, 2 * walk + 1, &v, back, v.length - 1 - back);
}

static int walks_are_right(const jumperloft1_state *s)
{
    for (size_t i = 0; i < JUMPERLOFT1_PARTIES * JUMPERLOFT1_WALKS; i++) {
        if (!walk_is_right(s, i)) {
            return 0;
        }
    }
    return 1;
}

/* ---- nodes */

/* The free order's first places have each free node once. */
static int order_is_right(const jumperloft1_state *s)
{
    const uint32_t free_nodes = count_free(s->kinds, s->sizes.nodes);
    memset(in_order, 0, s->sizes.nodes);
    for (uint32_t i = 0; i < free_nodes; i++) {
        const uint32_t node = s->order[i];
        if (node >= s->sizes.nodes || s->kinds[node] != FREE_KIND || in_order[node]++ != 0) {
            return 0;
        }
    }
    return 1;
}

static int node_is_right(const jumperloft1_state *s, size_t node)
{
    const uint32_t *cells = s->cells + JUMPERLOFT1_NODE_CELLS * node;
    if (s->kinds[node] == FREE_KIND) {
        return !shapes[node].reached && s->used[node] == 0 && s->counts[node] == 0;
    }
    return shapes[node].reached && s->counts[node] == links[node]
        && blank(cells + s->used[node], JUMPERLOFT1_NODE_CELLS - s->used[node]);
}

int is_well_formed(const jumperloft1_state *s)
{
    if (!sizes_fit(s->sizes)) {
        return 0;
    }
    memset(shapes, 0, s->sizes.nodes * sizeof shapes[0]);
    memset(links, 0, s->sizes.nodes * sizeof links[0]);
    if (!versions_are_right(s) || !walks_are_right(s) || !order_is_right(s)) {
        return 0;
    }
    for (size_t node = 0; node < s->sizes.nodes; node++) {
        for (uint32_t i = 0; shapes[node].reached && s->kinds[node] == BRANCH_KIND && i < s->used[node]; i++) {
            links[s->cells[JUMPERLOFT1_NODE_CELLS * node + i]]++;
        }
    }
    for (size_t node = 0; node < s->sizes.nodes; node++) {
        if (!node_is_right(s, node)) {
            return 0;
        }
    }
    return 1;
}
