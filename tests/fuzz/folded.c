/* A list made by hand in which equal full subtrees are one node: few nodes hold any length at any height.
 * No call makes such a state, and it is well-formed. */
#include "contents.h"
#include "steps.h"

typedef struct folding {
    const jumperloft1_state *state;
    uint32_t bits;
    uint32_t taken;        /* the nodes from 0 up to it */
    uint32_t full[LEVELS]; /* the full node of each height, and whether there is one yet */
    int has_full[LEVELS];
} folding;

static void add_cell(const folding *f, uint32_t node, uint32_t value)
{
    f->state->cells[JUMPERLOFT1_NODE_CELLS * node + f->state->used[node]++] = value;
}

/* A node of this height over so many elements. */
static uint32_t fold(folding *f, uint32_t height, uint32_t elements)
{
    const uint32_t below = UINT32_C(1) << f->bits * height;
    const int is_full = elements == below << f->bits;
    if (is_full && f->has_full[height]) {
        return f->full[height];
    }
    const uint32_t node = f->taken++;
    f->state->kinds[node] = height == 0 ? LEAF_KIND : BRANCH_KIND;
    for (size_t i = 0; i < JUMPERLOFT1_NODE_CELLS; i++) {
        f->state->cells[JUMPERLOFT1_NODE_CELLS * node + i] = 0;
    }
    for (uint32_t done = 0; done < elements; done += below) {
        if (height == 0) {
            add_cell(f, node, 1000 + done);
        } else {
            const uint32_t child = fold(f, height - 1, elements - done < below ? elements - done : below);
            f->state->counts[child]++;
            add_cell(f, node, child);
        }
    }
    if (is_full) {
        f->full[height] = node;
        f->has_full[height] = 1;
    }
    return node;
}

void make_folded(const jumperloft1_state *state, uint32_t bits, uint32_t length)
{
    folding f = {state, bits, 0, {0}, {0}};
    const uint32_t root = fold(&f, height_of(bits, length), length);
    state->counts[root]++;
    const jumperloft1_version version = {1, root, bits, length};
    state->versions[0] = version;
    for (uint32_t node = f.taken; node < state->sizes.nodes; node++) {
        state->order[node - f.taken] = node;
    }
}
