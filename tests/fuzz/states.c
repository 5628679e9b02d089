/* The states that an input begins with, and what it does to their bytes. */
#include "steps.h"

#include <string.h>

/* ---- how a state begins */

/* A fresh state but for its sizes, which form would refuse. */
static void as_if_fresh(const twins *t)
{
    const jumperloft1_state *s = &t->first.state;
    for (int i = 0; i < LENT; i++) {
        if (t->first.slices[i].size != 0) {
            memset(t->first.slices[i].data, 0, t->first.slices[i].size);
        }
    }
    for (size_t i = 0; i < s->sizes.order; i++) {
        s->order[i] = (uint32_t)(s->sizes.order - 1 - i);
    }
}

static void make_wrong(jumperloft1_sizes_of *sizes, uint8_t which, uint8_t how)
{
    size_t *count = count_of(sizes, which % LENT);
    const size_t others[] = {0, 1, *count - 1, *count + 1, 2 * *count, *count / 2};
    *count = others[how % (sizeof others / sizeof others[0])];
}

/* Above 4,096 nodes the library has code of its own; it is slow, and few inputs go there. */
static size_t nodes_of(uint8_t choice, uint8_t beginning)
{
    static const size_t all[] = {1, 2, 3, 4, 6, 9, 16, 33, 64, 100, 256, 300};
    return choice == MANY ? MOST_NODES : beginning == FOLDED ? 64 : all[choice % (sizeof all / sizeof all[0])];
}

void begin(twins *t, const uint8_t *step)
{
    const uint8_t beginning = step[4] % BEGINNINGS;
    jumperloft1_sizes_of sizes = jumperloft1_sizes(nodes_of(step[0], beginning));
    if (beginning != FOLDED && step[1] >= WRONG_SIZE) {
        make_wrong(&sizes, step[2], step[3]);
    }
    lend_twins(t, sizes);
    if (beginning == AS_IF_FRESH) {
        as_if_fresh(t);
    } else {
        form_checked(t);
    }
    if (beginning == FOLDED) {
        make_folded(&t->first.state, 1 + step[7] % 5, ((uint32_t)step[5] << 8 | step[6]) % (JUMPERLOFT1_MAX_LENGTH + 1));
    }
    begin_here(t, beginning == FOLDED);
}

/* ---- damage */

static size_t element_size(int which)
{
    return which == KINDS || which == USED ? 1 : sizeof(uint32_t);
}

static uint32_t element(const uint8_t *at, size_t size)
{
    uint32_t value = 0;
    memcpy(&value, at, size);
    return value;
}

static void put_element(uint8_t *at, size_t size, uint32_t value)
{
    memcpy(at, &value, size);
}

size_t damage(const twins *t, const uint8_t *step)
{
    static const size_t record[LENT] = {1, 1, 1, JUMPERLOFT1_NODE_CELLS, 1, 4, 6, 30, 30};
    const int which = step[1] % LENT;
    const slice *s = &t->first.slices[which];
    const size_t size = element_size(which), count = s->size / size;
    if (count == 0) {
        return 0;
    }
    const uint32_t number = (uint32_t)step[5] << 8 | step[6];
    const size_t place = ((size_t)step[3] << 8 | step[4]) % count;
    const size_t other = number % count;
    uint8_t *at = s->data + size * place, *from = s->data + size * other;
    const uint32_t was = element(at, size);
    const size_t most = count - (place > other ? place : other);
    const size_t run = 1 + step[7] % JUMPERLOFT1_NODE_CELLS;
    switch (step[2] % DAMAGES) {
    case SET: put_element(at, size, number); break;
    case PLUS_ONE: put_element(at, size, was + 1); break;
    case MINUS_ONE: put_element(at, size, was - 1); break;
    case FLIP: put_element(at, size, was ^ UINT32_C(1) << number % 32); break;
    case HIGH: put_element(at, size, was ^ number << 16); break;
    case SWAP: put_element(at, size, element(from, size)); put_element(from, size, was); break;
    case COPY: put_element(at, size, element(from, size)); break;
    default: memmove(at, from, size * (run < most ? run : most));
    }
    return place % record[which];
}

/* One slice, or all that is lent: the pattern over and over, or numbers below 3 that come from it. */
void fill_slices(const twins *t, const uint8_t *step)
{
    const int which = step[1] % (LENT + 1);
    uint32_t word = element(step + 3, sizeof word);
    for (int i = 0; i < LENT; i++) {
        const slice *s = &t->first.slices[i];
        for (size_t k = 0; (which == LENT || which == i) && k < s->size; k++) {
            const int low = element_size(i) == 1 || k % 4 == 0;
            word = step[2] % 2 ? word * UINT32_C(1664525) + UINT32_C(1013904223) : word;
            const uint8_t byte = step[2] % 2 ? (uint8_t)(word >> 24) : step[3 + k % 4];
            s->data[k] = step[2] % 4 < 2 ? byte : (uint8_t)(low ? byte % 3 : 0);
        }
    }
}
