/* Slices between pages that fault. */
#define _DEFAULT_SOURCE
#include "guarded.h"

#include <stdio.h>
#include <stdlib.h>
#include <string.h>
#include <sys/mman.h>
#include <unistd.h>

static void must(int ok, const char *what)
{
    if (!ok) {
        perror(what);
        exit(2);
    }
}

static slice guard(size_t size)
{
    slice s = {NULL, 0, NULL, 0};
    if (size == 0) {
        return s;
    }
    const size_t page = (size_t)sysconf(_SC_PAGESIZE);
    s.pages_size = (size + page - 1) / page * page;
    uint8_t *all = (uint8_t *)mmap(NULL, s.pages_size + 2 * page, PROT_NONE, MAP_PRIVATE | MAP_ANONYMOUS, -1, 0);
    must(all != (uint8_t *)MAP_FAILED, "mmap");
    s.pages = all + page;
    must(mprotect(s.pages, s.pages_size, PROT_READ | PROT_WRITE) == 0, "mprotect");
    return s;
}

size_t *count_of(jumperloft1_sizes_of *n, int which)
{
    size_t *const all[LENT] = {&n->nodes, &n->used, &n->counts, &n->cells, &n->order, &n->versions, &n->walk_numbers,
        &n->walk_nodes, &n->walk_indices};
    return all[which];
}

size_t slice_bytes(int which, jumperloft1_sizes_of n, size_t requests, size_t room)
{
    static const size_t element[LENT] = {1, 1, 4, 4, 4, sizeof(jumperloft1_version), 4, 4, 4};
    return which == REQUESTS ? requests : which == ROOM ? room : element[which] * *count_of(&n, which);
}

void lend_anew(loan *lent, jumperloft1_sizes_of n, size_t requests, size_t room, side where)
{
    lent->bytes = 0;
    for (int i = 0; i < SLICES; i++) {
        slice *s = &lent->slices[i];
        s->size = slice_bytes(i, n, requests, room);
        s->data = s->size == 0 ? NULL : where == AT_START ? s->pages : s->pages + (s->pages_size - s->size);
        lent->bytes += s->size;
    }
    lent->state.kinds = lent->slices[KINDS].data;
    lent->state.used = lent->slices[USED].data;
    lent->state.counts = (uint32_t *)(void *)lent->slices[COUNTS].data;
    lent->state.cells = (uint32_t *)(void *)lent->slices[CELLS].data;
    lent->state.order = (uint32_t *)(void *)lent->slices[ORDER].data;
    lent->state.versions = (jumperloft1_version *)(void *)lent->slices[VERSIONS].data;
    lent->state.walk_numbers = (uint32_t *)(void *)lent->slices[WALK_NUMBERS].data;
    lent->state.walk_nodes = (uint32_t *)(void *)lent->slices[WALK_NODES].data;
    lent->state.walk_indices = (int32_t *)(void *)lent->slices[WALK_INDICES].data;
    lent->state.sizes = n;
}

loan lend_sizes(jumperloft1_sizes_of n, size_t requests, size_t room, side where)
{
    loan lent;
    for (int i = 0; i < SLICES; i++) {
        lent.slices[i] = guard(slice_bytes(i, n, requests, room));
    }
    lend_anew(&lent, n, requests, room, where);
    return lent;
}

loan lend(size_t nodes, size_t requests, size_t room, side where)
{
    return lend_sizes(jumperloft1_sizes(nodes), requests, room, where);
}

void give_back(loan *lent)
{
    const size_t page = (size_t)sysconf(_SC_PAGESIZE);
    for (int i = 0; i < SLICES; i++) {
        const slice *s = &lent->slices[i];
        if (s->pages != NULL) {
            must(munmap(s->pages - page, s->pages_size + 2 * page) == 0, "munmap");
        }
    }
}

/* The pages that a slice has bytes in. */
static void protect(const slice *s, int how)
{
    if (s->size != 0) {
        const size_t page = (size_t)sysconf(_SC_PAGESIZE);
        const size_t start = (size_t)(s->data - s->pages);
        const size_t first = start / page, end = (start + s->size + page - 1) / page;
        must(mprotect(s->pages + page * first, page * (end - first), how) == 0, "mprotect");
    }
}

void read_only(const loan *lent)
{
    for (int i = 0; i < SLICES; i++) {
        protect(&lent->slices[i], PROT_READ);
    }
}

void writable(const loan *lent)
{
    for (int i = 0; i < SLICES; i++) {
        protect(&lent->slices[i], PROT_READ | PROT_WRITE);
    }
}

void slice_read_only(const loan *lent, int which)
{
    protect(&lent->slices[which], PROT_READ);
}

void save(const loan *lent, uint8_t *copy)
{
    for (int i = 0; i < SLICES; i++) {
        const slice *s = &lent->slices[i];
        if (s->size != 0) {
            memcpy(copy, s->data, s->size);
            copy += s->size;
        }
    }
}

void load(const loan *lent, const uint8_t *copy)
{
    for (int i = 0; i < SLICES; i++) {
        const slice *s = &lent->slices[i];
        if (s->size != 0) {
            memcpy(s->data, copy, s->size);
            copy += s->size;
        }
    }
}

static int same_slices(const loan *lent, const uint8_t *copy, int slices)
{
    for (int i = 0; i < slices; i++) {
        const slice *s = &lent->slices[i];
        if (s->size != 0) {
            if (memcmp(s->data, copy, s->size) != 0) {
                return 0;
            }
            copy += s->size;
        }
    }
    return 1;
}

int same(const loan *lent, const uint8_t *copy)
{
    return same_slices(lent, copy, SLICES);
}

int same_state(const loan *lent, const uint8_t *copy)
{
    return same_slices(lent, copy, LENT);
}

jumperloft1_report form_of(const loan *lent)
{
    return jumperloft1_form_state(&lent->state);
}

jumperloft1_report batch_of(const loan *lent, size_t requests, size_t room)
{
    return jumperloft1_run(&lent->state, lent->slices[REQUESTS].data, requests, lent->slices[ROOM].data, room);
}
