/* A lent state whose every slice stands between pages that fault. */
#ifndef GUARDED_H
#define GUARDED_H

#include <jumperloft.h>

enum { KINDS, USED, COUNTS, CELLS, ORDER, VERSIONS, WALK_NUMBERS, WALK_NODES, WALK_INDICES, LENT, REQUESTS = LENT, ROOM, SLICES };

/* Where a slice touches a page that faults: right after its end, or right before its start. */
typedef enum side { AT_END, AT_START } side;

typedef struct slice {
    uint8_t *data;
    size_t size;
    uint8_t *pages; /* those that don't fault */
    size_t pages_size;
} slice;

typedef struct loan {
    slice slices[SLICES];
    jumperloft1_state state;
    size_t bytes; /* of all slices */
} loan;

/* Lends slices of these sizes, a null pointer where a size is 0, and room for so many bytes of requests and answers. */
loan lend_sizes(jumperloft1_sizes_of sizes, size_t requests, size_t room, side where);
loan lend(size_t nodes, size_t requests, size_t room, side where);
/* Lends other sizes in the same pages; none is above what the loan was made with. */
void lend_anew(loan *lent, jumperloft1_sizes_of sizes, size_t requests, size_t room, side where);
void give_back(loan *lent);

/* The member of sizes that a slice has, by its place in the order of the arguments. */
size_t *count_of(jumperloft1_sizes_of *sizes, int which);
/* How many bytes it has. */
size_t slice_bytes(int which, jumperloft1_sizes_of sizes, size_t requests, size_t room);

void read_only(const loan *lent);
void writable(const loan *lent);
void slice_read_only(const loan *lent, int which);

/* All bytes of all slices, one after another: out, back, and compared. */
void save(const loan *lent, uint8_t *copy);
void load(const loan *lent, const uint8_t *copy);
int same(const loan *lent, const uint8_t *copy);
/* The same for the state alone, which stands before the requests and the room. */
int same_state(const loan *lent, const uint8_t *copy);

/* The calls over all that is lent, with the first bytes of the requests and of the room. */
jumperloft1_report form_of(const loan *lent);
jumperloft1_report batch_of(const loan *lent, size_t requests, size_t room);

#endif
