// A lent state in one block of memory, and the host's own run of the same frames on a second one.
#ifndef LENT_H
#define LENT_H

#include "boundary.h"

enum { NODES = 1024, BOOK_FRAMES = 16384, ANY_PARTY = 255 };

typedef struct {
    jumperloft1_state s;
    uint8_t *block;
    size_t size;
} lending;

// What was seen in one order; said is empty if nothing was wrong.
typedef struct {
    size_t frames;
    uint32_t operations;
    unsigned harm;
    char said[480];
} findings;

// A formed state, and a book without frames.
int lend(lending *l);
int open_book(transcript *book);

// Writes one frame into the book, without running it.
void note(transcript *book, uint8_t party, uint8_t operation, uint8_t slot, uint8_t destination, uint32_t index, uint32_t value);

// Runs the frames noted since `from` on the lent state by the host's own archive.
int serve_noted(lending *l, transcript *book, size_t from);

// The frames since `from`, all of one party, run by the host alone on its copy: the same answers.
int agrees(const lending *copy, const transcript *book, size_t from, uint8_t party, findings *f);

// The lent state and the copy, byte for byte.
int same_bytes(const lending *l, const lending *copy, findings *f);

// Equal, well-formed, and with all released every node is free; on the copy too.
int ends_well(lending *l, const lending *copy, transcript *book, findings *f);

#endif
