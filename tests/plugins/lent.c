#include "lent.h"
#include <stdio.h>
#include <stdlib.h>
#include <string.h>

int lend(lending *l)
{
    l->size = jumperloft1_bytes_for(NODES);
    l->block = malloc(l->size);
    if (!jumperloft1_lay_out(l->block, NODES, &l->s))
        return -1;
    memset(l->block, 0xA5, l->size);
    return (int)jumperloft1_form_state(&l->s).number;
}

int open_book(transcript *book)
{
    book->frames = 0;
    book->room = BOOK_FRAMES;
    book->requests = malloc(JUMPERLOFT1_FRAME_SIZE * BOOK_FRAMES);
    book->answers = malloc(JUMPERLOFT1_ANSWER_SIZE * BOOK_FRAMES);
    return book->requests && book->answers ? 0 : -1;
}

void note(transcript *book, uint8_t party, uint8_t operation, uint8_t slot, uint8_t destination, uint32_t index, uint32_t value)
{
    jumperloft1_put_frame(request(book, book->frames++), party, operation, slot, destination, index, value);
}

int serve_noted(lending *l, transcript *book, size_t from)
{
    return run_frames(&l->s, book, from, answer(book, from)) ? -1 : 0;
}

static void hexadecimal(char *to, const uint8_t *bytes, size_t count)
{
    for (size_t k = 0; k < count; k++)
        sprintf(to + 2 * k, "%02X", bytes[k]);
}

// The first answer that differs, in words.
static int differs(const transcript *book, size_t from, size_t at, const uint8_t *expected, findings *f)
{
    char asked[2 * JUMPERLOFT1_FRAME_SIZE + 1], answered[2 * JUMPERLOFT1_ANSWER_SIZE + 1], right[2 * JUMPERLOFT1_ANSWER_SIZE + 1];
    hexadecimal(asked, request(book, at), JUMPERLOFT1_FRAME_SIZE);
    hexadecimal(answered, answer(book, at), JUMPERLOFT1_ANSWER_SIZE);
    hexadecimal(right, expected, JUMPERLOFT1_ANSWER_SIZE);
    snprintf(f->said, sizeof f->said, "frame %zu of a run, %s, is answered %s for %s", at - from, asked, answered, right);
    return -1;
}

int agrees(const lending *copy, const transcript *book, size_t from, uint8_t party, findings *f)
{
    static uint8_t expected[JUMPERLOFT1_ANSWER_SIZE * BOOK_FRAMES];
    const int number = run_frames(&copy->s, book, from, expected);
    if (number != 0) {
        snprintf(f->said, sizeof f->said, "the host alone is refused with %d", number);
        return -1;
    }
    for (size_t at = from; at < book->frames; at++) {
        const uint8_t *asked = request(book, at), *right = expected + JUMPERLOFT1_ANSWER_SIZE * (at - from);
        if (party != ANY_PARTY && asked[0] != party) {
            snprintf(f->said, sizeof f->said, "party %u speaks for party %u", party, asked[0]);
            return -1;
        }
        if (memcmp(answer(book, at), right, JUMPERLOFT1_ANSWER_SIZE))
            return differs(book, from, at, right, f);
        f->frames++;
        if (right[0] == JUMPERLOFT1_DONE)
            f->operations |= 1u << asked[1];
    }
    return 0;
}

int same_bytes(const lending *l, const lending *copy, findings *f)
{
    if (!memcmp(l->block, copy->block, l->size))
        return 0;
    snprintf(f->said, sizeof f->said, "the answers agree and the lent state differs");
    return -1;
}

int ends_well(lending *l, const lending *copy, transcript *book, findings *f)
{
    size_t from = book->frames;
    if (serve_noted(l, book, from)) {
        snprintf(f->said, sizeof f->said, "the lent state is not well-formed at the end");
        return -1;
    }
    if (same_bytes(l, copy, f))
        return -1;
    for (uint8_t party = 0; party < JUMPERLOFT1_PARTIES; party++) {
        for (uint8_t slot = 0; slot < JUMPERLOFT1_SLOTS; slot++)
            note(book, party, JUMPERLOFT1_RELEASE, slot, 0, 0, 0);
        for (uint8_t walk = 0; walk < JUMPERLOFT1_WALKS; walk++)
            note(book, party, JUMPERLOFT1_CLOSE_WALK, walk, 0, 0, 0);
    }
    note(book, 0, JUMPERLOFT1_FREE_NODES, 0, 0, 0, 0);
    if (serve_noted(l, book, from) || agrees(copy, book, from, ANY_PARTY, f) || same_bytes(l, copy, f))
        return -1;
    const jumperloft1_answer last = jumperloft1_get_answer(answer(book, book->frames - 1));
    if (last.number != JUMPERLOFT1_DONE || last.value != NODES) {
        snprintf(f->said, sizeof f->said, "%u nodes are free at the end", last.value);
        return -1;
    }
    return 0;
}
