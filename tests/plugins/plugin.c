// A plug-in in C: a seeded sequence of frames of its own party, in several batches on the lent state.
#include "boundary.h"

enum { BATCHES = 3, BATCH_FRAMES = 80, STEP_FRAMES = 6 };

// Frames go into the book; current is the slot whose version grows.
typedef struct {
    uint32_t seed;
    uint8_t party, current;
    transcript *book;
} writer;

static uint32_t draw(writer *w)
{
    w->seed ^= w->seed << 13;
    w->seed ^= w->seed >> 17;
    w->seed ^= w->seed << 5;
    return w->seed;
}

static void say(writer *w, uint8_t operation, uint32_t slot, uint32_t destination, uint32_t index, uint32_t value)
{
    jumperloft1_put_frame(request(w->book, w->book->frames++), w->party, operation, (uint8_t)slot, (uint8_t)destination, index, value);
}

// Another slot than the current one, made empty.
static uint8_t emptied(writer *w)
{
    uint8_t other = (uint8_t)((w->current + 1 + draw(w) % 7) % 8);
    say(w, JUMPERLOFT1_RELEASE, other, 0, 0, 0);
    return other;
}

static void edit(writer *w, uint8_t operation, uint32_t index)
{
    uint8_t other = emptied(w);
    say(w, operation, w->current, other, index, draw(w));
    say(w, JUMPERLOFT1_GET, other, 0, index, 0);
}

static void grow(writer *w)
{
    uint8_t other = emptied(w);
    say(w, JUMPERLOFT1_PUSH_BACK, w->current, other, 0, draw(w));
    say(w, JUMPERLOFT1_RELEASE, w->current, 0, 0, 0);
    w->current = other;
}

static void look(writer *w, uint32_t slot)
{
    say(w, JUMPERLOFT1_LEN, slot, 0, 0, 0);
    say(w, JUMPERLOFT1_FIRST, slot, 0, 0, 0);
    say(w, JUMPERLOFT1_LAST, slot, 0, 0, 0);
    say(w, JUMPERLOFT1_COMPARE, w->current, slot, 0, 0);
}

static void step(writer *w)
{
    uint32_t kind = draw(w) % 20, slot = draw(w) % 8, walk = draw(w) % 2;
    uint32_t index = draw(w) % 256 >> draw(w) % 8;
    switch (kind) {
    case 0: edit(w, JUMPERLOFT1_NEW, 1 + index % 5); break;
    case 1: case 2: edit(w, JUMPERLOFT1_SET, index); break;
    case 3: edit(w, JUMPERLOFT1_DROP_LAST, index); break;
    case 4: edit(w, JUMPERLOFT1_CLONE, index); break;
    case 5: case 6: look(w, slot); break;
    case 7: say(w, JUMPERLOFT1_OPEN_WALK, slot, walk, 0, 0); break;
    case 8: case 9: say(w, JUMPERLOFT1_NEXT, walk, 0, 0, 0); say(w, JUMPERLOFT1_NEXT_BACK, walk, 0, 0, 0); break;
    case 10: say(w, JUMPERLOFT1_CLOSE_WALK, walk, 0, 0, 0); break;
    case 11: say(w, (uint8_t)(index % 20), slot, draw(w) % 10, draw(w) % 40, draw(w)); break;
    default: grow(w);
    }
}

// Slot 0 holds what grows from one run to the next.
static void write_batch(writer *w, int number)
{
    const size_t from = w->book->frames;
    if (number == 0)
        say(w, JUMPERLOFT1_NEW, 0, 0, 1 + w->seed % JUMPERLOFT1_MAX_BITS, 0);
    while (w->book->frames - from + STEP_FRAMES + 2 <= BATCH_FRAMES)
        step(w);
    if (number == BATCHES - 1 && w->current != 0) {
        say(w, JUMPERLOFT1_RELEASE, 0, 0, 0, 0);
        say(w, JUMPERLOFT1_CLONE, w->current, 0, 0, 0);
    }
}

__attribute__((visibility("default")))
int plugin_run(const jumperloft1_state *lent, uint8_t party, uint32_t seed, transcript *book)
{
    writer w = { seed | 1, party, 0, book };
    for (int number = 0; number < BATCHES; number++) {
        const size_t from = book->frames;
        if (book->room - from < BATCH_FRAMES)
            return -1;
        write_batch(&w, number);
        const int refused = run_frames(lent, book, from, answer(book, from));
        if (refused != 0)
            return refused;
    }
    return 0;
}
