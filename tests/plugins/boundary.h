// What the host program and the plug-ins share: the header, and the one call that a plug-in exports.
#ifndef BOUNDARY_H
#define BOUNDARY_H

// EDITION names another edition whose calls a file uses, under the same header.
#ifdef EDITION
#define JOINED(edition, call) edition##_##call
#define NAMED(edition, call) JOINED(edition, call)
#define jumperloft1_sizes NAMED(EDITION, sizes)
#define jumperloft1_form NAMED(EDITION, form)
#define jumperloft1_batch NAMED(EDITION, batch)
#endif
#include <jumperloft.h>

// Requests and answers so far, and room for how many frames in all.
typedef struct {
    size_t frames, room;
    uint8_t *requests, *answers;
} transcript;

// What every plug-in exports: 0, or the number of the batch that was refused, or -1.
typedef int plugin_call(const jumperloft1_state *lent, uint8_t party, uint32_t seed, transcript *book);

static inline uint8_t *request(const transcript *book, size_t frame)
{
    return book->requests + JUMPERLOFT1_FRAME_SIZE * frame;
}

static inline uint8_t *answer(const transcript *book, size_t frame)
{
    return book->answers + JUMPERLOFT1_ANSWER_SIZE * frame;
}

// Runs the frames of the book since `from`: 0, or the number of the report, or -1.
static inline int run_frames(const jumperloft1_state *lent, const transcript *book, size_t from, uint8_t *answers)
{
    const size_t count = book->frames - from;
    const jumperloft1_report report = jumperloft1_run(lent, request(book, from), JUMPERLOFT1_FRAME_SIZE * count,
        answers, JUMPERLOFT1_ANSWER_SIZE * count);
    return report.number != JUMPERLOFT1_DONE ? (int)report.number : report.frames != count ? -1 : 0;
}

#endif
