/* What has to hold. */
#include "hold.h"

#include <stdio.h>
#include <stdlib.h>

static int printing;
static const call *call_now;

void print_calls(void)
{
    printing = 1;
}

void about(const call *c)
{
    call_now = c;
}

static void print_bytes(const char *before, const uint8_t *bytes, size_t size)
{
    fprintf(stderr, "%s", before);
    for (size_t i = 0; i < size; i++) {
        fprintf(stderr, "%02X", bytes[i]);
    }
}

/* A frame a line, as the program reads and prints them; answers may be null. */
static void print_call(const call *c, const uint8_t *answers)
{
    fprintf(stderr, "a batch of %zu bytes, room for %zu%s\n", c->requests_size, c->room_size, c->one_by_one ? ", one by one" : "");
    for (size_t i = 0; i < c->requests_size; i += JUMPERLOFT1_FRAME_SIZE) {
        const size_t left = c->requests_size - i;
        print_bytes("  ", c->requests + i, left < JUMPERLOFT1_FRAME_SIZE ? left : JUMPERLOFT1_FRAME_SIZE);
        if (answers != NULL) {
            print_bytes(" answered ", answers + i / 2, JUMPERLOFT1_ANSWER_SIZE);
        }
        fprintf(stderr, "\n");
    }
}

void print_answered(const call *c, jumperloft1_report report, const uint8_t *room)
{
    if (printing) {
        print_call(c, report.number == JUMPERLOFT1_DONE ? room : NULL);
        fprintf(stderr, "  reported %u, %zu frames\n", (unsigned)report.number, report.frames);
    }
}

void hold(int ok, const char *what)
{
    if (!ok) {
        fprintf(stderr, "WRONG: %s\n", what);
        if (call_now != NULL && !printing) {
            print_call(call_now, NULL);
        }
        abort();
    }
}

int reports(jumperloft1_report report, uint32_t number, size_t frames)
{
    return report.number == number && report.frames == frames;
}

size_t frames_of(const call *c)
{
    return c->requests_size / JUMPERLOFT1_FRAME_SIZE;
}
