/* Checks that are counted, faults that are named, and numbers by chance. */
#define _DEFAULT_SOURCE
#include "checks.h"

#include <signal.h>
#include <stdio.h>
#include <string.h>
#include <unistd.h>

static unsigned long checks, wrong;
static const char *topic_now = "";
static unsigned long step_now;
static uint64_t number;

void at_work_on(const char *topic, unsigned long step)
{
    topic_now = topic;
    step_now = step;
}

void want(int ok, const char *what)
{
    checks++;
    if (!ok) {
        wrong++;
        printf("WRONG: %s, step %lu: %s\n", topic_now, step_now, what);
    }
}

void say(const char *topic)
{
    printf("  %s\n", topic);
    fflush(stdout);
}

int finish(const char *program)
{
    printf("%s: %lu checks, %lu wrong\n", program, checks, wrong);
    return wrong != 0;
}

static void on_fault(int signal_number)
{
    char line[160];
    const int n = snprintf(line, sizeof line, "FAULT (signal %d): %s, step %lu\n", signal_number, topic_now, step_now);
    if (n < 0 || write(STDERR_FILENO, line, (size_t)n) < 0) {
        _exit(3);
    }
    _exit(1);
}

void catch_faults(void)
{
    struct sigaction action;
    memset(&action, 0, sizeof action);
    action.sa_handler = on_fault;
    sigaction(SIGSEGV, &action, NULL);
    sigaction(SIGBUS, &action, NULL);
    sigaction(SIGILL, &action, NULL);
}

int reports(jumperloft1_report report, uint32_t expected, size_t frames)
{
    return report.number == expected && report.frames == frames;
}

void seed_with(uint64_t seed)
{
    number = seed;
}

/* splitmix64 */
static uint64_t next_number(void)
{
    uint64_t z = number += UINT64_C(0x9E3779B97F4A7C15);
    z = (z ^ (z >> 30)) * UINT64_C(0xBF58476D1CE4E5B9);
    z = (z ^ (z >> 27)) * UINT64_C(0x94D049BB133111EB);
    return z ^ (z >> 31);
}

uint32_t chance(uint32_t below)
{
    return (uint32_t)((next_number() >> 32) * below >> 32);
}

void fill(uint8_t *data, size_t size)
{
    for (size_t i = 0; i < size; i++) {
        data[i] = (uint8_t)next_number();
    }
}

/* Arguments are drawn one statement at a time, so that a seed means the same with every compiler. */
static void put_any(uint8_t *frame, uint8_t operation)
{
    const int host_only = operation == JUMPERLOFT1_HAND_OVER || operation == JUMPERLOFT1_FREE_NODES;
    const int on_walk = operation >= JUMPERLOFT1_NEXT && operation <= JUMPERLOFT1_CLOSE_WALK;
    const uint8_t party = (uint8_t)chance(host_only ? 1 : 3);
    const uint8_t slot = (uint8_t)chance(on_walk ? 2 : 4);
    const uint8_t destination = (uint8_t)chance(operation == JUMPERLOFT1_OPEN_WALK ? 2 : 4);
    const uint32_t index = chance(7);
    const uint32_t value = chance(operation == JUMPERLOFT1_HAND_OVER ? 8 : 4);
    jumperloft1_put_frame(frame, party, operation, slot, destination, index, value);
}

void put_frames(uint8_t *requests, size_t frames)
{
    static const uint8_t frequent[] = {JUMPERLOFT1_RELEASE, JUMPERLOFT1_NEW, JUMPERLOFT1_NEW, JUMPERLOFT1_PUSH_BACK,
        JUMPERLOFT1_PUSH_BACK, JUMPERLOFT1_PUSH_BACK, JUMPERLOFT1_PUSH_BACK};
    for (size_t i = 0; i < frames; i++) {
        uint8_t *frame = requests + JUMPERLOFT1_FRAME_SIZE * i;
        const uint32_t how = chance(16);
        put_any(frame, how < sizeof frequent ? frequent[how] : (uint8_t)chance(17));
        if (how == 14) { /* one byte gone astray */
            fill(frame + chance(JUMPERLOFT1_FRAME_SIZE), 1);
        } else if (how == 15) {
            fill(frame, JUMPERLOFT1_FRAME_SIZE);
        }
    }
}
