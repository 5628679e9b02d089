/* What has to hold, and the call that is told of where it doesn't. */
#ifndef HOLD_H
#define HOLD_H

#include "twins.h"

/* Aborts where it doesn't hold, with what is wrong and the call at hand, so that libFuzzer keeps the input. */
void hold(int ok, const char *what);
int reports(jumperloft1_report report, uint32_t number, size_t frames);
size_t frames_of(const call *c);

/* The call at hand, or null for none. */
void about(const call *c);
/* Prints a call and its answers, if calls are to be printed. */
void print_answered(const call *c, jumperloft1_report report, const uint8_t *room);

#endif
