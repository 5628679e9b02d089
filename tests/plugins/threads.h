// Two plug-ins at work at the same time, each on a state of its own.
#ifndef THREADS_H
#define THREADS_H

#include "lent.h"

// Runs in a process of its own; 0 if each answered what the host alone answers.
int run_threads(const char *const files[2], uint32_t seed, findings *f);

#endif
