// One order of loading, running and closing two plug-ins on one lent state.
#ifndef ORDER_H
#define ORDER_H

#include "lent.h"

// How many calls meant for the library came to other code under its names.
typedef unsigned harm_count(void);

// A and B open the plug-ins, a and b run them, 1 and 2 close them, h hands versions over between them.
typedef struct {
    const char *files[2];
    int flags[2];
    const char *schedule;
    uint32_t seed;
    harm_count *program_harm;
} order;

// Runs in a process of its own; 0 if everything agreed.
int run_order(const order *o, findings *f);

#endif
