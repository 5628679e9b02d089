/* What the programs of this folder share: checks that are counted, and numbers by chance from a seed. */
#ifndef CHECKS_H
#define CHECKS_H

#include "guarded.h"

/* Says what is wrong and counts it; what is right is only counted. */
void want(int ok, const char *what);
/* What a fault's message names: the topic, and how far it got. */
void at_work_on(const char *topic, unsigned long step);
/* One line for a topic that is done. */
void say(const char *topic);
/* Prints the sum, and gives back what main returns. */
int finish(const char *program);
void catch_faults(void);
int reports(jumperloft1_report report, uint32_t expected, size_t frames);

void seed_with(uint64_t seed);
uint32_t chance(uint32_t below);
void fill(uint8_t *data, size_t size);

/* Writes frames by chance, most of them sensible. */
void put_frames(uint8_t *requests, size_t frames);

/* The example of document 01, as one batch. */
enum { SESSION_FRAMES = 8 };
extern const uint8_t session[12 * SESSION_FRAMES];

/* The topics that have a file of their own. */
void refusals(side where);
void random_requests(unsigned long batches);
void damaged_states(unsigned long states);
void forged_parties(unsigned long batches);

#endif
