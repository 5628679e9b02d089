/* What the fuzzer is told of an input beside the blocks that it runs: answers, damage and shapes that it hasn't seen. */
#ifndef SEEN_H
#define SEEN_H

#include <jumperloft.h>

/* From now on the fuzzer is told nothing. */
void see_nothing(void);
void saw_answer(uint8_t operation, uint8_t number);
/* A kind of damage to a slice, the place within its record, and the number that the next batch reported. */
void saw_damage(unsigned slice, unsigned how, size_t place, uint32_t number);
/* The heights and lengths that are there, how much is free and shared, how many walks are open. */
void saw_state(const jumperloft1_state *state);

#endif
