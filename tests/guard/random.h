/* Gives random numbers that a seed repeats. */
#ifndef RANDOM_H
#define RANDOM_H

#include <stdbool.h>
#include <stdint.h>

void seed_random(uint64_t seed);
uint64_t random_word(void);

/* Gives 0 to below - 1; below is at least 1. */
uint32_t random_below(uint32_t below);

/* Says yes once in so many times. */
bool once_in(uint32_t times);

#endif
