#include "random.h"

static uint64_t state;

void seed_random(uint64_t seed)
{
    state = seed;
}

/* Takes a step of splitmix64. */
uint64_t random_word(void)
{
    uint64_t word = state += UINT64_C(0x9e3779b97f4a7c15);
    word = (word ^ word >> 30) * UINT64_C(0xbf58476d1ce4e5b9);
    word = (word ^ word >> 27) * UINT64_C(0x94d049bb133111eb);
    return word ^ word >> 31;
}

uint32_t random_below(uint32_t below)
{
    return (uint32_t)((random_word() >> 32) * below >> 32);
}

bool once_in(uint32_t times)
{
    return random_below(times) == 0;
}
