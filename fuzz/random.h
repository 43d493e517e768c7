/*
 * Pseudorandom numbers (splitmix64). A case begins from its own seed and number, so that it can be run again alone.
 */
#ifndef RANDOM_H
#define RANDOM_H

#include <stdbool.h>
#include <stdint.h>
#include <string.h>

extern uint64_t random_state;

static inline uint64_t random_bits(void)
{
    uint64_t z = random_state += 0x9e3779b97f4a7c15u;
    z = (z ^ z >> 30) * 0xbf58476d1ce4e5b9u;
    z = (z ^ z >> 27) * 0x94d049bb133111ebu;
    return z ^ z >> 31;
}

static inline void random_begin(uint64_t seed, uint64_t number)
{
    random_state = seed;
    random_state = random_bits() + number;
}

/* From 0 to n - 1; n is not 0. */
static inline uint64_t below(uint64_t n)
{
    return random_bits() % n;
}

/* True once in n times. */
static inline bool once_in(uint64_t n)
{
    return below(n) == 0;
}

static inline uint8_t random_byte(void)
{
    return (uint8_t)random_bits();
}

static inline float float_of(uint32_t bits)
{
    float value;
    memcpy(&value, &bits, sizeof value);
    return value;
}

#endif
