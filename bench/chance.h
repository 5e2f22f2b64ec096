/* Chance for the bench's inputs: the same seed gives the same draws everywhere. Each draw is a
   statement of its own, or the only one in it: C leaves the order of arguments open. */
#ifndef BENCH_CHANCE_H
#define BENCH_CHANCE_H

#include <stdbool.h>
#include <stdint.h>

static uint64_t chance_state;

static inline uint64_t next(void) /* splitmix64 */
{
    uint64_t z = chance_state += 0x9E3779B97F4A7C15;
    z = (z ^ z >> 30) * 0xBF58476D1CE4E5B9;
    z = (z ^ z >> 27) * 0x94D049BB133111EB;
    return z ^ z >> 31;
}

static inline uint32_t below(uint32_t n)
{
    return (uint32_t)((next() >> 32) * n >> 32);
}

static inline uint32_t between(uint32_t least, uint32_t most)
{
    return least + below(most - least + 1);
}

static inline bool in_hundred(uint32_t cases)
{
    return below(100) < cases;
}

#endif
