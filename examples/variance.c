/* The variance of 1,000 round-trip times in 64-bit arithmetic: long multiplies, and a division from libgcc. */
#include <stdint.h>

enum { COUNT = 1000 };

/* A time between 20,000 and 85,535 ns, from a linear congruential generator. */
static uint32_t next_time(void)
{
    static uint32_t seed = 2026;
    seed = seed * 1664525 + 1013904223;
    return 20000 + (seed >> 16);
}

/* The result in r0 (low word) and r1 (high word), in units of (1/100 ns) squared. */
uint64_t main(void)
{
    uint64_t sum = 0, squares = 0;
    for (int i = 0; i < COUNT; i++) {
        uint32_t time = next_time();
        sum += time;
        squares += (uint64_t)time * time;
    }
    return 10000 * (COUNT * squares - sum * sum) / ((uint64_t)COUNT * COUNT);
}
