/* Random numbers from a seed: SplitMix64, as in tests/src/random.rs. */
#ifndef BENCH_RANDOM_H
#define BENCH_RANDOM_H

#include <stddef.h>
#include <stdint.h>
#include <string.h>

struct random {
    uint64_t state;
};

static inline uint64_t random_next(struct random *r)
{
    uint64_t x = r->state += 0x9e3779b97f4a7c15u;
    x = (x ^ (x >> 30)) * 0xbf58476d1ce4e5b9u;
    x = (x ^ (x >> 27)) * 0x94d049bb133111ebu;
    return x ^ (x >> 31);
}

/* Below a bound of at most 32 bits. */
static inline uint64_t random_below(struct random *r, uint64_t bound)
{
    return ((random_next(r) >> 32) * bound) >> 32;
}

static inline void random_fill(struct random *r, uint8_t *bytes, size_t len)
{
    for (size_t i = 0; i < len; i += 8) {
        uint64_t x = random_next(r);
        memcpy(bytes + i, &x, len - i < 8 ? len - i : 8);
    }
}

static inline void random_shuffle(struct random *r, uint32_t *list, size_t count)
{
    for (size_t i = count; i > 1; i--) {
        size_t j = random_below(r, i);
        uint32_t x = list[i - 1];
        list[i - 1] = list[j];
        list[j] = x;
    }
}

#endif
