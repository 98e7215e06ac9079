/*
 * The xor of several blocks, in two ways: in passes of up to eight sources, where the sum is stored once for every eight; and
 * in one pass over all of them, where each byte of it is stored once. And whether it is zero, where the last pass stores
 * nothing.
 */
#ifndef BENCH_SUM_H
#define BENCH_SUM_H

#include "array.h"

enum { PASS = 8 };

enum { STORE = false, TEST = true }; /* what becomes of a pass's sum: it is stored, or not stored, and tested for zeroes */

/*
 * One pass; begun with nothing or with what the passes before left. Tells if a sum that is tested is zero. `count` is a
 * constant where this is called. The sources are named, not kept in an array: that one would be written by halves and read
 * whole, which waits for the stores.
 */
__attribute__((always_inline)) static inline bool pass(uint8_t *restrict into, const uint8_t *const *sources,
                                                       unsigned count, bool go_on, bool test, size_t len)
{
    const uint8_t *a = sources[0], *b = count > 1 ? sources[1] : a, *c = count > 2 ? sources[2] : a;
    const uint8_t *d = count > 3 ? sources[3] : a, *e = count > 4 ? sources[4] : a, *f = count > 5 ? sources[5] : a;
    const uint8_t *g = count > 6 ? sources[6] : a, *h = count > 7 ? sources[7] : a;
    uint8_t any = 0;
    for (size_t i = 0; i < len; i++) {
        uint8_t x = go_on ? into[i] ^ a[i] : a[i];
        x ^= (count > 1 ? b[i] : 0) ^ (count > 2 ? c[i] : 0) ^ (count > 3 ? d[i] : 0) ^ (count > 4 ? e[i] : 0);
        x ^= (count > 5 ? f[i] : 0) ^ (count > 6 ? g[i] : 0) ^ (count > 7 ? h[i] : 0);
        if (test)
            any |= x;
        else
            into[i] = x;
    }
    return any == 0;
}

__attribute__((always_inline)) static inline bool some(uint8_t *restrict into, const uint8_t *const *sources,
                                                       unsigned count, bool go_on, bool test, size_t len)
{
    switch (count) {
    case 1: return pass(into, sources, 1, go_on, test, len);
    case 2: return pass(into, sources, 2, go_on, test, len);
    case 3: return pass(into, sources, 3, go_on, test, len);
    case 4: return pass(into, sources, 4, go_on, test, len);
    case 5: return pass(into, sources, 5, go_on, test, len);
    case 6: return pass(into, sources, 6, go_on, test, len);
    case 7: return pass(into, sources, 7, go_on, test, len);
    default: return pass(into, sources, PASS, go_on, test, len);
    }
}

/* Sets into to the xor of the sources, of which none overlaps it. */
static inline void sum(uint8_t *restrict into, const uint8_t *const *sources, unsigned count, size_t len)
{
    some(into, sources, count < PASS ? count : PASS, false, STORE, len);
    for (unsigned i = PASS; i < count; i += PASS)
        some(into, sources + i, count - i < PASS ? count - i : PASS, true, STORE, len);
}

typedef uint8_t lane __attribute__((vector_size(16)));

enum { LANE = sizeof(lane), LANES = 4 * LANE };

static inline lane load(const uint8_t *from)
{
    lane x;
    memcpy(&x, from, LANE);
    return x;
}

static inline void store(uint8_t *into, lane x) { memcpy(into, &x, LANE); }

/*
 * Four lanes of the sum, in registers until all sources are in. Four are a line of the cache: with eight, 32 disks take 0.8
 * of the time in cache, but 1.6 times as long out of it.
 */
static inline void sum_lanes(uint8_t *restrict into, const uint8_t *const *sources, unsigned count, size_t at)
{
    lane a = {0}, b = a, c = a, d = a;
    for (unsigned i = 0; i < count; i++) {
        const uint8_t *from = sources[i] + at;
        a ^= load(from);
        b ^= load(from + LANE);
        c ^= load(from + 2 * LANE);
        d ^= load(from + 3 * LANE);
    }
    store(into + at, a);
    store(into + at + LANE, b);
    store(into + at + 2 * LANE, c);
    store(into + at + 3 * LANE, d);
}

static inline void sum_lane(uint8_t *restrict into, const uint8_t *const *sources, unsigned count, size_t at)
{
    lane x = {0};
    for (unsigned i = 0; i < count; i++)
        x ^= load(sources[i] + at);
    store(into + at, x);
}

static inline void sum_byte(uint8_t *restrict into, const uint8_t *const *sources, unsigned count, size_t at)
{
    uint8_t x = 0;
    for (unsigned i = 0; i < count; i++)
        x ^= sources[i][at];
    into[at] = x;
}

/* As sum, with each byte stored once. */
static inline void sum_at_once(uint8_t *restrict into, const uint8_t *const *sources, unsigned count, size_t len)
{
    size_t at = 0;
    if (count <= PASS) {
        some(into, sources, count, false, STORE, len);
        return;
    }
    for (; at + LANES <= len; at += LANES)
        sum_lanes(into, sources, count, at);
    for (; at + LANE <= len; at += LANE)
        sum_lane(into, sources, count, at);
    for (; at < len; at++)
        sum_byte(into, sources, count, at);
}

/* Sets into to the xor of the places of a stripe on all disks but one. */
static inline void sum_others(const struct array *a, const uint8_t *images, uint32_t stripe, uint32_t but,
                              uint8_t *into)
{
    const uint8_t *sources[MAX_DISKS];
    unsigned count = 0;
    for (uint32_t d = 0; d < a->disks; d++)
        if (d != but)
            sources[count++] = images + offset_of(a, stripe, d);
    sum(into, sources, count, a->block_len);
}

static inline bool lane_is_zero(lane x)
{
    uint64_t halves[2];
    memcpy(halves, &x, LANE);
    return (halves[0] | halves[1]) == 0;
}

/* Is the sum of the sources zero? In passes, of which the last stores nothing. */
static inline bool cancel(const uint8_t *const *sources, unsigned count, size_t len)
{
    uint8_t block[MAX_BLOCK];
    unsigned i = PASS;
    if (count <= PASS)
        return some(block, sources, count, false, TEST, len);
    pass(block, sources, PASS, false, STORE, len);
    for (; i + PASS < count; i += PASS)
        pass(block, sources + i, PASS, true, STORE, len);
    return some(block, sources + i, count - i, true, TEST, len);
}

/* The same of sources of a few whole lanes, each so far after the one before: to list them would take as long as the sum. */
static inline bool cancel_lanes(const uint8_t *first, size_t step, unsigned count, size_t len)
{
    lane any = {0};
    for (size_t at = 0; at < len; at += LANES) {
        const uint8_t *from = first + at;
        lane a = {0}, b = a, c = a, d = a;
        for (unsigned i = 0; i < count; i++, from += step) {
            a ^= load(from);
            b ^= load(from + LANE);
            c ^= load(from + 2 * LANE);
            d ^= load(from + 3 * LANE);
        }
        any |= a | b | c | d;
    }
    return lane_is_zero(any);
}

/* Do the places of a stripe on some disks, from the first on, xor to zero? */
static inline bool cancel_places(const struct array *a, const uint8_t *images, uint32_t stripe, uint32_t first,
                                 uint32_t count)
{
    const uint8_t *sources[MAX_DISKS];
    if (a->block_len <= 4 * LANES && a->block_len % LANES == 0)
        return cancel_lanes(images + offset_of(a, stripe, first), disk_len(a), count, a->block_len);
    for (uint32_t i = 0; i < count; i++)
        sources[i] = images + offset_of(a, stripe, first + i);
    return cancel(sources, count, a->block_len);
}

/* Are blocks zero, each so far after the one before? They are read side by side. */
static inline bool are_zero(const uint8_t *first, size_t step, unsigned count, size_t len)
{
    lane a = {0}, b = a, c = a, d = a;
    uint8_t rest = 0;
    size_t at = 0;
    for (; at + LANES <= len; at += LANES)
        for (unsigned i = 0; i < count; i++) {
            const uint8_t *from = first + i * step + at;
            a |= load(from);
            b |= load(from + LANE);
            c |= load(from + 2 * LANE);
            d |= load(from + 3 * LANE);
        }
    for (; at < len; at++)
        for (unsigned i = 0; i < count; i++)
            rest |= first[i * step + at];
    return lane_is_zero(a | b | c | d) & (rest == 0);
}

/*
 * Are the places of a stripe on some disks zero? Four disks at a time: one at a time is slower out of cache, and so are, in
 * cache, more than eight, as blocks of 4096 bytes all share the same few places of the first cache.
 */
static inline bool places_are_zero(const struct array *a, const uint8_t *images, uint32_t stripe, uint32_t first,
                                   uint32_t count)
{
    for (uint32_t i = 0; i < count; i += 4)
        if (!are_zero(images + offset_of(a, stripe, first + i), disk_len(a), min(count - i, 4), a->block_len))
            return false;
    return true;
}

#endif
