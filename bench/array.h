/*
 * What the hand-written calls share: the record taken apart, its tests, and the layout in closed form.
 * Letters are those of include/pbm.h.
 */
#ifndef BENCH_ARRAY_H
#define BENCH_ARRAY_H

#include <stdbool.h>
#include <stddef.h>
#include <stdint.h>
#include <string.h>

#include "pbm.h"

enum { MAX_DISKS = 32, MAX_BLOCK = 4096 };

struct array {
    uint32_t n, m, disks;
    uint32_t block_len, stripes, moves;
    uint32_t health, out, rebuilt;
    uint32_t moving; /* stripes of whole groups, which alone move: those below this number; the rest are the tail */
    uint32_t total;  /* of the moves */
    bool grown;      /* every move is made; also where there is none: before growth, and with no whole group */
};

struct stripe {
    uint32_t number, zone, within, parity;
};

struct place {
    struct stripe stripe;
    uint32_t disk, parity;
    bool moved;
};

static inline uint32_t min(uint32_t x, uint32_t y) { return x < y ? x : y; }
static inline uint32_t max(uint32_t x, uint32_t y) { return x < y ? y : x; }

/* The number, or 0. What depends on a stripe or block cannot be foretold: the layout below has sums, no branches. */
static inline uint32_t only_if(bool holds, uint32_t x) { return -(uint32_t)holds & x; }

static inline bool health_is_good(const struct array *a)
{
    switch (a->health) {
    case PBM_HEALTH_OUT: return a->out < a->disks && a->rebuilt == 0;
    case PBM_HEALTH_REBUILDING: return a->out < a->disks && a->rebuilt < a->stripes;
    default: return a->health <= PBM_HEALTH_LOST && (a->out | a->rebuilt) == 0;
    }
}

static inline bool old_is_good(uint64_t n) { return n - 3 < 14; }
static inline bool new_is_good(uint64_t m) { return m - 1 < 16; }
static inline bool block_is_good(uint64_t len) { return len - 1 < MAX_BLOCK; }
static inline bool stripes_are_good(uint64_t stripes) { return stripes - 1 < 1048576; }

/* A group is n zones of n + m stripes, and n * m moves are made in each zone. Divides once, for all that is asked later. */
static inline void measure_growth(struct array *a)
{
    uint32_t groups = a->m == 0 ? 0 : a->stripes / (a->n * a->disks);
    a->moving = groups * (a->n * a->disks);
    a->total = groups * (a->n * a->n * a->m);
    a->grown = a->moves == a->total;
}

static inline bool moves_are_good(struct array *a)
{
    if (a->m != 0 && !new_is_good(a->m))
        return false;
    measure_growth(a);
    return a->moves <= a->total;
}

/* The record, or refusal 1. */
static inline uint8_t array_open(struct array *a, const uint8_t *record, size_t record_len)
{
    if (record_len != PBM_RECORD_LEN)
        return PBM_RECORD;
    uint16_t block_len, reserved;
    memcpy(&block_len, record + PBM_AT_BLOCK_LEN, 2);
    memcpy(&reserved, record + PBM_AT_ZERO, 2);
    memcpy(&a->stripes, record + PBM_AT_STRIPES, 4);
    memcpy(&a->moves, record + PBM_AT_MOVES, 4);
    memcpy(&a->rebuilt, record + PBM_AT_REBUILT, 4);
    a->n = record[PBM_AT_N];
    a->m = record[PBM_AT_M];
    a->disks = a->n + a->m;
    a->health = record[PBM_AT_HEALTH];
    a->out = record[PBM_AT_OUT];
    a->block_len = block_len;
    bool good = old_is_good(a->n) && block_is_good(block_len) && reserved == 0 && stripes_are_good(a->stripes) &&
                moves_are_good(a) && health_is_good(a);
    return good ? PBM_DONE : PBM_RECORD;
}

/* The same for a call that the loss of the array refuses. */
static inline uint8_t array_open_kept(struct array *a, const uint8_t *record, size_t record_len)
{
    uint8_t refused = array_open(a, record, record_len);
    if (refused)
        return refused;
    return a->health == PBM_HEALTH_LOST ? PBM_LOST : PBM_DONE;
}

static inline void set_health(uint8_t *record, uint8_t health, uint32_t out, uint32_t rebuilt)
{
    record[PBM_AT_HEALTH] = health;
    record[PBM_AT_OUT] = (uint8_t)out;
    memcpy(record + PBM_AT_REBUILT, &rebuilt, 4);
}

/* Not for an array that is lost. */
static inline bool is_degraded(const struct array *a) { return a->health != PBM_HEALTH_WHOLE; }

static inline size_t disk_len(const struct array *a) { return (size_t)a->stripes * a->block_len; }
static inline size_t images_size(const struct array *a) { return a->disks * disk_len(a); }
static inline uint32_t old_blocks(const struct array *a) { return a->stripes * (a->n - 1); }

/* The stripes whose blanks are blocks: those of finished zones, of n * m moves each; with the last move the tail's too. */
static inline uint32_t open_stripes(const struct array *a)
{
    return a->grown ? a->stripes : a->moves / (a->n * a->m) * a->disks;
}

/* The stripes of zones of which a move is made: after these, and after the open ones, the blanks are the new disks. */
static inline uint32_t begun_stripes(const struct array *a)
{
    uint32_t zone_moves = a->n * a->m;
    return a->grown ? a->stripes : (a->moves + zone_moves - 1) / zone_moves * a->disks;
}

static inline uint32_t capacity(const struct array *a) { return old_blocks(a) + open_stripes(a) * a->m; }

/* Does the disk count as out in this stripe? Of a disk that is out no stripe is rebuilt. */
static inline bool is_absent(const struct array *a, uint32_t stripe, uint32_t disk)
{
    return is_degraded(a) && a->out == disk && a->rebuilt <= stripe;
}

/* Tests of a call that needs all images. */
static inline uint8_t array_open_images(struct array *a, const uint8_t *record, size_t record_len, size_t images_len)
{
    uint8_t refused = array_open_kept(a, record, record_len);
    if (refused)
        return refused;
    return images_len == images_size(a) ? PBM_DONE : PBM_IMAGES;
}

static inline struct stripe stripe_at(const struct array *a, uint32_t number)
{
    return (struct stripe){number, number / a->disks, number % a->disks, number % a->n};
}

/* Is it an open one? Its zone is known, so that the moves need not be divided; with all made, every zone counts as finished. */
static inline bool is_open(const struct array *a, struct stripe x)
{
    return (x.zone + 1) * (a->n * a->m) <= (a->moves | only_if(a->grown, UINT32_MAX));
}

/* The disk that has lag i from the parity, and back: (P - i) mod n is its own inverse. */
static inline uint32_t behind(const struct array *a, struct stripe x, uint32_t i)
{
    return x.parity - i + only_if(x.parity < i, a->n);
}

/* Is the move of this lag, which goes to disk s + lag, one of the growth's, and made? */
static inline bool is_moved(const struct array *a, struct stripe x, uint32_t lag)
{
    uint32_t nth = x.within + lag - a->n; /* of the new disks; to an old one goes no move, and this wraps */
    return (nth < a->m) & ((x.zone * a->m + nth) * a->n + lag < a->moves); /* in the tail no index is below the total */
}

/* The lag of what stands on a disk or can have stood there: an old disk's own, or that of the move to a new one. */
static inline uint32_t lag_on(const struct array *a, struct stripe x, uint32_t disk)
{
    uint32_t to_new = disk - x.within;
    return to_new + only_if(disk < a->n, behind(a, x, disk) - to_new);
}

/* Does anything of before the growth stand on this disk, with this lag? */
static inline bool is_taken(const struct array *a, struct stripe x, uint32_t disk, uint32_t lag)
{
    return (lag < a->n) & (is_moved(a, x, lag) == (disk >= a->n));
}

/* Where what stood on this disk stands, by its lag and if it is moved. */
static inline uint32_t disk_now(struct stripe x, uint32_t disk, uint32_t lag, bool moved)
{
    return disk + only_if(moved, x.within + lag - disk);
}

/* Of the parity, whose lag is 0. */
static inline uint32_t parity_now(const struct array *a, struct stripe x)
{
    return disk_now(x, x.parity, 0, is_moved(a, x, 0));
}

/*
 * The blanks of a stripe whose moves are all made, rising: four runs of disks, some of them empty. The old disks that were
 * left are those of lag n - s up to n + m - s, around the ring of old disks; new disks below s and from s + n on got
 * nothing. A stripe of the tail has the blanks of s = 0, where no move is either: all new disks. All along a run a blank's
 * disk is ahead of its number by the same, its lead.
 */
struct runs {
    uint32_t first, old, early; /* blanks in the first run, in the first two, in the first three */
    uint32_t second, fourth;    /* disks from which on a blank is not in the first run, not in the first three */
    uint32_t lead, step[3];     /* the first run's, and how much each next one's is above it, or below */
};

static inline struct runs blank_runs(const struct array *a, struct stripe x)
{
    uint32_t n = a->n, s = only_if(x.number < a->moving, x.within), next = x.parity + 1;
    uint32_t lo = n - min(s, n), hi = a->disks - max(s, a->m), old = hi - lo;
    uint32_t split = min(max(next, lo), hi); /* lags below are on disks up to the parity's, the others after it */
    return (struct runs){split - lo, old, min(s, a->m), next, max(s, n), next - split, {n - old, split - next, old}};
}

static inline uint32_t lead_in(struct runs r, bool second, bool third, bool fourth)
{
    return r.lead + only_if(second, r.step[0]) + only_if(third, r.step[1]) + only_if(fourth, r.step[2]);
}

static inline uint32_t nth_blank(const struct array *a, struct stripe x, uint32_t k)
{
    struct runs r = blank_runs(a, x);
    return k + lead_in(r, k >= r.first, k >= r.old, k >= r.early);
}

/* Below a disk that is blank itself. */
static inline uint32_t blanks_below(const struct array *a, struct stripe x, uint32_t disk)
{
    struct runs r = blank_runs(a, x);
    return disk - lead_in(r, disk >= r.second, disk >= a->n, disk >= r.fourth);
}

static inline struct place old_place(const struct array *a, uint32_t block)
{
    struct stripe x = stripe_at(a, block / (a->n - 1));
    uint32_t up = a->n - 1 - block % (a->n - 1);
    uint32_t disk = up - (x.parity >= up), lag = behind(a, x, disk);
    bool moved = is_moved(a, x, lag);
    return (struct place){x, disk_now(x, disk, lag, moved), parity_now(a, x), moved};
}

/* Where new block k stands, unless it is past the end: its own stripe tells, and no capacity is worked out. */
static inline uint8_t locate_new(const struct array *a, uint64_t k, struct place *q)
{
    if (k >= a->stripes * a->m)
        return PBM_PAST_THE_END;
    struct stripe x = stripe_at(a, (uint32_t)k / a->m);
    if (!is_open(a, x))
        return PBM_PAST_THE_END;
    *q = (struct place){x, nth_blank(a, x, (uint32_t)k % a->m), parity_now(a, x), false};
    return PBM_DONE;
}

/* Where a block stands, unless it is past the end. */
static inline uint8_t locate(const struct array *a, uint64_t block, struct place *q)
{
    uint32_t old = old_blocks(a);
    if (block >= old)
        return locate_new(a, block - old, q);
    *q = old_place(a, (uint32_t)block);
    return PBM_DONE;
}

static inline size_t offset_of(const struct array *a, uint32_t stripe, uint32_t disk)
{
    return ((size_t)disk * a->stripes + stripe) * a->block_len;
}

/* Tests of a call that reaches one block, and where it stands: read, view and write. */
static inline uint8_t array_reach(struct array *a, const uint8_t *record, size_t record_len, size_t images_len,
                                  uint64_t block, size_t len, struct place *q)
{
    uint8_t refused = array_open_images(a, record, record_len, images_len);
    if (refused)
        return refused;
    refused = locate(a, block, q);
    if (refused)
        return refused;
    return len == a->block_len ? PBM_DONE : PBM_BLOCK_LENGTH;
}

/* As sum_others of sum.h. */
typedef void summing_others(const struct array *a, const uint8_t *images, uint32_t stripe, uint32_t but, uint8_t *into);

/* The call continue, whose sums are made this way: a constant where this is called. */
__attribute__((always_inline)) static inline uint8_t continue_with(summing_others *sum_others, uint8_t *record,
                                                                   size_t record_len, uint8_t *images, size_t images_len,
                                                                   uint64_t k, uint64_t *made)
{
    struct array a;
    *made = 0;
    uint8_t refused = array_open_images(&a, record, record_len, images_len);
    if (refused)
        return refused;
    if (a.health != PBM_HEALTH_REBUILDING)
        return PBM_DISK;
    uint32_t left = a.stripes - a.rebuilt, count = k < left ? (uint32_t)k : left;
    for (uint32_t s = a.rebuilt; s < a.rebuilt + count; s++)
        sum_others(&a, images, s, a.out, images + offset_of(&a, s, a.out));
    if (count == left)
        set_health(record, PBM_HEALTH_WHOLE, 0, 0);
    else
        set_health(record, PBM_HEALTH_REBUILDING, a.out, a.rebuilt + count);
    *made = count;
    return PBM_DONE;
}

/* Do the places of a stripe on some disks, from the first on, xor to zero? Are they zero themselves? */
typedef bool testing(const struct array *a, const uint8_t *images, uint32_t stripe, uint32_t first, uint32_t count);

struct tests {
    testing *cancel, *are_zero;
};

/* Of a stripe of the zone that is begun and not finished: each disk is asked for. */
__attribute__((always_inline)) static inline bool blanks_are_zero(struct tests by, const struct array *a,
                                                                  const uint8_t *images, uint32_t stripe)
{
    struct stripe x = stripe_at(a, stripe);
    for (uint32_t d = 0; d < a->disks; d++)
        if (!is_taken(a, x, d, lag_on(a, x, d)) && !by.are_zero(a, images, stripe, d, 1))
            return false;
    return true;
}

/* The first unsound stripe, or T. New disks that are all blank are looked at once: with zeroes there they need no sum. */
__attribute__((always_inline)) static inline uint32_t first_unsound(struct tests by, const struct array *a,
                                                                    const uint8_t *images)
{
    uint32_t s = 0, open = open_stripes(a), begun = begun_stripes(a);
    for (; s < open; s++)
        if (!by.cancel(a, images, s, 0, a->disks))
            return s;
    for (; s < begun; s++)
        if (!by.cancel(a, images, s, 0, a->disks) || !blanks_are_zero(by, a, images, s))
            return s;
    for (; s < a->stripes; s++)
        if (!by.cancel(a, images, s, 0, a->n) || !by.are_zero(a, images, s, a->n, a->m))
            return s;
    return s;
}

/* The call sweep, whose tests are made this way: constants where this is called. */
__attribute__((always_inline)) static inline uint8_t sweep_with(struct tests by, const uint8_t *record, size_t record_len,
                                                                const uint8_t *images, size_t images_len,
                                                                uint64_t *found, uint64_t *stripe, uint64_t *read)
{
    struct array a;
    *found = *stripe = *read = 0;
    uint8_t refused = array_open_kept(&a, record, record_len);
    if (refused)
        return refused;
    if (is_degraded(&a))
        return PBM_DEGRADED;
    if (images_len != images_size(&a))
        return PBM_IMAGES;
    uint32_t first = first_unsound(by, &a, images);
    *found = first < a.stripes;
    *stripe = only_if(first < a.stripes, first);
    *read = min(first + 1, a.stripes);
    return PBM_DONE;
}

#endif
