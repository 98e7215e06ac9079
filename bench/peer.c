/* The hand-written calls. Plain loops, which the compiler makes vectors of; memcpy and memset for copies and zeroes. */
#include "peer.h"

#include "array.h"
#include "sum.h"

uint8_t peer_format(uint8_t *record, size_t record_len, uint8_t *images, size_t images_len, uint64_t n,
                    uint64_t block_len, uint64_t stripes)
{
    if (record_len != PBM_RECORD_LEN)
        return PBM_RECORD;
    if (!old_is_good(n) || !block_is_good(block_len) || !stripes_are_good(stripes))
        return PBM_GEOMETRY;
    if (images_len != n * stripes * block_len)
        return PBM_IMAGES;
    memset(images, 0, images_len);
    memset(record, 0, PBM_RECORD_LEN);
    record[PBM_AT_N] = (uint8_t)n;
    memcpy(record + PBM_AT_BLOCK_LEN, &(uint16_t){(uint16_t)block_len}, 2);
    memcpy(record + PBM_AT_STRIPES, &(uint32_t){(uint32_t)stripes}, 4);
    return PBM_DONE;
}

uint8_t peer_read(const uint8_t *record, size_t record_len, const uint8_t *images, size_t images_len, uint64_t block,
                  uint8_t *into, size_t into_len)
{
    struct array a;
    struct place q;
    uint8_t refused = array_reach(&a, record, record_len, images_len, block, into_len, &q);
    if (refused)
        return refused;
    if (is_absent(&a, q.stripe.number, q.disk))
        sum_others(&a, images, q.stripe.number, q.disk, into);
    else
        memcpy(into, images + offset_of(&a, q.stripe.number, q.disk), a.block_len);
    return PBM_DONE;
}

uint8_t peer_view(const uint8_t *record, size_t record_len, const uint8_t *images, size_t images_len, uint64_t block,
                  uint8_t *scratch, size_t scratch_len, const uint8_t **view)
{
    struct array a;
    struct place q;
    *view = NULL;
    uint8_t refused = array_reach(&a, record, record_len, images_len, block, scratch_len, &q);
    if (refused)
        return refused;
    if (is_absent(&a, q.stripe.number, q.disk)) {
        sum_others(&a, images, q.stripe.number, q.disk, scratch);
        *view = scratch;
    } else {
        *view = images + offset_of(&a, q.stripe.number, q.disk);
    }
    return PBM_DONE;
}

typedef void summing(uint8_t *restrict into, const uint8_t *const *sources, unsigned count, size_t len);
typedef void replacing(uint8_t *restrict old, uint8_t *restrict parity, const uint8_t *restrict data, size_t len);

/* The parity with the data's disk out needs neither its old value nor the old block: it is the data and all the rest. */
static void write_around(const struct array *a, uint8_t *images, struct place q, const uint8_t *data, summing *sum_up)
{
    const uint8_t *sources[MAX_DISKS];
    unsigned count = 0;
    sources[count++] = data;
    for (uint32_t d = 0; d < a->disks; d++)
        if (d != q.disk && d != q.parity)
            sources[count++] = images + offset_of(a, q.stripe.number, d);
    sum_up(images + offset_of(a, q.stripe.number, q.parity), sources, count, a->block_len);
}

/* The parity, then the block. */
static void replace(uint8_t *restrict old, uint8_t *restrict parity, const uint8_t *restrict data, size_t len)
{
    for (size_t i = 0; i < len; i++)
        parity[i] ^= old[i] ^ data[i];
    memcpy(old, data, len);
}

/* Both at once. */
static void replace_at_will(uint8_t *restrict old, uint8_t *restrict parity, const uint8_t *restrict data, size_t len)
{
    for (size_t i = 0; i < len; i++) {
        parity[i] ^= old[i] ^ data[i];
        old[i] = data[i];
    }
}

/* The first two are constants where this is called. */
__attribute__((always_inline)) static inline uint8_t write_with(summing *sum_up, replacing *put, const uint8_t *record,
                                                                size_t record_len, uint8_t *images, size_t images_len,
                                                                uint64_t block, const uint8_t *data, size_t data_len)
{
    struct array a;
    struct place q;
    uint8_t refused = array_reach(&a, record, record_len, images_len, block, data_len, &q);
    if (refused)
        return refused;
    if (is_absent(&a, q.stripe.number, q.disk)) {
        write_around(&a, images, q, data, sum_up);
        return PBM_DONE;
    }
    uint8_t *old = images + offset_of(&a, q.stripe.number, q.disk);
    if (is_absent(&a, q.stripe.number, q.parity))
        memcpy(old, data, a.block_len);
    else
        put(old, images + offset_of(&a, q.stripe.number, q.parity), data, a.block_len);
    return PBM_DONE;
}

uint8_t peer_write(const uint8_t *record, size_t record_len, uint8_t *images, size_t images_len, uint64_t block,
                   const uint8_t *data, size_t data_len)
{
    return write_with(sum_at_once, replace, record, record_len, images, images_len, block, data, data_len);
}

uint8_t peer_write_at_will(const uint8_t *record, size_t record_len, uint8_t *images, size_t images_len, uint64_t block,
                           const uint8_t *data, size_t data_len)
{
    return write_with(sum, replace_at_will, record, record_len, images, images_len, block, data, data_len);
}

uint8_t peer_grow(uint8_t *record, size_t record_len, uint8_t *images, size_t images_len, uint64_t m)
{
    struct array a;
    uint8_t refused = array_open_kept(&a, record, record_len);
    if (refused)
        return refused;
    if (is_degraded(&a))
        return PBM_DEGRADED;
    if (a.m != 0)
        return PBM_GROWN;
    if (!new_is_good(m))
        return PBM_GEOMETRY;
    if (images_len != (a.n + m) * disk_len(&a))
        return PBM_IMAGES;
    memset(images + a.n * disk_len(&a), 0, m * disk_len(&a));
    record[PBM_AT_M] = (uint8_t)m;
    return PBM_DONE;
}

/* The next moves in order: zone, then new disk, then lag. Divides once for the first; the rest are counted on. */
static void make_moves(const struct array *a, uint8_t *images, uint32_t count)
{
    uint32_t lag = a->moves % a->n;
    uint32_t to = a->n + a->moves / a->n % a->m;
    uint32_t first = a->moves / a->n / a->m * a->disks; /* stripe of the zone */
    uint32_t parity = (first + to - lag) % a->n;        /* of the move's stripe, before growth */
    while (count-- > 0) {
        uint32_t from = parity >= lag ? parity - lag : parity + a->n - lag;
        uint8_t *left = images + offset_of(a, first + to - lag, from);
        memcpy(images + offset_of(a, first + to - lag, to), left, a->block_len);
        memset(left, 0, a->block_len);
        lag++;
        parity = parity == 0 ? a->n - 1 : parity - 1;
        if (lag < a->n)
            continue;
        lag = 0;
        parity = parity + 1 == a->n ? 0 : parity + 1; /* n lags are a full turn; the next new disk is one stripe on */
        if (++to < a->disks)
            continue;
        to = a->n;
        first += a->disks;
        parity = (first + to) % a->n;
    }
}

uint8_t peer_advance(uint8_t *record, size_t record_len, uint8_t *images, size_t images_len, uint64_t k,
                     uint64_t *made)
{
    struct array a;
    *made = 0;
    uint8_t refused = array_open_kept(&a, record, record_len);
    if (refused)
        return refused;
    if (is_degraded(&a))
        return PBM_DEGRADED;
    if (a.grown)
        return PBM_NOTHING_TO_MOVE;
    if (images_len != images_size(&a))
        return PBM_IMAGES;
    uint32_t left = a.total - a.moves;
    uint32_t count = k < left ? (uint32_t)k : left;
    make_moves(&a, images, count);
    memcpy(record + PBM_AT_MOVES, &(uint32_t){a.moves + count}, 4);
    *made = count;
    return PBM_DONE;
}

uint8_t peer_out(uint8_t *record, size_t record_len, uint64_t disk)
{
    struct array a;
    uint8_t refused = array_open_kept(&a, record, record_len);
    if (refused)
        return refused;
    bool other = is_degraded(&a) && a.out != disk;
    if (disk >= a.disks || (a.health == PBM_HEALTH_OUT && !other))
        return PBM_DISK;
    set_health(record, other ? PBM_HEALTH_LOST : PBM_HEALTH_OUT, other ? 0 : (uint32_t)disk, 0);
    return PBM_DONE;
}

uint8_t peer_begin(uint8_t *record, size_t record_len, const uint8_t *images, size_t images_len, uint64_t disk)
{
    (void)images;
    struct array a;
    uint8_t refused = array_open_images(&a, record, record_len, images_len);
    if (refused)
        return refused;
    if (a.health != PBM_HEALTH_OUT || a.out != disk)
        return PBM_DISK;
    set_health(record, PBM_HEALTH_REBUILDING, a.out, 0);
    return PBM_DONE;
}

uint8_t peer_continue(uint8_t *record, size_t record_len, uint8_t *images, size_t images_len, uint64_t k, uint64_t *made)
{
    return continue_with(sum_others, record, record_len, images, images_len, k, made);
}

uint8_t peer_status(const uint8_t *record, size_t record_len, uint64_t *capacity_now, uint64_t *moves, uint64_t *total,
                    uint64_t *health, uint64_t *out_disk, uint64_t *rebuilt)
{
    struct array a;
    *capacity_now = *moves = *total = *health = *out_disk = *rebuilt = 0;
    uint8_t refused = array_open(&a, record, record_len);
    if (refused)
        return refused;
    *capacity_now = capacity(&a);
    *moves = a.moves;
    *total = a.total;
    *health = a.health;
    *out_disk = a.out;
    *rebuilt = a.rebuilt;
    return PBM_DONE;
}

uint8_t peer_locate(const uint8_t *record, size_t record_len, uint64_t block, uint64_t *stripe, uint64_t *disk,
                    uint64_t *parity_disk, uint64_t *moved)
{
    struct array a;
    struct place q;
    *stripe = *disk = *parity_disk = *moved = 0;
    uint8_t refused = array_open(&a, record, record_len);
    if (refused)
        return refused;
    refused = locate(&a, block, &q);
    if (refused)
        return refused;
    *stripe = q.stripe.number;
    *disk = q.disk;
    *parity_disk = q.parity;
    *moved = q.moved;
    return PBM_DONE;
}

uint8_t peer_owner(const uint8_t *record, size_t record_len, uint64_t stripe, uint64_t disk, uint64_t *role,
                   uint64_t *block)
{
    struct array a;
    *role = *block = 0;
    uint8_t refused = array_open(&a, record, record_len);
    if (refused)
        return refused;
    if (stripe >= a.stripes)
        return PBM_PAST_THE_END;
    if (disk >= a.disks)
        return PBM_DISK;
    struct stripe x = stripe_at(&a, (uint32_t)stripe);
    uint32_t e = (uint32_t)disk, lag = lag_on(&a, x, e), home = behind(&a, x, lag);
    bool taken = is_taken(&a, x, e, lag);
    bool old = taken & (lag != 0), new = !taken & is_open(&a, x);
    uint32_t old_block = x.number * (a.n - 1) + a.n - 1 - home - (home < x.parity);
    uint32_t new_block = old_blocks(&a) + x.number * a.m + blanks_below(&a, x, e);
    *role = only_if(old | new, PBM_DATA) + only_if(taken & !old, PBM_PARITY);
    *block = only_if(old, old_block) + only_if(new, new_block);
    return PBM_DONE;
}

uint8_t peer_sweep(const uint8_t *record, size_t record_len, const uint8_t *images, size_t images_len, uint64_t *found,
                   uint64_t *stripe, uint64_t *read)
{
    struct tests by = {cancel_places, places_are_zero};
    return sweep_with(by, record, record_len, images, images_len, found, stripe, read);
}

static bool are_points(size_t from_len, size_t into_len) { return from_len % 2 == 0 && from_len == into_len; }

static uint16_t get_point(const uint8_t *points, size_t i)
{
    uint16_t point;
    memcpy(&point, points + 2 * i, 2);
    return point;
}

static void set_point(uint8_t *points, size_t i, uint16_t point) { memcpy(points + 2 * i, &point, 2); }

/* Reads both points of each difference: with the one before kept in a variable the compiler makes no vectors of the loop. */
static void pack(const uint8_t *restrict points, uint8_t *restrict low, uint8_t *restrict high, size_t count)
{
    if (count == 0)
        return;
    low[0] = points[0];
    high[0] = points[1];
    for (size_t i = 1; i < count; i++) {
        uint16_t difference = (uint16_t)(get_point(points, i) - get_point(points, i - 1));
        low[i] = (uint8_t)difference;
        high[i] = (uint8_t)(difference >> 8);
    }
}

/* Turns differences into points, in place, after this point; returns the last. */
static inline uint16_t add_up(uint8_t *points, size_t first, size_t end, uint16_t point)
{
    for (size_t i = first; i < end; i++) {
        point = (uint16_t)(point + get_point(points, i));
        set_point(points, i, point);
    }
    return point;
}

/*
 * In two passes: the compiler makes vectors of the first; one loop for both takes 1.4 to 1.7 times as long. Four points a turn, as
 * the time of a shorter turn depends on where the linker puts it.
 */
static void unpack(const uint8_t *restrict low, const uint8_t *restrict high, uint8_t *restrict points, size_t count)
{
    for (size_t i = 0; i < count; i++)
        set_point(points, i, (uint16_t)(low[i] | high[i] << 8));
    uint16_t point = 0;
    size_t i = 0;
    for (; i + 4 <= count; i += 4)
        point = add_up(points, i, i + 4, point);
    add_up(points, i, count, point);
}

uint8_t peer_points_pack(const uint8_t *points, size_t points_len, uint8_t *packed, size_t packed_len)
{
    if (!are_points(points_len, packed_len))
        return PBM_POINTS;
    pack(points, packed, packed + packed_len / 2, points_len / 2);
    return PBM_DONE;
}

uint8_t peer_points_unpack(const uint8_t *packed, size_t packed_len, uint8_t *points, size_t points_len)
{
    if (!are_points(packed_len, points_len))
        return PBM_POINTS;
    unpack(packed, packed + packed_len / 2, points, points_len / 2);
    return PBM_DONE;
}
