/*
 * A library with one fault: it stands between a program and libpbm.a (the linker's --wrap) and hands every call on, but for what
 * the environment's variable FAULT says; without it, or if it is NONE, there is no fault. tests/tests/examples.rs links
 * examples/line_controller.c with it, which must notice; and the other examples, for the version.
 */
#include "pbm.h"

#include <stdio.h>
#include <stdlib.h>
#include <string.h>

#define FAULTS(X) \
    X(NONE)         /* every call is handed on as it is */ \
    X(LOST_WRITE)   /* a write to a block that was moved is dropped: the next read gives the preceding log's outline */ \
    X(OLD_RECORD)   /* reads go by the record of one move earlier, if the block was there then */ \
    X(OLD_PARITY)   /* a write leaves the parity as it was, which a sweep finds */ \
    X(OUT_PARITY)   /* the same while a disk is out, when nothing is swept: what that disk held is read wrong */ \
    X(PLACE_LEFT)   /* some moves leave the old bytes in the place left */ \
    X(MADE_UP)      /* advance reports one move more than it made */ \
    X(NOT_MADE)     /* continue counts its last stripe, and has not written it */ \
    X(MADE_MORE)    /* continue reports one stripe more than it made */ \
    X(COUNT_KEPT)   /* the disk that is being rebuilt fails again, and stays one that is being rebuilt */ \
    X(LOST_AGAIN)   /* the same, taken for a second disk */ \
    X(SKIPPED)      /* a write to a stripe that is rebuilt leaves out the disk that is being rebuilt */ \
    X(COUNTED_ON)   /* a write to a stripe that is not rebuilt counts on that disk's bytes */ \
    X(READ_AHEAD)   /* a read of a block in such a stripe too */ \
    X(READ_REFUSED) /* reads are refused that should not be */ \
    X(NOT_REFUSED)  /* an advance is not refused that should be */ \
    X(ZONE_EARLY)   /* a zone is held as finished once its first move is done: status tells its new blocks too early */ \
    X(ZONE_LATE)    /* status tells no new block before the growth is over */ \
    X(NEW_SPOILED)  /* the first move of a zone zeroes the new blocks of the zone before, as if they were blanks still */ \
    X(NEW_MOVED)    /* the new blocks of a stripe are counted from the highest disk, and with the last move from the lowest */ \
    X(OLD_LIGHT)    /* locate tells the disk on which the parity stood before the growth */ \
    X(NOT_TOLD)     /* locate tells of no block that it was moved */ \
    X(BY_PARITY)    /* locate tells that a block was moved if its parity alone was */ \
    X(NEVER_FOUND)  /* sweep holds every stripe as sound */ \
    X(NEXT_STRIPE)  /* sweep tells the stripe after the unsound one, and counts it as read */ \
    X(NO_BLANKS)    /* sweep looks at no blank: it takes each for zero */ \
    X(SUM_ALONE)    /* sweep asks only if a stripe xors to zero, as if the growth were over */ \
    X(NO_CARRY)     /* points unpack sums the low bytes and the high bytes each by themselves */ \
    X(RUN_ON)       /* points unpack takes the first point from the last one of the call before, not from 0 */ \
    X(TURNED)       /* points pack takes each point from the one before it, and points unpack undoes that */ \
    X(HALF_POINT)   /* points pack does not refuse an odd length */ \
    X(VERSION)      /* the archive is of the next version */

#define MEMBER(name) name,
#define STRING(name) #name,

enum { FAULTS(MEMBER) ALL };
static const char *const names[ALL] = { FAULTS(STRING) };

static int fault = NONE;

/* Before main. */
__attribute__((constructor)) static void choose_fault(void)
{
    const char *name = getenv("FAULT");
    if (name == NULL) return;
    while (fault < ALL && strcmp(name, names[fault]) != 0) fault++;
    if (fault < ALL) return;
    fprintf(stderr, "faulty: FAULT is '%s': it must be one of", name);
    for (int i = 0; i < ALL; i++) fprintf(stderr, " %s", names[i]);
    fprintf(stderr, "\n");
    exit(1);
}

uint64_t __real_pbm_version(void);
uint8_t __real_pbm_read(const uint8_t *, size_t, const uint8_t *, size_t, uint64_t, uint8_t *, size_t);
uint8_t __real_pbm_write(const uint8_t *, size_t, uint8_t *, size_t, uint64_t, const uint8_t *, size_t);
uint8_t __real_pbm_advance(uint8_t *, size_t, uint8_t *, size_t, uint64_t, uint64_t *);
uint8_t __real_pbm_out(uint8_t *, size_t, uint64_t);
uint8_t __real_pbm_continue(uint8_t *, size_t, uint8_t *, size_t, uint64_t, uint64_t *);
uint8_t __real_pbm_status(const uint8_t *, size_t, uint64_t *, uint64_t *, uint64_t *, uint64_t *, uint64_t *, uint64_t *);
uint8_t __real_pbm_locate(const uint8_t *, size_t, uint64_t, uint64_t *, uint64_t *, uint64_t *, uint64_t *);
uint8_t __real_pbm_sweep(const uint8_t *, size_t, const uint8_t *, size_t, uint64_t *, uint64_t *, uint64_t *);
uint8_t __real_pbm_points_pack(const uint8_t *, size_t, uint8_t *, size_t);
uint8_t __real_pbm_points_unpack(const uint8_t *, size_t, uint8_t *, size_t);

/* A number of the record, least byte first. */
static uint64_t number(const uint8_t *record, int at, int bytes)
{
    uint64_t value = 0;
    while (bytes-- > 0) value = value << 8 | record[at + bytes];
    return value;
}

static uint64_t moves(const uint8_t *record) { return number(record, PBM_AT_MOVES, 4); }
static uint64_t rebuilt(const uint8_t *record) { return number(record, PBM_AT_REBUILT, 4); }
static int is_rebuilding(const uint8_t *record) { return record[PBM_AT_HEALTH] == PBM_HEALTH_REBUILDING; }
static uint64_t all_stripes(const uint8_t *record) { return number(record, PBM_AT_STRIPES, 4); }
static uint64_t old_blocks(const uint8_t *record) { return all_stripes(record) * (record[PBM_AT_N] - 1); }
static size_t block_len(const uint8_t *record) { return number(record, PBM_AT_BLOCK_LEN, 2); }
static size_t disk_len(const uint8_t *record) { return all_stripes(record) * block_len(record); }

/* The moves of a zone, and its new blocks. */
static uint64_t zone_moves(const uint8_t *record) { return record[PBM_AT_N] * record[PBM_AT_M]; }
static uint64_t zone_blocks(const uint8_t *record) { return (record[PBM_AT_N] + record[PBM_AT_M]) * record[PBM_AT_M]; }

/* Capacity and total, without a fault. */
struct figures { uint64_t capacity, total; };

static struct figures figures(const uint8_t *record)
{
    struct figures f;
    uint64_t done, health, out_disk, stripes;
    __real_pbm_status(record, PBM_RECORD_LEN, &f.capacity, &done, &f.total, &health, &out_disk, &stripes);
    return f;
}

/* Where a block stands, without a fault. */
struct place { uint64_t stripe, disk, parity_disk, moved; };

static uint8_t locate(const uint8_t *record, uint64_t block, struct place *p)
{
    return __real_pbm_locate(record, PBM_RECORD_LEN, block, &p->stripe, &p->disk, &p->parity_disk, &p->moved);
}

/* The block that this number stands for. */
static uint64_t meant(const uint8_t *record, uint64_t block)
{
    uint64_t m = record[PBM_AT_M], k = block - old_blocks(record);
    if (fault != NEW_MOVED || block < old_blocks(record) || moves(record) == figures(record).total) return block;
    return block - k % m + (m - 1 - k % m);
}

static void set_health(uint8_t *record, uint8_t health, uint8_t disk)
{
    record[PBM_AT_HEALTH] = health, record[PBM_AT_OUT] = disk;
    memset(record + PBM_AT_REBUILT, 0, 4);
}

/* The record by which a block of this stripe is read or written: the fault may be that the rebuild's count is not looked at. */
static void meant_record(uint8_t *meant, const uint8_t *record, uint64_t stripe, int skips, int counts_on)
{
    int is_done = stripe < rebuilt(record);
    memcpy(meant, record, PBM_RECORD_LEN);
    if (!is_rebuilding(record)) return;
    if (skips && is_done) set_health(meant, PBM_HEALTH_OUT, record[PBM_AT_OUT]);
    if (counts_on && !is_done) set_health(meant, PBM_HEALTH_WHOLE, 0);
}

static uint8_t *copy_of(const uint8_t *bytes, size_t len)
{
    uint8_t *copy = malloc(len);
    if (copy == NULL) abort();
    memcpy(copy, bytes, len);
    return copy;
}

uint8_t __wrap_pbm_read(const uint8_t *record, size_t record_len, const uint8_t *images, size_t images_len, uint64_t block,
                        uint8_t *into, size_t into_len)
{
    struct place p;
    uint8_t old[PBM_RECORD_LEN];
    locate(record, block, &p);
    meant_record(old, record, p.stripe, 0, fault == READ_AHEAD);
    if (fault == READ_REFUSED && moves(record) >= 300) return PBM_PAST_THE_END;
    if (fault == OLD_RECORD && moves(record) > 0) {
        int i = PBM_AT_MOVES;
        while (old[i]-- == 0) i++;
        if (locate(old, block, &p) != PBM_DONE) memcpy(old, record, sizeof old);
    }
    return __real_pbm_read(old, record_len, images, images_len, meant(record, block), into, into_len);
}

uint8_t __wrap_pbm_write(const uint8_t *record, size_t record_len, uint8_t *images, size_t images_len, uint64_t block,
                         const uint8_t *data, size_t data_len)
{
    struct place p;
    uint8_t answer, *parity, *copy, by[PBM_RECORD_LEN];
    int leaves = fault == OLD_PARITY || (fault == OUT_PARITY && record[PBM_AT_HEALTH] == PBM_HEALTH_OUT);
    block = meant(record, block);
    locate(record, block, &p);
    if (fault == LOST_WRITE && p.moved) return PBM_DONE;
    parity = images + p.parity_disk * disk_len(record) + p.stripe * block_len(record);
    copy = copy_of(parity, block_len(record));
    meant_record(by, record, p.stripe, fault == SKIPPED, fault == COUNTED_ON);
    answer = __real_pbm_write(by, record_len, images, images_len, block, data, data_len);
    if (leaves) memcpy(parity, copy, block_len(record));
    free(copy);
    return answer;
}

/* Zeroes the new blocks of the zone finished last, and keeps parity right. */
static void spoil(const uint8_t *record, uint8_t *images, size_t images_len)
{
    uint64_t end = figures(record).capacity, block = end - zone_blocks(record);
    uint8_t *zeroes = calloc(1, block_len(record));
    if (zeroes == NULL) abort();
    for (; block < end; block++)
        __real_pbm_write(record, PBM_RECORD_LEN, images, images_len, block, zeroes, block_len(record));
    free(zeroes);
}

uint8_t __wrap_pbm_advance(uint8_t *record, size_t record_len, uint8_t *images, size_t images_len, uint64_t k, uint64_t *made)
{
    size_t old_len = record[PBM_AT_N] * disk_len(record);
    int leaves = fault == PLACE_LEFT && moves(record) >= 500 && moves(record) < 520;
    uint8_t answer, *copy = leaves ? copy_of(images, old_len) : NULL;
    answer = __real_pbm_advance(record, record_len, images, images_len, k, made);
    if (leaves) memcpy(images, copy, old_len);
    free(copy);
    if (fault == NEW_SPOILED && moves(record) > zone_moves(record) && moves(record) % zone_moves(record) == 1)
        spoil(record, images, images_len);
    if (fault == MADE_UP && answer == PBM_DONE) ++*made;
    return fault == NOT_REFUSED && answer == PBM_DEGRADED ? PBM_DONE : answer;
}

uint64_t __wrap_pbm_version(void) { return __real_pbm_version() + (fault == VERSION); }

uint8_t __wrap_pbm_out(uint8_t *record, size_t record_len, uint64_t disk)
{
    int is_again = is_rebuilding(record) && record[PBM_AT_OUT] == disk;
    if (is_again && fault == COUNT_KEPT) return PBM_DONE;
    if (is_again && fault == LOST_AGAIN) {
        set_health(record, PBM_HEALTH_LOST, 0);
        return PBM_DONE;
    }
    return __real_pbm_out(record, record_len, disk);
}

uint8_t __wrap_pbm_continue(uint8_t *record, size_t record_len, uint8_t *images, size_t images_len, uint64_t k, uint64_t *made)
{
    uint8_t *disk = images + record[PBM_AT_OUT] * disk_len(record), *next = disk + rebuilt(record) * block_len(record);
    uint8_t answer, *copy = copy_of(next, disk + disk_len(record) - next);
    size_t last;
    answer = __real_pbm_continue(record, record_len, images, images_len, k, made);
    last = (*made - 1) * block_len(record);
    if (fault == NOT_MADE && *made > 0) memcpy(next + last, copy + last, block_len(record));
    if (fault == MADE_MORE && answer == PBM_DONE) ++*made;
    free(copy);
    return answer;
}

uint8_t __wrap_pbm_status(const uint8_t *record, size_t record_len, uint64_t *capacity, uint64_t *done, uint64_t *total,
                          uint64_t *health, uint64_t *out_disk, uint64_t *stripes)
{
    uint8_t answer = __real_pbm_status(record, record_len, capacity, done, total, health, out_disk, stripes);
    if (fault == ZONE_EARLY && *done < *total && *done % zone_moves(record) > 0) *capacity += zone_blocks(record);
    if (fault == ZONE_LATE && *done < *total) *capacity = old_blocks(record);
    return answer;
}

uint8_t __wrap_pbm_locate(const uint8_t *record, size_t record_len, uint64_t block, uint64_t *stripe, uint64_t *disk,
                          uint64_t *parity_disk, uint64_t *moved)
{
    uint8_t answer = __real_pbm_locate(record, record_len, block, stripe, disk, parity_disk, moved);
    if (fault == OLD_LIGHT) *parity_disk = *stripe % record[PBM_AT_N];
    if (fault == NOT_TOLD) *moved = 0;
    if (fault == BY_PARITY) *moved |= *parity_disk >= record[PBM_AT_N];
    return answer;
}

static void zero_blanks(const uint8_t *record, uint8_t *images)
{
    uint64_t role, block, places = (record[PBM_AT_N] + record[PBM_AT_M]) * all_stripes(record);
    for (uint64_t i = 0; i < places; i++) {
        if (pbm_owner(record, PBM_RECORD_LEN, i % all_stripes(record), i / all_stripes(record), &role, &block)) abort();
        if (role == PBM_BLANK) memset(images + i * block_len(record), 0, block_len(record));
    }
}

static void end_growth(uint8_t *record)
{
    uint64_t total = figures(record).total;
    for (int i = 0; i < 4; i++) record[PBM_AT_MOVES + i] = (uint8_t)(total >> 8 * i);
}

uint8_t __wrap_pbm_sweep(const uint8_t *record, size_t record_len, const uint8_t *images, size_t images_len, uint64_t *found,
                         uint64_t *stripe, uint64_t *read)
{
    uint8_t answer, by[PBM_RECORD_LEN], *copy = copy_of(images, images_len);
    memcpy(by, record, sizeof by);
    if (fault == NO_BLANKS) zero_blanks(record, copy);
    if (fault == SUM_ALONE) end_growth(by);
    answer = __real_pbm_sweep(by, record_len, copy, images_len, found, stripe, read);
    if (fault == NEVER_FOUND && *found) *found = 0, *stripe = 0, *read = all_stripes(record);
    if (fault == NEXT_STRIPE && *found) ++*stripe, ++*read;
    free(copy);
    return answer;
}

/* A difference of packed points. */
static int difference(const uint8_t *packed, size_t len, size_t i) { return packed[i] | packed[len / 2 + i] << 8; }

static void set_difference(uint8_t *packed, size_t len, size_t i, int to)
{
    packed[i] = (uint8_t)to, packed[len / 2 + i] = (uint8_t)(to >> 8);
}

static void turn(uint8_t *packed, size_t len)
{
    for (size_t i = 0; i < len / 2; i++) set_difference(packed, len, i, 0x10000 - difference(packed, len, i));
}

uint8_t __wrap_pbm_points_pack(const uint8_t *points, size_t points_len, uint8_t *packed, size_t packed_len)
{
    uint8_t answer = __real_pbm_points_pack(points, points_len, packed, packed_len);
    if (fault == TURNED && answer == PBM_DONE) turn(packed, packed_len);
    return fault == HALF_POINT ? PBM_DONE : answer;
}

uint8_t __wrap_pbm_points_unpack(const uint8_t *packed, size_t packed_len, uint8_t *points, size_t points_len)
{
    static int last;
    uint8_t answer, *copy = copy_of(packed, packed_len);
    if (fault == TURNED) turn(copy, packed_len);
    if (fault == RUN_ON) set_difference(copy, packed_len, 0, last + difference(copy, packed_len, 0));
    answer = __real_pbm_points_unpack(copy, packed_len, points, points_len);
    if (points_len >= 2) last = (int)number(points, (int)points_len - 2, 2);
    for (size_t i = 1; fault == NO_CARRY && i < points_len / 2; i++)
        points[2 * i + 1] = (uint8_t)(points[2 * i - 1] + packed[packed_len / 2 + i]);
    free(copy);
    return answer;
}
