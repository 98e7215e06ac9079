/* Arrays for the cases: buffers on whole pages, touched; random contents, written by the library; lists in random order. */
#include "stage.h"

#include <stdio.h>
#include <stdlib.h>

#include "isal.h"
#include "pbm.h"

enum { MAX_STRIPES = 1048576, SOME = 65536 };

void must(bool holds, const char *what)
{
    if (holds)
        return;
    fprintf(stderr, "bench: %s\n", what);
    exit(1);
}

static void *buffer(size_t len)
{
    size_t pages = (len + 4095) / 4096 * 4096;
    void *bytes = aligned_alloc(4096, pages);
    must(bytes != NULL, "out of memory");
    memset(bytes, 1, pages);
    return bytes;
}

static uint32_t group_len(struct plan p) { return p.n * (p.n + p.m); }

/* The most whole groups that fit. */
static uint32_t groups_for(struct plan p)
{
    size_t most = p.images_len / ((size_t)(p.n + p.m) * p.block_len);
    if (most > MAX_STRIPES)
        most = MAX_STRIPES;
    size_t groups = (most + (p.in_cache ? group_len(p) / 2 : 0)) / group_len(p); /* a small array is rounded, a big one cut */
    return groups > 0 ? (uint32_t)groups : 1;
}

static uint32_t groups_of(struct plan p)
{
    if (p.groups == NO_GROUP)
        return 0;
    return p.groups > 0 ? p.groups : groups_for(p);
}

static void fill_home(struct stage *s)
{
    uint8_t refused = pbm_format(s->formatted, PBM_RECORD_LEN, s->home, s->home_len, s->plan.n, s->plan.block_len, s->stripes);
    must(refused == 0, "format");
    for (uint64_t b = 0; b < (uint64_t)s->stripes * (s->plan.n - 1); b++) {
        random_fill(&s->random, s->into, s->plan.block_len);
        must(pbm_write(s->formatted, PBM_RECORD_LEN, s->home, s->home_len, b, s->into, s->plan.block_len) == 0, "write");
    }
    must(isal_check(s->home, s->plan.n, s->stripes, s->plan.block_len), "a parity does not hold before growth");
}

/* From the images of before; into its record. */
static void grow_to(struct stage *s, uint8_t record[PBM_RECORD_LEN], uint32_t moves)
{
    uint64_t made;
    memcpy(s->images, s->home, s->home_len);
    memcpy(record, s->formatted, PBM_RECORD_LEN);
    must(pbm_grow(record, PBM_RECORD_LEN, s->images, s->images_len, s->plan.m) == 0, "grow");
    if (s->total == 0)
        return; /* the growth is over */
    must(pbm_advance(record, PBM_RECORD_LEN, s->images, s->images_len, moves, &made) == 0 && made == moves, "advance");
}

/* Half of the zones are finished, and half of the moves of the next one made, if there is one. */
static uint32_t half_of(const struct stage *s)
{
    uint32_t zone_moves = s->plan.n * s->plan.m, zones = s->total / zone_moves;
    return zones > 0 ? zones / 2 * zone_moves + zone_moves / 2 : 0;
}

/* Stripes of OUT_DISK, by `rebuilding`. */
static uint32_t rebuilt_of(const struct stage *s) { return s->stripes / 2; }

static void rebuild(struct stage *s, uint8_t record[PBM_RECORD_LEN], uint32_t stripes)
{
    uint64_t made;
    if (record[PBM_AT_HEALTH] == PBM_HEALTH_OUT)
        must(pbm_begin(record, PBM_RECORD_LEN, s->images, s->images_len, OUT_DISK) == 0, "begin");
    must(pbm_continue(record, PBM_RECORD_LEN, s->images, s->images_len, stripes, &made) == 0, "continue");
}

void stage_rebuild(struct stage *s) { rebuild(s, s->record, s->stripes); }

void stage_half(struct stage *s)
{
    grow_to(s, s->half, half_of(s));
    memcpy(s->degraded, s->half, PBM_RECORD_LEN);
    must(pbm_out(s->degraded, PBM_RECORD_LEN, OUT_DISK) == 0, "out");
    memcpy(s->rebuilding, s->degraded, PBM_RECORD_LEN);
    rebuild(s, s->rebuilding, rebuilt_of(s));
    memcpy(s->grown, s->half, PBM_RECORD_LEN);
    memcpy(s->grown + PBM_AT_MOVES, &s->total, 4);
}

void stage_grown(struct stage *s) { grow_to(s, s->grown, s->total); }

struct lent_images stage_lent(const struct stage *s)
{
    if (s->record[PBM_AT_M] == 0)
        return (struct lent_images){s->home, s->home_len, s->plan.n};
    return (struct lent_images){s->images, s->images_len, s->disks};
}

uint32_t capacity_by(const uint8_t record[PBM_RECORD_LEN])
{
    uint64_t capacity, moves, total, health, out, rebuilt;
    must(pbm_status(record, PBM_RECORD_LEN, &capacity, &moves, &total, &health, &out, &rebuilt) == 0, "status");
    return (uint32_t)capacity;
}

typedef bool choosing(const struct stage *s, uint32_t block);

static bool block_on_disk_out(const struct stage *s, uint32_t block)
{
    uint64_t stripe, disk, parity, moved;
    must(pbm_locate(s->half, PBM_RECORD_LEN, block, &stripe, &disk, &parity, &moved) == 0, "locate");
    return disk == OUT_DISK;
}

/* Of a block of before the growth. */
static bool parity_on_disk_out(const struct stage *s, uint32_t block)
{
    uint64_t role, none;
    must(pbm_owner(s->half, PBM_RECORD_LEN, block / (s->plan.n - 1), OUT_DISK, &role, &none) == 0, "owner");
    return role == PBM_PARITY;
}

/* Of a block of before the growth. */
static bool stripe_rebuilt(const struct stage *s, uint32_t block) { return block / (s->plan.n - 1) < rebuilt_of(s); }

static bool disk_not_rebuilt(const struct stage *s, uint32_t block)
{
    return !stripe_rebuilt(s, block) && block_on_disk_out(s, block);
}

static bool has_block(const struct stage *s, uint32_t stripe, choosing *fits)
{
    uint32_t data = s->plan.n - 1;
    bool found = false;
    for (uint32_t b = 0; b < data; b++)
        found |= fits(s, stripe * data + b);
    return found;
}

static bool is_visited(const struct visited *v, uint32_t stripe)
{
    bool found = false;
    for (uint32_t i = 0; i < v->count; i++)
        found |= v->stripes[i] == stripe;
    return found;
}

/* Random stripes, of 1 MiB together, each with a block that fits; none unless few are to be visited. */
static struct visited choose_stripes(struct stage *s, choosing *fits)
{
    struct visited v = {.count = 0};
    size_t wanted = s->few_stripes ? s->plan.images_len / ((size_t)s->disks * s->plan.block_len) : 0;
    while (v.count < wanted && v.count < 64) {
        uint32_t stripe = (uint32_t)random_below(&s->random, s->stripes);
        if (has_block(s, stripe, fits) && !is_visited(&v, stripe))
            v.stripes[v.count++] = stripe;
    }
    return v;
}

void stage_open(struct stage *s, struct plan plan, uint64_t seed)
{
    uint32_t groups = groups_of(plan);
    *s = (struct stage){.plan = plan, .disks = plan.n + plan.m, .random = {seed}};
    s->stripes = groups * group_len(plan) + plan.tail;
    s->total = groups * plan.n * plan.n * plan.m;
    size_t disk_len = (size_t)s->stripes * plan.block_len;
    s->home_len = plan.n * disk_len;
    s->images_len = s->disks * disk_len;
    s->home = buffer(s->home_len);
    s->images = buffer(s->images_len);
    s->spare = buffer(s->images_len);
    s->into = buffer(plan.block_len);
    s->data = buffer((size_t)DATA_BLOCKS * plan.block_len);
    random_fill(&s->random, s->data, (size_t)DATA_BLOCKS * plan.block_len);
    fill_home(s);
    stage_half(s);
    s->few_stripes = plan.in_cache && s->images_len / 2 > plan.images_len;
    s->visited = choose_stripes(s, block_on_disk_out);
}

void stage_close(struct stage *s)
{
    free(s->home), free(s->images), free(s->spare), free(s->into), free(s->data);
}

static struct list list_of(size_t most)
{
    struct list l = {malloc(most * sizeof(uint32_t)), 0};
    must(l.items != NULL, "out of memory");
    return l;
}

/* The old blocks of each stripe, or of these few, and `added` new ones. */
static struct list blocks_of_stripes(struct stage *s, const struct visited *few, uint32_t added)
{
    uint32_t data = s->plan.n - 1, stripes = s->few_stripes ? few->count : s->stripes;
    struct list l = list_of((size_t)stripes * (data + added));
    for (uint32_t i = 0; i < stripes; i++) {
        uint32_t stripe = s->few_stripes ? few->stripes[i] : i;
        for (uint32_t b = 0; b < data; b++)
            l.items[l.count++] = stripe * data + b;
        for (uint32_t b = 0; b < added; b++)
            l.items[l.count++] = s->stripes * data + stripe * added + b;
    }
    random_shuffle(&s->random, l.items, l.count);
    return l;
}

struct list list_blocks(struct stage *s) { return blocks_of_stripes(s, &s->visited, 0); }
struct list list_all_blocks(struct stage *s) { return blocks_of_stripes(s, &s->visited, s->plan.m); }

static struct list only_fit(const struct stage *s, struct list l, choosing *fits)
{
    size_t kept = 0;
    for (size_t i = 0; i < l.count; i++)
        if (fits(s, l.items[i]))
            l.items[kept++] = l.items[i];
    l.count = kept;
    return l;
}

struct list list_on_disk_out(struct stage *s) { return only_fit(s, list_blocks(s), block_on_disk_out); }

/* Not of the stripes that are visited else, of which few or none may have a block that fits. */
static struct list list_elsewhere(struct stage *s, choosing *fits)
{
    struct visited few = choose_stripes(s, fits);
    return only_fit(s, blocks_of_stripes(s, &few, 0), fits);
}

struct list list_parity_out(struct stage *s) { return list_elsewhere(s, parity_on_disk_out); }
struct list list_rebuilt(struct stage *s) { return list_elsewhere(s, stripe_rebuilt); }
struct list list_not_rebuilt(struct stage *s) { return list_elsewhere(s, disk_not_rebuilt); }

struct list list_some_blocks(struct stage *s, uint32_t first, uint32_t end)
{
    struct list l = list_of(SOME);
    while (l.count < SOME)
        l.items[l.count++] = first + (uint32_t)random_below(&s->random, end - first);
    return l;
}

struct list list_some_places(struct stage *s, uint32_t disks)
{
    struct list l = list_of(SOME);
    while (l.count < SOME) {
        uint32_t stripe = (uint32_t)random_below(&s->random, s->stripes);
        l.items[l.count++] = 32 * stripe + (uint32_t)random_below(&s->random, disks);
    }
    return l;
}

struct list list_place_numbers(const struct stage *s, struct list blocks)
{
    struct list l = list_of(blocks.count);
    for (; l.count < blocks.count; l.count++) {
        uint64_t stripe, disk, parity, moved;
        must(pbm_locate(s->half, PBM_RECORD_LEN, blocks.items[l.count], &stripe, &disk, &parity, &moved) == 0, "locate");
        l.items[l.count] = (uint32_t)(disk * s->stripes + stripe);
    }
    return l;
}
