/* Makes one named call N times, for counting instructions: calls NAME ours|peer N n m block_len tail. */
#include <stdio.h>
#include <stdlib.h>

#include "pbm.h"
#include "peer.h"
#include "series.h"

struct set {
    read_call *read;
    write_call *write;
    grow_call *grow;
    begin_call *begin;
    step_call *advance, *go_on;
    locate_call *locate;
    owner_call *owner;
    sweep_call *sweep;
    points_call *pack, *unpack;
};

static const struct set sets[2] = {
    {pbm_read, pbm_write, pbm_grow, pbm_begin, pbm_advance, pbm_continue, pbm_locate, pbm_owner, pbm_sweep, pbm_points_pack,
     pbm_points_unpack},
    {peer_read, peer_write, peer_grow, peer_begin, peer_advance, peer_continue, peer_locate, peer_owner, peer_sweep,
     peer_points_pack, peer_points_unpack}};

static volatile uint64_t sink;

/* What calls are lent, and the blocks that they ask for: those of before the growth, or new ones. */
struct lent {
    const uint8_t *record;
    uint8_t *images;
    size_t images_len;
    struct list blocks;
};

static void reads(struct stage *s, const struct set *c, struct lent l, size_t times)
{
    for (size_t i = 0; i < times; i++) {
        uint32_t block = l.blocks.items[i % l.blocks.count];
        must(c->read(l.record, PBM_RECORD_LEN, l.images, l.images_len, block, s->into, s->plan.block_len) == 0, "read");
    }
}

static void writes(struct stage *s, const struct set *c, struct lent l, size_t times)
{
    for (size_t i = 0; i < times; i++) {
        uint32_t block = l.blocks.items[i % l.blocks.count];
        must(c->write(l.record, PBM_RECORD_LEN, l.images, l.images_len, block, s->data, s->plan.block_len) == 0, "write");
    }
}

static void locates(struct stage *s, const struct set *c, struct lent l, size_t times)
{
    (void)s;
    uint64_t stripe, disk, parity, moved;
    for (size_t i = 0; i < times; i++) {
        uint32_t block = l.blocks.items[i % l.blocks.count];
        must(c->locate(l.record, PBM_RECORD_LEN, block, &stripe, &disk, &parity, &moved) == 0, "locate");
        sink += stripe + disk + parity + moved;
    }
}

/* Of places all over the array. */
static void owners(struct stage *s, const struct set *c, struct lent l, size_t times)
{
    struct list places = list_some_places(s, l.record[PBM_AT_N] + l.record[PBM_AT_M]);
    uint64_t role, block;
    for (size_t i = 0; i < times; i++) {
        uint32_t place = places.items[i % places.count];
        must(c->owner(l.record, PBM_RECORD_LEN, place / 32, place % 32, &role, &block) == 0, "owner");
        sink += role + block;
    }
}

/* To the end: the images are sound. */
static void sweeps(struct stage *s, const struct set *c, struct lent l, size_t times)
{
    uint64_t found, stripe, read;
    for (size_t i = 0; i < times; i++) {
        must(c->sweep(l.record, PBM_RECORD_LEN, l.images, l.images_len, &found, &stripe, &read) == 0, "sweep");
        must(read == s->stripes && found == 0, "a sweep stopped");
    }
}

static void rebuilds(struct stage *s, const struct set *c, size_t times, uint64_t step)
{
    for (size_t i = 0; i < times; i++) {
        uint64_t made;
        memcpy(s->record, s->degraded, PBM_RECORD_LEN);
        must(c->begin(s->record, PBM_RECORD_LEN, s->images, s->images_len, OUT_DISK) == 0, "begin");
        while (s->record[PBM_AT_HEALTH] == PBM_HEALTH_REBUILDING) {
            must(c->go_on(s->record, PBM_RECORD_LEN, s->images, s->images_len, step, &made) == 0, "continue");
            sink += made;
        }
    }
}

static void growths(struct stage *s, const struct set *c, size_t times, uint64_t step)
{
    for (size_t i = 0; i < times; i++) {
        uint64_t made;
        memcpy(s->record, s->formatted, PBM_RECORD_LEN);
        must(c->grow(s->record, PBM_RECORD_LEN, s->images, s->images_len, s->plan.m) == 0, "grow");
        while (c->advance(s->record, PBM_RECORD_LEN, s->images, s->images_len, step, &made) == 0)
            sink += made;
    }
}

static void packs(struct stage *s, points_call *call, size_t times)
{
    for (size_t i = 0; i < times; i++)
        must(call(s->data, s->plan.block_len, s->into, s->plan.block_len) == 0, "points");
}

enum state { BEFORE, HALF, GROWN };

static struct lent lend(struct stage *s, enum state state, bool new)
{
    if (state == GROWN)
        stage_grown(s);
    struct lent l = {state == BEFORE ? s->formatted : state == HALF ? s->half : s->grown, s->images, s->images_len, {0}};
    if (state == BEFORE)
        l.images = s->home, l.images_len = s->home_len;
    uint32_t old = capacity_by(s->formatted);
    l.blocks = list_some_blocks(s, new ? old : 0, new ? capacity_by(l.record) : old);
    return l;
}

typedef struct list listing(struct stage *s);

static struct lent lend_degraded(struct stage *s, bool rebuilding, listing *blocks)
{
    return (struct lent){rebuilding ? s->rebuilding : s->degraded, s->images, s->images_len, blocks(s)};
}

typedef void asking(struct stage *s, const struct set *c, struct lent l, size_t times);

/*
 * Calls for one block or place, in the middle of the growth unless the name says another state; *new* alone is once grown. And
 * sweeps, which are for all stripes.
 */
static const struct {
    const char *name;
    asking *ask;
    enum state state;
    bool new;
} asked[] = {{"read-before", reads, BEFORE, false},     {"read", reads, HALF, false},
             {"read-new-half", reads, HALF, true},      {"read-old-grown", reads, GROWN, false},
             {"read-new", reads, GROWN, true},          {"write-before", writes, BEFORE, false},
             {"write", writes, HALF, false},            {"write-new-half", writes, HALF, true},
             {"write-old-grown", writes, GROWN, false}, {"write-new", writes, GROWN, true},
             {"locate-before", locates, BEFORE, false}, {"locate-old", locates, HALF, false},
             {"locate-new-half", locates, HALF, true},  {"locate-old-grown", locates, GROWN, false},
             {"locate-new", locates, GROWN, true},      {"owner-before", owners, BEFORE, false},
             {"owner-half", owners, HALF, false},       {"owner-grown", owners, GROWN, false},
             {"sweep-before", sweeps, BEFORE, false},   {"sweep-half", sweeps, HALF, false},
             {"sweep-grown", sweeps, GROWN, false}};

/* Calls for one block with a disk out, or with half of it rebuilt. */
static const struct {
    const char *name;
    asking *ask;
    bool rebuilding;
    listing *blocks;
} degraded[] = {{"degraded-read", reads, false, list_on_disk_out},   {"write-out", writes, false, list_on_disk_out},
                {"write-parity-out", writes, false, list_parity_out}, {"read-rebuilt", reads, true, list_rebuilt},
                {"read-not-rebuilt", reads, true, list_not_rebuilt}, {"write-rebuilt", writes, true, list_rebuilt},
                {"write-not-rebuilt", writes, true, list_not_rebuilt}};

static bool run(struct stage *s, const struct set *c, const char *name, size_t times)
{
    for (size_t i = 0; i < sizeof asked / sizeof asked[0]; i++)
        if (strcmp(name, asked[i].name) == 0)
            return asked[i].ask(s, c, lend(s, asked[i].state, asked[i].new), times), true;
    for (size_t i = 0; i < sizeof degraded / sizeof degraded[0]; i++)
        if (strcmp(name, degraded[i].name) == 0)
            return degraded[i].ask(s, c, lend_degraded(s, degraded[i].rebuilding, degraded[i].blocks), times), true;
    if (strcmp(name, "rebuild") == 0)
        rebuilds(s, c, times, s->stripes);
    else if (strcmp(name, "rebuild-by-64") == 0)
        rebuilds(s, c, times, 64);
    else if (strcmp(name, "growth") == 0)
        growths(s, c, times, s->total);
    else if (strcmp(name, "growth-by-64") == 0)
        growths(s, c, times, 64);
    else if (strcmp(name, "points-pack") == 0)
        packs(s, c->pack, times);
    else if (strcmp(name, "points-unpack") == 0)
        packs(s, c->unpack, times);
    else
        return false;
    return true;
}

static uint32_t number(const char *word) { return (uint32_t)atoi(word); }

/* On the smallest array that moves: one group, and the tail. */
int main(int argc, char **argv)
{
    static struct stage s;
    must(argc == 8, "calls NAME ours|peer N n m block_len tail");
    struct plan plan = {number(argv[4]), number(argv[5]), number(argv[6]), SIZE_MAX, true, 1, number(argv[7])};
    stage_open(&s, plan, 1);
    must(run(&s, &sets[strcmp(argv[2], "peer") == 0], argv[1], strtoul(argv[3], NULL, 0)), "no such call");
    return 0;
}
