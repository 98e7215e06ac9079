/* The cases: who plays, on which record, from which list, and what must hold after it. */
#include "cases.h"

#include <stdlib.h>

#include "isal.h"
#include "pbm.h"
#include "peer.h"
#include "turns.h"

static void lend(struct stage *s, const uint8_t record[PBM_RECORD_LEN]) { memcpy(s->record, record, PBM_RECORD_LEN); }

static void parity_must_hold(const struct stage *s)
{
    must(isal_check(s->images, s->disks, s->stripes, s->plan.block_len), "a parity does not hold after a case");
}

/* The contestant, held to a target at B = 4096: out of cache, and in cache. */
static struct contestant held(struct contestant c, double out, double in)
{
    c.target_out = out;
    c.target_in = in;
    return c;
}

/* And at B = 64, out of cache and in cache. */
static struct contestant held_short(struct contestant c, double target)
{
    c.target_short = target;
    return c;
}

/* On another record than the case lends. */
static struct contestant on(struct contestant c, const uint8_t record[PBM_RECORD_LEN])
{
    c.record = record;
    return c;
}

static struct contestant reader(const char *name, read_call *call, struct list l)
{
    return (struct contestant){.name = name, .turn = reads, .list = l, .read = call};
}

static struct contestant writer(const char *name, write_call *call, struct list l)
{
    return (struct contestant){.name = name, .turn = writes, .list = l, .write = call};
}

static struct contestant rebuilder(const char *name, begin_call *begin, step_call *go_on, struct list l)
{
    return (struct contestant){.name = name, .turn = rebuilds, .list = l, .begin = begin, .step = go_on};
}

static struct contestant grower(const char *name, grow_call *grow, step_call *advance, struct list l)
{
    return (struct contestant){.name = name, .turn = growths, .list = l, .grow = grow, .step = advance};
}

static struct contestant locator(const char *name, locate_call *call, struct list l)
{
    return (struct contestant){.name = name, .turn = locates, .list = l, .locate = call};
}

static struct contestant owner(const char *name, owner_call *call, struct list l)
{
    return (struct contestant){.name = name, .turn = owners, .list = l, .owner = call};
}

static struct contestant sweeper(const char *name, sweep_call *call, struct list l)
{
    return (struct contestant){.name = name, .turn = sweeps, .list = l, .sweep = call};
}

static struct contestant checker(struct list l)
{
    return (struct contestant){.name = "xor_check alone", .turn = checks, .list = l};
}

static struct contestant packer(const char *name, points_call *call, struct list l)
{
    return (struct contestant){.name = name, .turn = packs, .list = l, .points = call};
}

static struct contestant copier(struct list places)
{
    return (struct contestant){.name = "memcpy alone", .turn = copies, .list = places};
}

/* With the places of the blocks also against memcpy. */
static void reading_from(struct stage *s, struct settings set, struct report *report, const char *name,
                         const uint8_t record[PBM_RECORD_LEN], struct list l, struct list places)
{
    struct series x = {name, {reader("library", pbm_read, l), held_short(held(reader("C", peer_read, l), 0.95, 0.6), 0.95),
                              copier(places)}, places.count > 0 ? 3 : 2, 1};
    lend(s, record);
    series_run(&x, s, set, report);
    free(l.items), free(places.items);
}

static void reading(struct stage *s, struct settings set, struct report *report)
{
    struct list l = list_blocks(s);
    reading_from(s, set, report, "read", s->half, l, list_place_numbers(s, l));
}

static void reading_plainly(struct stage *s, struct settings set, struct report *report)
{
    reading_from(s, set, report, "read", s->half, list_blocks(s), (struct list){0});
}

static void reading_grown(struct stage *s, struct settings set, struct report *report)
{
    stage_grown(s);
    reading_from(s, set, report, "read, any block, grown", s->grown, list_all_blocks(s), (struct list){0});
}

/*
 * View cannot be called from C. A read of a short block makes the same tests, finds the same place, and copies 32 bytes,
 * which view does not: so it stands for view, against C's read of the same and against C's view.
 */
void cases_view(struct stage *s, struct settings set, struct report *report)
{
    struct list l = list_blocks(s);
    struct series x = {"view, as a read of 32 bytes",
                       {reader("library", pbm_read, l), reader("C, read", peer_read, l),
                        {.name = "C, view", .turn = views, .list = l, .view = peer_view}}, 3, 1};
    lend(s, s->half);
    series_run(&x, s, set, report);
    free(l.items);
}

void cases_points(struct stage *s, struct settings set, struct report *report)
{
    struct list blocks = list_blocks(s), l = list_place_numbers(s, blocks);
    struct series pack = {"points pack", {packer("library", pbm_points_pack, l),
                                          held(packer("C", peer_points_pack, l), 0, 0.9), copier(l)}, 3, 1};
    struct series unpack = {"points unpack", {packer("library", pbm_points_unpack, l),
                                              held(packer("C", peer_points_unpack, l), 0, 0.9), copier(l)}, 3, 1};
    series_run(&pack, s, set, report);
    series_run(&unpack, s, set, report);
    free(blocks.items), free(l.items);
}

static void reading_degraded(struct stage *s, struct settings set, struct report *report)
{
    struct list l = list_on_disk_out(s);
    struct series x = {"degraded read", {reader("library", pbm_read, l), held(reader("ISA-L", isal_read, l), 0.9, 0.5),
                                         reader("C", peer_read, l)}, 3, 1};
    lend(s, s->degraded);
    series_run(&x, s, set, report);
    free(l.items);
}

/* While a disk is rebuilt. Beside the peers the library itself, for the same blocks: with all disks in; with that one out. */
static void reading_rebuilt(struct stage *s, struct settings set, struct report *report)
{
    struct list l = list_rebuilt(s);
    struct series x = {"read, stripe rebuilt",
                       {reader("library", pbm_read, l), on(reader("library, whole", pbm_read, l), s->half),
                        held(reader("C", peer_read, l), 0.95, 0.6)}, 3, 1};
    lend(s, s->rebuilding);
    series_run(&x, s, set, report);
    free(l.items);
}

static void reading_not_rebuilt(struct stage *s, struct settings set, struct report *report)
{
    struct list l = list_not_rebuilt(s);
    struct series x = {"degraded read, stripe not rebuilt",
                       {reader("library", pbm_read, l), on(reader("library, disk out", pbm_read, l), s->degraded),
                        held(reader("ISA-L", isal_read, l), 0.9, 0.5), reader("C", peer_read, l)}, 4, 1};
    lend(s, s->rebuilding);
    series_run(&x, s, set, report);
    free(l.items);
}

/* Against C, and against C at will if that plays too. */
static void writing_to(struct stage *s, struct settings set, struct report *report, const char *name,
                       const uint8_t record[PBM_RECORD_LEN], struct list l, bool at_will_too)
{
    struct series x = {name, {writer("library", pbm_write, l), held_short(held(writer("C", peer_write, l), 0.92, 0.9), 0.95),
                              writer("C, at will", peer_write_at_will, l)}, at_will_too ? 3 : 2, 1};
    lend(s, record);
    series_run(&x, s, set, report);
    parity_must_hold(s);
    free(l.items);
}

static void writing(struct stage *s, struct settings set, struct report *report)
{
    writing_to(s, set, report, "write", s->half, list_blocks(s), true);
}

static void writing_plainly(struct stage *s, struct settings set, struct report *report)
{
    writing_to(s, set, report, "write", s->half, list_blocks(s), false);
}

static void writing_grown(struct stage *s, struct settings set, struct report *report)
{
    stage_grown(s);
    writing_to(s, set, report, "write, any block, grown", s->grown, list_all_blocks(s), false);
}

/* With the disk out, or in part rebuilt: parities are right if they hold once it is rebuilt. */
static void write_degraded(struct stage *s, struct settings set, struct report *report, const struct series *x,
                           const uint8_t record[PBM_RECORD_LEN])
{
    lend(s, record);
    series_run(x, s, set, report);
    stage_rebuild(s);
    parity_must_hold(s);
}

/* Up to nine disks are up to eight sources, one pass: there C at will is C. */
static void writing_degraded(struct stage *s, struct settings set, struct report *report)
{
    struct list l = list_on_disk_out(s);
    struct series x = {"write, its disk out",
                       {writer("library", pbm_write, l), held_short(held(writer("C", peer_write, l), 0.9, 0.7), 0.9),
                        writer("C, at will", peer_write_at_will, l)}, s->disks > 9 ? 3 : 2, 1};
    write_degraded(s, set, report, &x, s->degraded);
    free(l.items);
}

static void writing_parity_out(struct stage *s, struct settings set, struct report *report)
{
    struct list l = list_parity_out(s);
    struct series x = {"write, its parity's disk out", {writer("library", pbm_write, l), writer("C", peer_write, l)}, 2, 1};
    write_degraded(s, set, report, &x, s->degraded);
    free(l.items);
}

static void writing_rebuilt(struct stage *s, struct settings set, struct report *report)
{
    struct list l = list_rebuilt(s);
    struct series x = {"write, stripe rebuilt",
                       {writer("library", pbm_write, l), on(writer("library, whole", pbm_write, l), s->half),
                        held(writer("C", peer_write, l), 0.92, 0.9)}, 3, 1};
    write_degraded(s, set, report, &x, s->rebuilding);
    free(l.items);
}

static void writing_not_rebuilt(struct stage *s, struct settings set, struct report *report)
{
    struct list l = list_not_rebuilt(s);
    struct series x = {"write, its disk not rebuilt",
                       {writer("library", pbm_write, l), on(writer("library, disk out", pbm_write, l), s->degraded),
                        held_short(held(writer("C", peer_write, l), 0.9, 0.7), 0.9)}, 3, 1};
    write_degraded(s, set, report, &x, s->rebuilding);
    free(l.items);
}

static void rebuild_by(struct stage *s, struct settings set, struct report *report, const struct series *x)
{
    lend(s, s->degraded);
    series_run(x, s, set, report);
    parity_must_hold(s);
}

/* All stripes in one call; and by 64 a call, which is also held against that. */
static void rebuilding(struct stage *s, struct settings set, struct report *report)
{
    uint32_t few = 64;
    struct list all = {&s->stripes, 1}, some = {&few, 1};
    struct series at_once = {"rebuild at once, per stripe",
                             {rebuilder("library", pbm_begin, pbm_continue, all),
                              held(rebuilder("ISA-L", peer_begin, isal_continue, all), 0.9, 0.5),
                              rebuilder("C", peer_begin, peer_continue, all), checker(all)},
                             4, s->stripes};
    struct series by_64 = {"rebuild by 64, per stripe",
                           {rebuilder("library", pbm_begin, pbm_continue, some),
                            held_short(held(rebuilder("library, at once", pbm_begin, pbm_continue, all), 0.95, 0.95), 0.95),
                            rebuilder("ISA-L", peer_begin, isal_continue, some),
                            rebuilder("C", peer_begin, peer_continue, some)},
                           4, s->stripes};
    rebuild_by(s, set, report, &at_once);
    rebuild_by(s, set, report, &by_64);
}

/* Of sound images: all stripes are read. ISA-L looks at blanks too; xor_check alone does not, and knows no layout. */
static void sweeping_by(struct stage *s, struct settings set, struct report *report, const char *name,
                        const uint8_t record[PBM_RECORD_LEN])
{
    struct list all = {&s->stripes, 1};
    struct series x = {name,
                       {sweeper("library", pbm_sweep, all), held(checker(all), 0.9, 0.8),
                        sweeper("ISA-L", isal_sweep, all), sweeper("C", peer_sweep, all)},
                       4, s->stripes};
    lend(s, record);
    series_run(&x, s, set, report);
}

static void sweeping_before(struct stage *s, struct settings set, struct report *report)
{
    sweeping_by(s, set, report, "sweep, before growth, per stripe", s->formatted);
}

static void sweeping_grown(struct stage *s, struct settings set, struct report *report)
{
    stage_grown(s);
    sweeping_by(s, set, report, "sweep, grown, per stripe", s->grown);
}

static void sweeping(struct stage *s, struct settings set, struct report *report)
{
    sweeping_before(s, set, report);
    sweeping_by(s, set, report, "sweep, half grown, per stripe", s->half);
    sweeping_grown(s, set, report);
}

void cases_sweep(struct stage *s, struct settings set, struct report *report)
{
    sweeping_before(s, set, report);
    sweeping_grown(s, set, report);
}

/* Against C, and against restripes if those play too. */
static void growing_by(struct stage *s, struct settings set, struct report *report, const char *name, uint32_t step,
                       bool restripes_too)
{
    struct list l = {&step, 1};
    struct series x = {name,
                       {grower("library", pbm_grow, pbm_advance, l),
                        held(grower("C", peer_grow, peer_advance, l), 0.95, 0.8),
                        held((struct contestant){.name = "restripe", .turn = restripes, .list = l, .in_place = true}, 3, 3),
                        {.name = "restripe, out of place", .turn = restripes, .list = l}},
                       restripes_too ? 4 : 2, s->total};
    series_run(&x, s, set, report);
    for (size_t i = 0; i < 2; i++) { /* one more growth of either, to look at */
        growths(s, &x.who[i], &step, 1);
        must(memcmp(s->record, s->grown, PBM_RECORD_LEN) == 0, "a growth did not come to its end");
        parity_must_hold(s);
    }
}

static void restripes_must_be_right(struct stage *s)
{
    for (int in_place = 0; in_place < 2; in_place++) {
        struct restripe r = restripe_of(s, in_place);
        memcpy(s->images, s->home, s->home_len);
        restripe(&r);
        must(restripe_is_right(&r, s->home), "a restripe is wrong");
    }
}

static void growing(struct stage *s, struct settings set, struct report *report)
{
    growing_by(s, set, report, "grow + advance at once, per move", s->total, true);
    growing_by(s, set, report, "grow + advance by 64, per move", 64, true);
    restripes_must_be_right(s);
}

static void growing_plainly(struct stage *s, struct settings set, struct report *report)
{
    growing_by(s, set, report, "grow + advance at once, per move", s->total, false);
}

/* No target is set for old and new blocks mixed. */
static void locating(struct stage *s, struct settings set, struct report *report, const char *name,
                     const uint8_t record[PBM_RECORD_LEN], uint32_t first, uint32_t end)
{
    struct list l = list_some_blocks(s, first, end);
    double target = record == s->grown && first == 0 ? 0 : 1;
    struct series x = {name, {locator("library", pbm_locate, l),
                              held_short(held(locator("C", peer_locate, l), target, target), target)}, 2, 1};
    lend(s, record);
    series_run(&x, s, set, report);
    free(l.items);
}

static void owning(struct stage *s, struct settings set, struct report *report, const char *name,
                   const uint8_t record[PBM_RECORD_LEN])
{
    struct list l = list_some_places(s, s->disks);
    struct series x = {name, {owner("library", pbm_owner, l), held(owner("C", peer_owner, l), 1, 1)}, 2, 1};
    lend(s, record);
    series_run(&x, s, set, report);
    free(l.items);
}

static uint32_t old_blocks(const struct stage *s) { return capacity_by(s->formatted); }

static void locating_old(struct stage *s, struct settings set, struct report *report)
{
    locating(s, set, report, "locate, old block, half grown", s->half, 0, old_blocks(s));
}

static void locating_new_half(struct stage *s, struct settings set, struct report *report)
{
    locating(s, set, report, "locate, new block, half grown", s->half, old_blocks(s), capacity_by(s->half));
}

static void locating_new(struct stage *s, struct settings set, struct report *report)
{
    locating(s, set, report, "locate, new block, grown", s->grown, old_blocks(s), capacity_by(s->grown));
}

static void locating_any(struct stage *s, struct settings set, struct report *report)
{
    locating(s, set, report, "locate, any block, grown", s->grown, 0, capacity_by(s->grown));
}

static void owning_half(struct stage *s, struct settings set, struct report *report)
{
    owning(s, set, report, "owner, half grown", s->half);
}

static void owning_grown(struct stage *s, struct settings set, struct report *report)
{
    owning(s, set, report, "owner, grown", s->grown);
}

typedef void one_case(struct stage *s, struct settings set, struct report *report);

/* These read the record alone: no image is touched, whatever its size. */
static one_case *const asking[] = {locating_old, locating_new_half, locating_new, locating_any, owning_half, owning_grown};

enum { ASKING = sizeof asking / sizeof asking[0] };

static void ask(struct stage *s, struct settings set, struct report *report)
{
    bool in_cache = s->plan.in_cache;
    s->plan.in_cache = true; /* repeated as any small case */
    size_t first = report->count;
    for (size_t i = 0; i < ASKING; i++)
        asking[i](s, set, report);
    s->plan.in_cache = in_cache;
    for (; first < report->count; first++)
        report->rows[first].plan.in_cache = in_cache;
}

void cases_run(struct stage *s, struct settings set, struct report *report)
{
    reading(s, set, report);
    reading_degraded(s, set, report);
    reading_rebuilt(s, set, report);
    reading_not_rebuilt(s, set, report);
    writing(s, set, report);
    writing_degraded(s, set, report);
    writing_parity_out(s, set, report);
    writing_rebuilt(s, set, report);
    writing_not_rebuilt(s, set, report);
    if (!s->few_stripes) {
        rebuilding(s, set, report);
        sweeping(s, set, report);
        growing(s, set, report);
    }
    ask(s, set, report);
}

static void play_beside(one_case *play, struct stage *whole, struct stage *tailed, struct settings set, struct report *report)
{
    play(whole, set, report);
    play(tailed, set, report);
}

void cases_beside(struct stage *whole, struct stage *tailed, struct settings set, struct report *report)
{
    static one_case *const blocks[] = {reading_plainly, writing_plainly, reading_grown, writing_grown};
    for (size_t i = 0; i < sizeof blocks / sizeof blocks[0]; i++)
        play_beside(blocks[i], whole, tailed, set, report);
    if (!whole->few_stripes)
        play_beside(growing_plainly, whole, tailed, set, report);
}

void cases_asking_beside(struct stage *whole, struct stage *tailed, struct settings set, struct report *report)
{
    for (size_t i = 0; i < ASKING; i++)
        play_beside(asking[i], whole, tailed, set, report);
}
