/*
 * The peers against the library: random histories of all calls, refused ones among them, on random images, from every kind
 * of record; and locate and owner of every block and place, for every n and m. Both with and without a tail, and in the
 * middle of a growth with the new blocks that are there by then, around the move that brings some. In the histories disks are
 * out and rebuilt too, with reads and writes around the stripe that a rebuild has come to. Sweeps of sound images, as they are,
 * with one bit flipped, and with the same bit flipped on two disks of a stripe, which its sum does not show. Points of every
 * length, packed and unpacked.
 */
#include "agree.h"

#include <stdio.h>
#include <stdlib.h>

#include "isal.h"
#include "pbm.h"
#include "peer.h"
#include "random.h"
#include "series.h"

enum { ROOM = 2 * PBM_RECORD_LEN }; /* for a record that is lent at another length */

enum op { FORMAT, READ, VIEW, WRITE, GROW, ADVANCE, OUT, BEGIN, CONTINUE, STATUS, LOCATE, OWNER, SWEEP, OPS };

static const char *const names[OPS] = {"format", "read",     "view",   "write",  "grow",  "advance", "out",
                                       "begin",  "continue", "status", "locate", "owner", "sweep"};

static const uint32_t BEFORE_GROWTH = UINT32_MAX; /* in place of the moves done */

struct call {
    enum op op;
    size_t record_len, images_len, block_len;
    uint64_t x, y, z;
};

/* What one contestant is lent, and what it answered. */
struct world {
    uint8_t record[ROOM];
    uint8_t *images, *block;
    uint64_t beside[6]; /* numbers that a call sets beside its answer */
    uint8_t answer;
};

typedef void runner(struct world *w, const struct call *c);

static void run_ours(struct world *w, const struct call *c)
{
    uint8_t *r = w->record, *i = w->images, *b = w->block;
    size_t rl = c->record_len, il = c->images_len, bl = c->block_len;
    uint64_t *x = w->beside;
    switch (c->op) {
    case FORMAT: w->answer = pbm_format(r, rl, i, il, c->x, c->y, c->z); break;
    case READ:
    case VIEW: w->answer = pbm_read(r, rl, i, il, c->x, b, bl); break;
    case WRITE: w->answer = pbm_write(r, rl, i, il, c->x, b, bl); break;
    case GROW: w->answer = pbm_grow(r, rl, i, il, c->x); break;
    case ADVANCE: w->answer = pbm_advance(r, rl, i, il, c->x, &x[0]); break;
    case OUT: w->answer = pbm_out(r, rl, c->x); break;
    case BEGIN: w->answer = pbm_begin(r, rl, i, il, c->x); break;
    case CONTINUE: w->answer = pbm_continue(r, rl, i, il, c->x, &x[0]); break;
    case STATUS: w->answer = pbm_status(r, rl, &x[0], &x[1], &x[2], &x[3], &x[4], &x[5]); break;
    case LOCATE: w->answer = pbm_locate(r, rl, c->x, &x[0], &x[1], &x[2], &x[3]); break;
    case SWEEP: w->answer = pbm_sweep(r, rl, i, il, &x[0], &x[1], &x[2]); break;
    default: w->answer = pbm_owner(r, rl, c->x, c->y, &x[0], &x[1]);
    }
}

/* A view is a part of the images, and the scratch untouched, or the scratch; its bytes are held against a read's. */
static uint8_t view_as_read(struct world *w, const struct call *c)
{
    const uint8_t *view;
    uint8_t answer = peer_view(w->record, c->record_len, w->images, c->images_len, c->x, w->block, c->block_len, &view);
    if (answer == 0)
        memmove(w->block, view, c->block_len);
    return answer;
}

static void run_peer(struct world *w, const struct call *c)
{
    uint8_t *r = w->record, *i = w->images, *b = w->block;
    size_t rl = c->record_len, il = c->images_len, bl = c->block_len;
    uint64_t *x = w->beside;
    switch (c->op) {
    case FORMAT: w->answer = peer_format(r, rl, i, il, c->x, c->y, c->z); break;
    case READ: w->answer = peer_read(r, rl, i, il, c->x, b, bl); break;
    case VIEW: w->answer = view_as_read(w, c); break;
    case WRITE: w->answer = peer_write(r, rl, i, il, c->x, b, bl); break;
    case GROW: w->answer = peer_grow(r, rl, i, il, c->x); break;
    case ADVANCE: w->answer = peer_advance(r, rl, i, il, c->x, &x[0]); break;
    case OUT: w->answer = peer_out(r, rl, c->x); break;
    case BEGIN: w->answer = peer_begin(r, rl, i, il, c->x); break;
    case CONTINUE: w->answer = peer_continue(r, rl, i, il, c->x, &x[0]); break;
    case STATUS: w->answer = peer_status(r, rl, &x[0], &x[1], &x[2], &x[3], &x[4], &x[5]); break;
    case LOCATE: w->answer = peer_locate(r, rl, c->x, &x[0], &x[1], &x[2], &x[3]); break;
    case SWEEP: w->answer = peer_sweep(r, rl, i, il, &x[0], &x[1], &x[2]); break;
    default: w->answer = peer_owner(r, rl, c->x, c->y, &x[0], &x[1]);
    }
}

static void run_at_will(struct world *w, const struct call *c)
{
    if (c->op == WRITE)
        w->answer = peer_write_at_will(w->record, c->record_len, w->images, c->images_len, c->x, w->block, c->block_len);
    else
        run_peer(w, c);
}

static void run_isal(struct world *w, const struct call *c)
{
    uint64_t *x = w->beside;
    if (c->op == READ || c->op == VIEW)
        w->answer = isal_read(w->record, c->record_len, w->images, c->images_len, c->x, w->block, c->block_len);
    else if (c->op == CONTINUE)
        w->answer = isal_continue(w->record, c->record_len, w->images, c->images_len, c->x, &x[0]);
    else if (c->op == SWEEP)
        w->answer = isal_sweep(w->record, c->record_len, w->images, c->images_len, &x[0], &x[1], &x[2]);
    else
        run_peer(w, c);
}

struct shape {
    uint32_t n, m, block_len, stripes;
};

static size_t size(struct shape h, uint32_t disks) { return (size_t)disks * h.stripes * h.block_len; }

static uint32_t group_len(struct shape h) { return h.n * (h.n + h.m); }
static uint32_t total_of(struct shape h) { return h.stripes / group_len(h) * h.n * h.n * h.m; }

static uint32_t one_before(uint32_t moves) { return moves > 0 ? moves - 1 : 0; }
static uint32_t one_after(struct shape h, uint32_t moves) { return moves < total_of(h) ? moves + 1 : moves; }

static uint64_t any_block(struct random *r, struct shape h, const uint8_t *record)
{
    return random_below(r, (uint64_t)h.stripes * (h.n + record[PBM_AT_M] - 1) + 1);
}

/* The capacity by a record that may not be good: 0 then. */
static uint64_t blocks_by(const uint8_t *record)
{
    uint64_t capacity, moves, total, health, out, rebuilt;
    uint8_t number = pbm_status(record, PBM_RECORD_LEN, &capacity, &moves, &total, &health, &out, &rebuilt);
    return number == PBM_DONE ? capacity : 0;
}

struct owned {
    uint64_t role, block;
};

/* What stands on a place; by a record that is not good, nothing. */
static struct owned owned_by(const uint8_t *record, uint64_t stripe, uint64_t disk)
{
    struct owned x, blank = {PBM_BLANK, 0};
    return pbm_owner(record, PBM_RECORD_LEN, stripe, disk, &x.role, &x.block) == PBM_DONE ? x : blank;
}

/* The last one, the first that is not there, and the next. */
static uint64_t block_at_the_end(struct random *r, const uint8_t *record)
{
    return blocks_by(record) + random_below(r, 3) - 1;
}

static uint32_t rebuilt_by(const uint8_t *record)
{
    uint32_t rebuilt;
    memcpy(&rebuilt, record + PBM_AT_REBUILT, 4);
    return rebuilt;
}

/* Any, or, where a rebuild has begun, the last one made or the next. */
static uint64_t likely_stripe(struct random *r, struct shape h, const uint8_t *record)
{
    uint32_t rebuilt = rebuilt_by(record);
    return rebuilt > 0 && random_below(r, 2) ? rebuilt - random_below(r, 2) : random_below(r, h.stripes);
}

/* What stands on the disk that is out or rebuilt; where that is the parity, or no block yet, another of the stripe. */
static uint64_t block_on_disk_out(struct random *r, struct shape h, const uint8_t *record)
{
    uint64_t stripe = likely_stripe(r, h, record);
    struct owned x = owned_by(record, stripe, record[PBM_AT_OUT]);
    return x.role == PBM_DATA ? x.block : stripe * (h.n - 1) + random_below(r, h.n - 1);
}

static uint64_t likely_block(struct random *r, struct shape h, const uint8_t *record)
{
    switch (random_below(r, 4)) {
    case 0: return block_at_the_end(r, record);
    case 1: return block_on_disk_out(r, h, record);
    default: return any_block(r, h, record);
    }
}

/* Mostly a few. */
static uint64_t likely_count(struct random *r, uint32_t few) { return random_below(r, 9) ? random_below(r, few) : UINT64_MAX; }

/* A call that the record lets through, if the health and t do; arguments run a little over their limits. */
static struct call likely_call(struct random *r, struct shape h, const uint8_t *record)
{
    uint32_t disks = h.n + record[PBM_AT_M];
    uint8_t health = record[PBM_AT_HEALTH], out = record[PBM_AT_OUT];
    struct call c = {.record_len = PBM_RECORD_LEN, .block_len = h.block_len};
    c.op = (enum op)(READ + random_below(r, OPS - READ));
    c.images_len = size(h, c.op == GROW ? h.n + h.m : disks);
    switch (c.op) {
    case READ:
    case VIEW:
    case WRITE:
    case LOCATE: c.x = likely_block(r, h, record); break;
    case GROW: c.x = h.m; break;
    case ADVANCE: c.x = random_below(r, 3 * h.n); break;
    case OUT: c.x = health == 0 || random_below(r, 9) == 0 ? random_below(r, disks + 1) : out; break;
    case BEGIN: c.x = out; break;
    case CONTINUE: c.x = likely_count(r, 1 + h.stripes / 8); break;
    case STATUS:
    case SWEEP: break;
    default: c.x = random_below(r, h.stripes + 1), c.y = random_below(r, disks + 1);
    }
    return c;
}

/* The same with something wrong in it or in the record, or a rare call. */
static struct call odd_call(struct random *r, struct shape h, uint8_t *record)
{
    struct call c = likely_call(r, h, record);
    switch (random_below(r, 8)) {
    case 0: c.record_len += random_below(r, 3) - 1; break;
    case 1: c.images_len += random_below(r, 3) - 1; break;
    case 2: c.block_len += random_below(r, 3) - 1; break;
    case 3: c.x = random_next(r); break;
    case 4: record[random_below(r, PBM_RECORD_LEN)] = (uint8_t)random_next(r); break;
    case 5: record[random_below(r, PBM_RECORD_LEN)] ^= (uint8_t)(1u << random_below(r, 8)); break;
    case 6: c = (struct call){GROW, PBM_RECORD_LEN, size(h, h.n + h.m), 0, random_below(r, 18), 0, 0}; break;
    default:
        c = (struct call){FORMAT, PBM_RECORD_LEN, size(h, h.n), 0, h.n, h.block_len, h.stripes};
        if (random_below(r, 2))
            *(random_below(r, 2) ? &c.x : random_below(r, 2) ? &c.y : &c.z) = random_below(r, 5000);
    }
    return c;
}

static bool same(const struct world *a, const struct world *b, size_t images_len)
{
    return a->answer == b->answer && memcmp(a->beside, b->beside, sizeof a->beside) == 0 &&
           memcmp(a->record, b->record, sizeof a->record) == 0 && memcmp(a->block, b->block, 4096) == 0 &&
           memcmp(a->images, b->images, images_len) == 0;
}

static bool is_degraded(uint8_t health) { return health == PBM_HEALTH_OUT || health == PBM_HEALTH_REBUILDING; }

static void start_record(struct random *r, struct shape h, uint8_t record[ROOM], uint32_t moves, uint8_t health)
{
    uint8_t m = moves == BEFORE_GROWTH ? 0 : (uint8_t)h.m;
    memset(record, 0, ROOM);
    record[PBM_AT_N] = (uint8_t)h.n;
    record[PBM_AT_M] = m;
    record[PBM_AT_HEALTH] = health;
    record[PBM_AT_OUT] = is_degraded(health) ? (uint8_t)random_below(r, h.n + m) : 0;
    memcpy(record + PBM_AT_BLOCK_LEN, &(uint16_t){(uint16_t)h.block_len}, 2);
    memcpy(record + PBM_AT_STRIPES, &h.stripes, 4);
    memcpy(record + PBM_AT_MOVES, &(uint32_t){m ? moves : 0}, 4);
    if (health == PBM_HEALTH_REBUILDING)
        memcpy(record + PBM_AT_REBUILT, &(uint32_t){(uint32_t)random_below(r, h.stripes)}, 4);
}

/* The same random bytes in the block and in the numbers beside the answer. */
static void lend_both(struct random *r, struct world *a, struct world *b)
{
    random_fill(r, a->block, 4096);
    memcpy(b->block, a->block, 4096);
    random_fill(r, (uint8_t *)a->beside, sizeof a->beside);
    memcpy(b->beside, a->beside, sizeof a->beside);
}

/* Makes a call on both, by the record of the first. */
static bool agree_on(struct shape h, struct world *a, struct world *b, runner *peer, uint32_t moves, const struct call *c)
{
    memcpy(b->record, a->record, sizeof a->record);
    run_ours(a, c);
    peer(b, c);
    if (same(a, b, size(h, h.n + h.m)))
        return true;
    fprintf(stderr, "%u + %u, B %u, T %u: %s (%llu, %llu) at t = %u: %u and %u\n", h.n, h.m, h.block_len, h.stripes,
            names[c->op], (unsigned long long)c->x, (unsigned long long)c->y, moves, a->answer, b->answer);
    return false;
}

/* A history from one record. One call in three is odd; a record spoilt for it is mended after it. */
static bool history(struct random *r, struct shape h, struct world *a, struct world *b, runner *peer, uint32_t moves,
                    uint8_t health)
{
    size_t all = size(h, h.n + h.m);
    random_fill(r, a->images, all);
    memcpy(b->images, a->images, all);
    start_record(r, h, a->record, moves, health);
    for (int i = 0; i < 60; i++) {
        uint8_t kept[ROOM];
        memcpy(kept, a->record, sizeof kept);
        lend_both(r, a, b);
        struct call c = i % 3 == 0 ? odd_call(r, h, a->record) : likely_call(r, h, a->record);
        if (c.images_len > all)
            c.images_len = all + 1; /* refused by its length: nothing after the images is touched */
        bool spoilt = memcmp(a->record, kept, sizeof kept) != 0;
        if (!agree_on(h, a, b, peer, moves, &c))
            return false;
        if (spoilt)
            memcpy(a->record, kept, sizeof kept);
    }
    return true;
}

static size_t disk_len(struct shape h) { return (size_t)h.stripes * h.block_len; }

/* Random blocks, and the parity of each stripe; blanks zero. */
static void fill_sound(struct random *r, struct shape h, const uint8_t *record, uint8_t *images)
{
    for (uint64_t s = 0; s < h.stripes; s++) {
        uint8_t sum[4096] = {0}, *parity = NULL;
        for (uint64_t d = 0; d < h.n + record[PBM_AT_M]; d++) {
            uint8_t *place = images + d * disk_len(h) + s * h.block_len;
            uint64_t role = owned_by(record, s, d).role;
            memset(place, 0, h.block_len);
            if (role == PBM_PARITY)
                parity = place;
            if (role != PBM_DATA)
                continue;
            random_fill(r, place, h.block_len);
            for (uint32_t i = 0; i < h.block_len; i++)
                sum[i] ^= place[i];
        }
        memcpy(parity, sum, h.block_len);
    }
}

/* A bit that is flipped on some disks of one stripe: none, one, or two. */
struct flaw {
    size_t at; /* byte of the disk */
    uint8_t bit;
    uint32_t disks[2], count;
};

static struct flaw any_flaw(struct random *r, struct shape h, uint32_t disks)
{
    uint32_t one = (uint32_t)random_below(r, disks), other = (one + 1 + (uint32_t)random_below(r, disks - 1)) % disks;
    return (struct flaw){random_below(r, disk_len(h)), (uint8_t)(1u << random_below(r, 8)), {one, other},
                         (uint32_t)random_below(r, 3)};
}

static void flip(struct world *w, struct shape h, struct flaw f)
{
    for (uint32_t i = 0; i < f.count; i++)
        w->images[f.disks[i] * disk_len(h) + f.at] ^= f.bit;
}

static bool is_blank(struct shape h, const uint8_t *record, struct flaw f, uint32_t i)
{
    return owned_by(record, f.at / h.block_len, f.disks[i]).role == PBM_BLANK;
}

/* One bit spoils a stripe's sum. Two do not: there the stripe is unsound by a blank that is not zero, if by anything. */
static bool is_told(const struct world *w, struct shape h, struct flaw f)
{
    bool unsound = f.count == 1 || (f.count == 2 && (is_blank(h, w->record, f, 0) || is_blank(h, w->record, f, 1)));
    uint64_t stripe = f.at / h.block_len;
    return w->answer == PBM_DONE && w->beside[0] == unsound && w->beside[1] == (unsound ? stripe : 0) &&
           w->beside[2] == (unsound ? stripe + 1 : h.stripes);
}

/* Sweeps of sound images, with flaws and without. */
static bool sweeping(struct random *r, struct shape h, struct world *a, struct world *b, runner *peer, uint32_t moves)
{
    start_record(r, h, a->record, moves, PBM_HEALTH_WHOLE);
    uint32_t disks = h.n + a->record[PBM_AT_M];
    const struct call c = {.op = SWEEP, .record_len = PBM_RECORD_LEN, .images_len = size(h, disks)};
    fill_sound(r, h, a->record, a->images);
    memcpy(b->images, a->images, size(h, h.n + h.m));
    for (int i = 0; i < 40; i++) {
        struct flaw f = any_flaw(r, h, disks);
        lend_both(r, a, b);
        flip(a, h, f), flip(b, h, f);
        if (!agree_on(h, a, b, peer, moves, &c))
            return false;
        if (!is_told(a, h, f)) {
            fprintf(stderr, "%u + %u, B %u, T %u: a sweep at t = %u does not tell what was flipped\n", h.n, h.m, h.block_len,
                    h.stripes, moves);
            return false;
        }
        flip(a, h, f), flip(b, h, f);
    }
    return true;
}

/* The moves that finish a zone in the growth; 0 if there is none. */
static uint32_t zone_end(struct random *r, struct shape h)
{
    uint32_t zone_moves = h.n * h.m, zones = total_of(h) / zone_moves;
    return zones > 0 ? (1 + (uint32_t)random_below(r, zones - 1)) * zone_moves : 0;
}

/* From before the growth, from its start, from inside its first zone and from near the end of another, and from its end. */
static bool histories(struct random *r, struct shape h, runner *peer)
{
    uint32_t total = total_of(h), end = zone_end(r, h);
    size_t all = size(h, h.n + h.m) + 1;
    struct world a = {.images = aligned_alloc(4096, (all + 4095) / 4096 * 4096), .block = aligned_alloc(4096, 4096)};
    struct world b = {.images = aligned_alloc(4096, (all + 4095) / 4096 * 4096), .block = aligned_alloc(4096, 4096)};
    const uint32_t moves[] = {BEFORE_GROWTH, 0, 1, h.n * h.m / 2, total / 2, one_before(end), end, one_after(h, end),
                              one_before(total), total, total + 1}; /* the last is too many */
    bool agreed = a.images && b.images && a.block && b.block;
    for (size_t i = 0; agreed && i < sizeof moves / sizeof moves[0]; i++)
        for (uint8_t health = 0; agreed && health <= PBM_HEALTH_REBUILDING; health++)
            agreed = history(r, h, &a, &b, peer, moves[i], health);
    for (size_t i = 0; agreed && i < sizeof moves / sizeof moves[0]; i++)
        if (moves[i] <= total || moves[i] == BEFORE_GROWTH)
            agreed = sweeping(r, h, &a, &b, peer, moves[i]);
    free(a.images), free(a.block), free(b.images), free(b.block);
    return agreed;
}

static bool same_blocks(struct shape h, const uint8_t *record)
{
    uint64_t x[4], y[4];
    for (uint64_t b = 0; b <= (uint64_t)h.stripes * (h.n + h.m - 1); b++)
        if (pbm_locate(record, PBM_RECORD_LEN, b, &x[0], &x[1], &x[2], &x[3]) !=
                peer_locate(record, PBM_RECORD_LEN, b, &y[0], &y[1], &y[2], &y[3]) ||
            memcmp(x, y, sizeof x) != 0)
            return false;
    return true;
}

static bool same_places(struct shape h, const uint8_t *record)
{
    uint64_t x[2], y[2];
    for (uint64_t s = 0; s <= h.stripes; s++)
        for (uint64_t d = 0; d <= h.n + h.m; d++)
            if (pbm_owner(record, PBM_RECORD_LEN, s, d, &x[0], &x[1]) !=
                    peer_owner(record, PBM_RECORD_LEN, s, d, &y[0], &y[1]) ||
                x[0] != y[0] || x[1] != y[1])
                return false;
    return true;
}

static bool same_capacity(const uint8_t *record)
{
    uint64_t x[6], y[6];
    return pbm_status(record, PBM_RECORD_LEN, &x[0], &x[1], &x[2], &x[3], &x[4], &x[5]) == 0 &&
           peer_status(record, PBM_RECORD_LEN, &y[0], &y[1], &y[2], &y[3], &y[4], &y[5]) == 0 && x[0] == y[0];
}

/* Before the growth, at its start, anywhere in it, as a zone is finished, at its end; and one move from these. */
static bool same_layout(struct random *r, struct shape h)
{
    uint32_t total = total_of(h), end = zone_end(r, h);
    const uint32_t moves[] = {BEFORE_GROWTH, 0, (uint32_t)random_below(r, one_before(total) + 1), one_before(end), end,
                              one_after(h, end), one_before(total), total};
    for (size_t i = 0; i < sizeof moves / sizeof moves[0]; i++) {
        uint8_t record[ROOM];
        start_record(r, h, record, moves[i], 0);
        if (!same_capacity(record) || !same_blocks(h, record) || !same_places(h, record)) {
            fprintf(stderr, "%u + %u, T %u, t %u: layouts differ\n", h.n, h.m, h.stripes, moves[i]);
            return false;
        }
    }
    return true;
}

/* Whole groups; tails of one stripe, of a zone, and the longest; no whole group. */
static bool same_layouts(struct random *r, uint32_t n, uint32_t m)
{
    uint32_t zone = n + m, group = n * zone;
    const uint32_t stripes[] = {group, group + 1, group + zone, 2 * group - 1, 2 * group + zone + 1, group - 1, zone, 1};
    for (size_t i = 0; i < sizeof stripes / sizeof stripes[0]; i++)
        if (!same_layout(r, (struct shape){n, m, 64, stripes[i]}))
            return false;
    return true;
}

static bool layouts(struct random *r)
{
    for (uint32_t n = 3; n <= 16; n++)
        for (uint32_t m = 1; m <= 16; m++)
            if (!same_layouts(r, n, m))
                return false;
    return true;
}

/*
 * n, m, B, T: whole groups, then tails of several lengths, then no whole group; then, for a write whose disk is out, 8, 9, 16,
 * 17, 31 and 11 sources, and blocks that are no multiple of what is summed at a time.
 */
static const struct shape shapes[] = {
    {5, 3, 64, 40},   {5, 3, 4096, 40}, {16, 16, 64, 512}, {3, 2, 7, 15},    {4, 1, 1, 20},     {5, 3, 33, 40},
    {5, 3, 64, 41},   {5, 3, 4096, 61}, {16, 16, 64, 769}, {3, 2, 7, 29},    {4, 1, 1, 25},     {5, 3, 32, 79},
    {5, 3, 96, 48},   {5, 3, 64, 39},   {16, 16, 32, 511}, {3, 2, 7, 14},    {4, 1, 1, 19},     {16, 1, 32, 1},
    {6, 3, 85, 54},   {6, 4, 85, 60},   {9, 8, 149, 153},  {16, 2, 67, 288}, {16, 16, 95, 512}, {7, 5, 15, 84},
    {16, 16, 4095, 2}};

enum { MOST_POINTS = 4096 + 2 }; /* bytes: a block, and a little more */

/* From the same bytes into the same, of which those after the length stay as they are. */
static bool same_points(struct random *r, points_call *ours, points_call *peer, size_t from_len, size_t into_len)
{
    uint8_t from[MOST_POINTS], a[MOST_POINTS], b[MOST_POINTS];
    random_fill(r, from, sizeof from);
    random_fill(r, a, sizeof a);
    memcpy(b, a, sizeof a);
    uint8_t x = ours(from, from_len, a, into_len), y = peer(from, from_len, b, into_len);
    if (x == y && memcmp(a, b, sizeof a) == 0)
        return true;
    fprintf(stderr, "points, %zu bytes into %zu: %u and %u\n", from_len, into_len, x, y);
    return false;
}

/* Every length of a block, and two lengths that differ by one or two. */
static bool points(struct random *r, points_call *ours, points_call *peer)
{
    for (size_t len = 0; len + 2 <= MOST_POINTS; len++)
        for (size_t more = 0; more <= 2; more++)
            if (!same_points(r, ours, peer, len, len + more) || !same_points(r, ours, peer, len + more, len))
                return false;
    return true;
}

bool peers_agree(uint64_t seed)
{
    struct random r = {seed};
    for (size_t i = 0; i < sizeof shapes / sizeof shapes[0]; i++) {
        if (!histories(&r, shapes[i], run_peer) || !histories(&r, shapes[i], run_at_will))
            return false;
        if (shapes[i].block_len % 32 == 0 && !histories(&r, shapes[i], run_isal))
            return false;
    }
    return layouts(&r) && points(&r, pbm_points_pack, peer_points_pack) &&
           points(&r, pbm_points_unpack, peer_points_unpack);
}
