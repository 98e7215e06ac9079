/* The turns: each makes its calls in one loop; what the calls answer goes to a volatile sink. */
#include "turns.h"

#include "clock.h"
#include "isal.h"

static volatile uint64_t sink;

/* A refused call would be a fast one. */
static uint64_t since(uint64_t start, uint8_t refused, uint64_t seen)
{
    uint64_t ns = now_ns() - start;
    must(refused == 0, "a timed call was refused");
    sink += seen;
    return ns;
}

static const uint8_t *record_for(const struct contestant *c, const struct stage *s) { return c->record ? c->record : s->record; }

uint64_t reads(struct stage *s, const struct contestant *c, const uint32_t *items, size_t count)
{
    const uint8_t *record = record_for(c, s);
    uint8_t refused = 0;
    uint64_t seen = 0, start = now_ns();
    for (size_t i = 0; i < count; i++) {
        refused |= c->read(record, PBM_RECORD_LEN, s->images, s->images_len, items[i], s->into, s->plan.block_len);
        seen += s->into[0];
    }
    return since(start, refused, seen);
}

uint64_t copies(struct stage *s, const struct contestant *c, const uint32_t *items, size_t count)
{
    (void)c;
    size_t len = s->plan.block_len;
    uint64_t seen = 0, start = now_ns();
    for (size_t i = 0; i < count; i++) {
        memcpy(s->into, s->images + items[i] * len, len);
        seen += s->into[0];
    }
    return since(start, 0, seen);
}

uint64_t writes(struct stage *s, const struct contestant *c, const uint32_t *items, size_t count)
{
    const uint8_t *record = record_for(c, s);
    uint8_t refused = 0;
    uint64_t start = now_ns();
    for (size_t i = 0; i < count; i++) {
        const uint8_t *data = s->data + i % DATA_BLOCKS * s->plan.block_len;
        refused |= c->write(record, PBM_RECORD_LEN, s->images, s->images_len, items[i], data, s->plan.block_len);
    }
    return since(start, refused, s->images[items[0]]);
}

/* Makes so many moves or stripes, some a call. */
static uint8_t step_through(struct stage *s, const struct contestant *c, uint8_t *record, uint32_t all, uint32_t some)
{
    uint8_t refused = 0;
    uint64_t made = 1;
    for (uint32_t left = all; left > 0 && refused == 0; left -= (uint32_t)made)
        refused |= c->step(record, PBM_RECORD_LEN, s->images, s->images_len, some, &made);
    return refused;
}

/* A whole rebuild. An item is the stripes of one continue. */
uint64_t rebuilds(struct stage *s, const struct contestant *c, const uint32_t *items, size_t count)
{
    uint8_t refused = 0;
    uint64_t start = now_ns();
    for (size_t i = 0; i < count; i++) {
        uint8_t record[PBM_RECORD_LEN];
        memcpy(record, s->record, PBM_RECORD_LEN);
        refused |= c->begin(record, PBM_RECORD_LEN, s->images, s->images_len, OUT_DISK);
        refused |= step_through(s, c, record, s->stripes, items[i]);
    }
    return since(start, refused, s->images[0]);
}

uint64_t checks(struct stage *s, const struct contestant *c, const uint32_t *items, size_t count)
{
    (void)c, (void)items;
    struct lent_images lent = stage_lent(s);
    bool held = true;
    uint64_t start = now_ns();
    for (size_t i = 0; i < count; i++)
        held &= isal_check(lent.bytes, lent.disks, s->stripes, s->plan.block_len);
    return since(start, !held, 0);
}

/* A sweep that stopped would be a fast one too. */
uint64_t sweeps(struct stage *s, const struct contestant *c, const uint32_t *items, size_t count)
{
    (void)items;
    struct lent_images lent = stage_lent(s);
    uint8_t refused = 0;
    uint64_t unsound = 0, seen = 0, start = now_ns();
    for (size_t i = 0; i < count; i++) {
        uint64_t found, stripe, read;
        refused |= c->sweep(s->record, PBM_RECORD_LEN, lent.bytes, lent.len, &found, &stripe, &read);
        unsound |= found;
        seen += read;
    }
    uint64_t ns = since(start, refused, seen);
    must(!unsound, "a sweep stopped");
    return ns;
}

/* A whole growth, from the images of before, which are put back first and not timed. An item is the moves of one advance. */
uint64_t growths(struct stage *s, const struct contestant *c, const uint32_t *items, size_t count)
{
    uint64_t ns = 0;
    for (size_t i = 0; i < count; i++) {
        memcpy(s->images, s->home, s->home_len);
        memcpy(s->record, s->formatted, PBM_RECORD_LEN);
        uint64_t start = now_ns();
        uint8_t refused = c->grow(s->record, PBM_RECORD_LEN, s->images, s->images_len, s->plan.m);
        refused |= step_through(s, c, s->record, s->total, items[i]);
        ns += since(start, refused, s->images[0]);
    }
    return ns;
}

struct restripe restripe_of(const struct stage *s, bool in_place)
{
    return (struct restripe){in_place ? s->images : s->home, in_place ? s->images : s->spare, in_place ? s->spare : NULL,
                             s->plan.n, s->plan.m, s->plan.block_len, s->stripes};
}

/* From the images of before, which are put back first and not timed. */
uint64_t restripes(struct stage *s, const struct contestant *c, const uint32_t *items, size_t count)
{
    (void)items;
    struct restripe r = restripe_of(s, c->in_place);
    uint64_t ns = 0;
    for (size_t i = 0; i < count; i++) {
        memcpy(s->images, s->home, s->home_len);
        uint64_t start = now_ns();
        restripe(&r);
        ns += since(start, 0, r.to[0]);
    }
    return ns;
}

uint64_t views(struct stage *s, const struct contestant *c, const uint32_t *items, size_t count)
{
    uint8_t refused = 0;
    uint64_t seen = 0, start = now_ns();
    for (size_t i = 0; i < count; i++) {
        const uint8_t *view;
        refused |= c->view(s->record, PBM_RECORD_LEN, s->images, s->images_len, items[i], s->into, s->plan.block_len, &view);
        seen += view[0];
    }
    return since(start, refused, seen);
}

uint64_t locates(struct stage *s, const struct contestant *c, const uint32_t *items, size_t count)
{
    uint8_t refused = 0;
    uint64_t seen = 0, start = now_ns();
    for (size_t i = 0; i < count; i++) {
        uint64_t stripe, disk, parity, moved;
        refused |= c->locate(s->record, PBM_RECORD_LEN, items[i], &stripe, &disk, &parity, &moved);
        seen += stripe + disk + parity + moved;
    }
    return since(start, refused, seen);
}

uint64_t owners(struct stage *s, const struct contestant *c, const uint32_t *items, size_t count)
{
    uint8_t refused = 0;
    uint64_t seen = 0, start = now_ns();
    for (size_t i = 0; i < count; i++) {
        uint64_t role, block;
        refused |= c->owner(s->record, PBM_RECORD_LEN, items[i] / 32, items[i] % 32, &role, &block);
        seen += role + block;
    }
    return since(start, refused, seen);
}

/* Packs or unpacks what stands on a place, whatever it is: every even length is points, and packed points. */
uint64_t packs(struct stage *s, const struct contestant *c, const uint32_t *items, size_t count)
{
    size_t len = s->plan.block_len;
    uint8_t refused = 0;
    uint64_t seen = 0, start = now_ns();
    for (size_t i = 0; i < count; i++) {
        refused |= c->points(s->images + items[i] * len, len, s->into, len);
        seen += s->into[0];
    }
    return since(start, refused, seen);
}
