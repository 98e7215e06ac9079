/* The conventional restripe, stripe by stripe of the result. */
#include "restripe.h"

#include <isa-l/raid.h>
#include <string.h>

#include "isal.h"

enum { MAX_DISKS = 32 };

/* A data block of a layout before growth, walked in the order of the numbers. */
struct cursor {
    size_t disks, stripe, parity, disk;
};

static struct cursor first_block(size_t disks) { return (struct cursor){disks, 0, 0, disks - 1}; }

/* Down the disks, past the parity; after the last block comes the next stripe. */
static void next_block(struct cursor *c)
{
    size_t last = c->parity == 0 ? 1 : 0;
    if (c->disk == last) {
        c->stripe++;
        c->parity = c->parity + 1 == c->disks ? 0 : c->parity + 1;
        c->disk = c->disks;
    }
    c->disk--;
    if (c->disk == c->parity)
        c->disk--;
}

static size_t offset(const struct restripe *r, size_t stripe, size_t disk)
{
    return (disk * r->stripes + stripe) * r->block_len;
}

/* The next stripe of the result: its blocks, then their parity. What stands on disk d goes to into + d * step. */
static void fill_stripe(const struct restripe *r, struct cursor *from, struct cursor *to, uint8_t *into, size_t step)
{
    void *vectors[MAX_DISKS];
    size_t stripe = to->stripe, parity = to->parity;
    int count = 0;
    for (; to->stripe == stripe; next_block(to)) {
        uint8_t *place = into + to->disk * step;
        if (from->stripe < r->stripes) {
            memcpy(place, r->from + offset(r, from->stripe, from->disk), r->block_len);
            next_block(from);
        } else {
            memset(place, 0, r->block_len);
        }
        vectors[count++] = place;
    }
    vectors[count++] = into + parity * step;
    xor_gen(count, (int)r->block_len, vectors);
}

static void zero_stripes(const struct restripe *r, size_t first)
{
    for (size_t d = 0; d < r->n + r->m; d++)
        memset(r->to + offset(r, first, d), 0, (r->stripes - first) * r->block_len);
}

/* In place no block is overwritten before it is read: those of stripe s are all in the stripes up to s of the result. */
void restripe(const struct restripe *r)
{
    struct cursor from = first_block(r->n), to = first_block(r->n + r->m);
    while (from.stripe < r->stripes) {
        size_t s = to.stripe;
        if (r->stripe == NULL) {
            fill_stripe(r, &from, &to, r->to + offset(r, s, 0), r->stripes * r->block_len);
            continue;
        }
        fill_stripe(r, &from, &to, r->stripe, r->block_len);
        for (size_t d = 0; d < r->n + r->m; d++)
            memcpy(r->to + offset(r, s, d), r->stripe + d * r->block_len, r->block_len);
    }
    zero_stripes(r, to.stripe);
}

/* Where a block stands before growth, by division this time. */
static size_t home(const struct restripe *r, size_t disks, size_t block)
{
    size_t stripe = block / (disks - 1), up = disks - 1 - block % (disks - 1);
    return offset(r, stripe, stripe % disks < up ? up : up - 1);
}

bool restripe_is_right(const struct restripe *r, const uint8_t *before)
{
    for (size_t b = 0; b < r->stripes * (r->n - 1); b++)
        if (memcmp(r->to + home(r, r->n + r->m, b), before + home(r, r->n, b), r->block_len) != 0)
            return false;
    return isal_check(r->to, r->n + r->m, r->stripes, r->block_len);
}
