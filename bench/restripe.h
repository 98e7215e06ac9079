/* A conventional growth: every block to its place in the layout of n + m disks, every parity anew. */
#ifndef BENCH_RESTRIPE_H
#define BENCH_RESTRIPE_H

#include <stdbool.h>
#include <stddef.h>
#include <stdint.h>

struct restripe {
    const uint8_t *from; /* n disks, before growth */
    uint8_t *to;         /* n + m disks, all written: the same bytes, or apart */
    uint8_t *stripe;     /* room for one stripe, through which each one goes where `to` is `from`; else NULL */
    size_t n, m, block_len, stripes;
};

/* Blocks begin at a multiple of 32 bytes, for ISA-L. */
void restripe(const struct restripe *r);

/* Does every block of the n disks of before stand in its place, and every parity hold? */
bool restripe_is_right(const struct restripe *r, const uint8_t *before);

#endif
