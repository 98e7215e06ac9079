/* The turns of the cases: the calls of one contestant, timed. */
#ifndef BENCH_TURNS_H
#define BENCH_TURNS_H

#include "restripe.h"
#include "series.h"

turn reads, views, writes, rebuilds, growths, locates, owners, sweeps, packs;

/* memcpy alone, from the same places; xor_check of every stripe of what is lent; the conventional restripe. */
turn copies, checks, restripes;

struct restripe restripe_of(const struct stage *s, bool in_place);

#endif
