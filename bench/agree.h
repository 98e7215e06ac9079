/* Do the peers agree with the library, byte for byte? A benchmark against a wrong peer is worth nothing. */
#ifndef BENCH_AGREE_H
#define BENCH_AGREE_H

#include <stdbool.h>
#include <stdint.h>

/* Says on stderr what differs, if anything does. */
bool peers_agree(uint64_t seed);

#endif
