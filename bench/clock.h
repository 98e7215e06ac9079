/* The processor time of this thread, in nanoseconds: what other processes take of a shared machine is not in it. */
#ifndef BENCH_CLOCK_H
#define BENCH_CLOCK_H

#include <stdint.h>

uint64_t now_ns(void);

#endif
