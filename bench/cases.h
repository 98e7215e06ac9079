/* The cases: which calls, on which record, against whom. */
#ifndef BENCH_CASES_H
#define BENCH_CASES_H

#include "series.h"

/* Plays every case on one array, and adds their rows. */
void cases_run(struct stage *s, struct settings set, struct report *report);

/*
 * Plays the cases that a tail can matter to, on an array of whole groups and on the same with a tail after them, in turn: two
 * rows each. Those that reach blocks; those that read the record alone, to which the length of a block is all the same.
 */
void cases_beside(struct stage *whole, struct stage *tailed, struct settings set, struct report *report);
void cases_asking_beside(struct stage *whole, struct stage *tailed, struct settings set, struct report *report);

/* The points of the blocks: no record is lent, and the images are no more than many blocks one after the other. */
void cases_points(struct stage *s, struct settings set, struct report *report);

/* The sweeps of an array with no whole group, which is grown at once and never in the middle of a growth. */
void cases_sweep(struct stage *s, struct settings set, struct report *report);

/* What stands for view, on an array of short blocks. */
void cases_view(struct stage *s, struct settings set, struct report *report);

#endif
