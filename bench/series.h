/* Contestants in turn, round by round, each making the same calls; and the report's rows. */
#ifndef BENCH_SERIES_H
#define BENCH_SERIES_H

#include <stddef.h>
#include <stdint.h>

#include "stage.h"

struct contestant;

/* Makes the calls for these items of the contestant's list; returns the time, in ns, of the calls alone. */
typedef uint64_t turn(struct stage *s, const struct contestant *c, const uint32_t *items, size_t count);

typedef uint8_t read_call(const uint8_t *, size_t, const uint8_t *, size_t, uint64_t, uint8_t *, size_t);
typedef uint8_t view_call(const uint8_t *, size_t, const uint8_t *, size_t, uint64_t, uint8_t *, size_t, const uint8_t **);
typedef uint8_t write_call(const uint8_t *, size_t, uint8_t *, size_t, uint64_t, const uint8_t *, size_t);
typedef uint8_t grow_call(uint8_t *, size_t, uint8_t *, size_t, uint64_t);
typedef uint8_t begin_call(uint8_t *, size_t, const uint8_t *, size_t, uint64_t);
typedef uint8_t step_call(uint8_t *, size_t, uint8_t *, size_t, uint64_t, uint64_t *);
typedef uint8_t locate_call(const uint8_t *, size_t, uint64_t, uint64_t *, uint64_t *, uint64_t *, uint64_t *);
typedef uint8_t owner_call(const uint8_t *, size_t, uint64_t, uint64_t, uint64_t *, uint64_t *);
typedef uint8_t sweep_call(const uint8_t *, size_t, const uint8_t *, size_t, uint64_t *, uint64_t *, uint64_t *);
typedef uint8_t points_call(const uint8_t *, size_t, uint8_t *, size_t);

struct contestant {
    const char *name;
    turn *turn;
    struct list list;
    read_call *read;
    view_call *view;
    write_call *write;
    grow_call *grow;
    begin_call *begin;
    step_call *step; /* advance or continue */
    locate_call *locate;
    owner_call *owner;
    sweep_call *sweep;
    points_call *points; /* pack or unpack */
    const uint8_t *record; /* of a read or write: another than the case lends; NULL: that one */
    bool in_place; /* of a restripe: not into a second image */
    double target_out, target_in; /* least ratio at B = 4096, out of cache and in cache; 0: none is set */
    double target_short;          /* at B = 64, out of cache and in cache */
};

/* The first contestant is the library, the others are held against it. */
struct series {
    const char *name;
    struct contestant who[4];
    size_t count;
    double units; /* per item, to give the time of one */
};

struct settings {
    size_t rounds;
    uint64_t turn_ns; /* least length of a turn in cache */
};

struct row {
    const char *call, *peer;
    struct plan plan;
    uint32_t stripes;
    size_t images_len;
    double low, median, high, ns, target;
};

struct report {
    struct row rows[512];
    size_t count;
};

void series_run(const struct series *x, struct stage *s, struct settings set, struct report *report);
void report_print(const struct report *report, bool in_cache);
/* Of cases played on two arrays in turn: either's row in one line. */
void report_print_beside(const struct report *report);

#endif
