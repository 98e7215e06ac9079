/*
 * profile.h - outlines of logs that never were, as a scanner would give them: for line_controller.c and bench/points.c.
 *
 * A point is the log's radius in tenths of a millimetre; the next point is 2.5 mm further along the log.
 */
#ifndef PROFILE_H
#define PROFILE_H

#include <stddef.h>
#include <stdint.h>

/* A random number below the limit. */
typedef uint64_t profile_random(uint64_t limit);

/* A number from -most to most. */
static inline int profile_either_way(profile_random *below, int most)
{
    return (int)below(2 * (uint64_t)most + 1) - most;
}

enum { PROFILE_KNOT = 60 }; /* its length in points, 15 cm */

/* How far a knot of this height stands out, at the given point of it: not at all at either end. */
static inline int profile_bulge(int height, int at)
{
    return 4 * height * at * (PROFILE_KNOT - at) / (PROFILE_KNOT * PROFILE_KNOT);
}

/*
 * A log of 20 to 50 cm: it tapers by a centimetre a metre, is a little wavy, and has a knot or two a metre. Each point is off by
 * up to so many tenths of a millimetre, for bark and for the scanner.
 */
static inline void profile_scan(uint16_t *points, size_t count, int rough, profile_random *below)
{
    enum { FINE = 256, TAPER = FINE / 8 }; /* parts of a tenth of a millimetre; those lost from point to point */
    int radius = FINE * (1000 + (int)below(1500)), wave = 0, height = 0, knot = 0; /* points of the knot that are left */
    for (size_t i = 0; i < count; i++) {
        wave += profile_either_way(below, 4) - wave / 64;
        radius += wave - TAPER;
        if (knot == 0 && below(250) == 0) knot = PROFILE_KNOT, height = 20 + (int)below(60);
        points[i] = (uint16_t)(radius / FINE + profile_bulge(height, knot) + profile_either_way(below, rough));
        if (knot > 0) knot--;
    }
}

#endif
