/* One array on which a set of cases is played: its images before growth and in the middle of it, its records, its lists. */
#ifndef BENCH_STAGE_H
#define BENCH_STAGE_H

#include <stdbool.h>
#include <stddef.h>
#include <stdint.h>

#include "pbm.h"
#include "random.h"

struct plan {
    uint32_t n, m, block_len;
    size_t images_len; /* wished for: the array has as many whole groups as fit it, or one */
    bool in_cache;
    uint32_t groups; /* so many, whatever was wished for; 0: by the wish; NO_GROUP: none, and nothing moves */
    uint32_t tail;   /* stripes after the whole groups */
};

/* Numbers in random order: blocks, or places as 32 * S + d. */
struct list {
    uint32_t *items;
    size_t count;
};

/* The few stripes of a big array that are visited in cache. */
struct visited {
    uint32_t stripes[64], count;
};

struct stage {
    struct plan plan;
    uint32_t disks, stripes, total;
    uint8_t *home;   /* n disks, before growth */
    uint8_t *images; /* n + m disks */
    uint8_t *spare;  /* n + m disks, for the restripe */
    size_t home_len, images_len;
    /* records, none across two lines of the cache; in `degraded` OUT_DISK is out, in `rebuilding` half of it is rebuilt */
    _Alignas(32) uint8_t formatted[PBM_RECORD_LEN];
    _Alignas(32) uint8_t half[PBM_RECORD_LEN];
    _Alignas(32) uint8_t grown[PBM_RECORD_LEN];
    _Alignas(32) uint8_t degraded[PBM_RECORD_LEN];
    _Alignas(32) uint8_t rebuilding[PBM_RECORD_LEN];
    _Alignas(32) uint8_t record[PBM_RECORD_LEN]; /* the one lent in the case that is played */
    uint8_t *into, *data; /* one block; DATA_BLOCKS blocks */
    bool few_stripes; /* the images are above the wish: only these stripes are visited, which are about it */
    struct visited visited;
    struct random random;
};

enum { OUT_DISK = 1, DATA_BLOCKS = 16 };

static const uint32_t NO_GROUP = UINT32_MAX;

void stage_open(struct stage *s, struct plan plan, uint64_t seed);
void stage_close(struct stage *s);

/* The images as they are in the middle of the growth, which is inside a zone; as they are once all moves are made. */
void stage_half(struct stage *s);
void stage_grown(struct stage *s);

/* What goes with the record that is lent: the images of n disks, if it is of before growth, or of n + m. */
struct lent_images {
    const uint8_t *bytes;
    size_t len;
    uint32_t disks;
};

struct lent_images stage_lent(const struct stage *s);

/* Rebuilds OUT_DISK to its end, from the record that is lent, in which it is out or being rebuilt. */
void stage_rebuild(struct stage *s);

uint32_t capacity_by(const uint8_t record[PBM_RECORD_LEN]);

struct list list_blocks(struct stage *s);      /* all blocks of before the growth */
struct list list_all_blocks(struct stage *s);  /* and the new ones */
struct list list_on_disk_out(struct stage *s); /* those of before the growth that stand on OUT_DISK */
struct list list_parity_out(struct stage *s);  /* those of before the growth whose parity stands on OUT_DISK */
struct list list_rebuilt(struct stage *s);     /* by `rebuilding`: those of before the growth in stripes that are rebuilt */
struct list list_not_rebuilt(struct stage *s); /* and in others, those that stand on OUT_DISK */
struct list list_some_blocks(struct stage *s, uint32_t first, uint32_t end);
struct list list_some_places(struct stage *s, uint32_t disks);
/* The number of the place on which each block stands: d * T + S. */
struct list list_place_numbers(const struct stage *s, struct list blocks);

/* Ends the run if what must hold does not. */
void must(bool holds, const char *what);

#endif
