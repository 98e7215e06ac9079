/* The cost of a growth in blocks, counted on growths that the library makes, one move at a time. Prints a Markdown table. */
#include <stdio.h>
#include <stdlib.h>

#include "pbm.h"
#include "random.h"
#include "stage.h"

enum { BLOCK = 16, MAX_IMAGES = 32 * 512 * BLOCK };

struct growth {
    uint32_t n, m, stripes;
    uint8_t record[PBM_RECORD_LEN];
    uint8_t images[MAX_IMAGES], before[MAX_IMAGES];
    size_t read, written, zeroed, zeroed_new; /* places */
};

static size_t length(const struct growth *g, uint32_t disks) { return (size_t)disks * g->stripes * BLOCK; }

static bool is_zero(const uint8_t *place)
{
    static const uint8_t zeroes[BLOCK];
    return memcmp(place, zeroes, BLOCK) == 0;
}

/* Was this what stood on some place? Contents are random and long enough to tell places apart. */
static bool stood_before(const struct growth *g, const uint8_t *place)
{
    for (size_t at = 0; at < length(g, g->n + g->m); at += BLOCK)
        if (memcmp(g->before + at, place, BLOCK) == 0)
            return true;
    return false;
}

/* Against the images of before the last call: each place that changed was zeroed, or took a block that was read. */
static void count(struct growth *g, size_t *zeroed)
{
    for (size_t at = 0; at < length(g, g->n + g->m); at += BLOCK) {
        if (memcmp(g->images + at, g->before + at, BLOCK) == 0)
            continue;
        if (is_zero(g->images + at)) {
            ++*zeroed;
        } else {
            must(stood_before(g, g->images + at), "a place took what stood nowhere");
            g->written++;
            g->read++;
        }
    }
    memcpy(g->before, g->images, sizeof g->before);
}

static void grow(struct growth *g, uint64_t seed)
{
    struct random r = {seed};
    uint8_t block[BLOCK];
    uint64_t made = 1;
    must(pbm_format(g->record, PBM_RECORD_LEN, g->images, length(g, g->n), g->n, BLOCK, g->stripes) == 0, "format");
    for (uint64_t b = 0; b < (uint64_t)g->stripes * (g->n - 1); b++) {
        random_fill(&r, block, BLOCK);
        must(pbm_write(g->record, PBM_RECORD_LEN, g->images, length(g, g->n), b, block, BLOCK) == 0, "write");
    }
    memset(g->images + length(g, g->n), 1, length(g, g->m)); /* not zero yet, so that zeroing shows */
    memcpy(g->before, g->images, sizeof g->before);
    must(pbm_grow(g->record, PBM_RECORD_LEN, g->images, length(g, g->n + g->m), g->m) == 0, "grow");
    count(g, &g->zeroed_new);
    while (pbm_advance(g->record, PBM_RECORD_LEN, g->images, length(g, g->n + g->m), 1, &made) == 0)
        count(g, &g->zeroed);
}

static void print_row(const struct growth *g)
{
    double t = g->stripes;
    double read = (double)g->read / t, written = (double)g->written / t;
    double left = (double)g->zeroed / t, added = (double)g->zeroed_new / t;
    printf("| %u + %u | %u | %.3f T | %.3f T | %.3f T | %.3f T | %u T | %u T |\n", g->n, g->m, g->stripes, read, written,
           written + left, written + left + added, g->n, g->n + g->m);
}

int main(void)
{
    /* n, m, T: whole groups; whole ones and a tail; no whole one */
    static const uint32_t shapes[6][3] = {{3, 2, 15}, {5, 3, 40}, {16, 16, 512}, {4, 1, 20}, {5, 3, 61}, {4, 1, 19}};
    static struct growth g;
    printf("| shape | T | read | written | and the places left zeroed | and the new disks zeroed | reshape: read "
           "| reshape: written |\n");
    printf("|---|--:|--:|--:|--:|--:|--:|--:|\n");
    for (size_t i = 0; i < sizeof shapes / sizeof shapes[0]; i++) {
        memset(&g, 0, sizeof g);
        g.n = shapes[i][0];
        g.m = shapes[i][1];
        g.stripes = shapes[i][2];
        grow(&g, 1 + i);
        print_row(&g);
    }
    return 0;
}
