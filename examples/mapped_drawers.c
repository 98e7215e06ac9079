/*
 * mapped_drawers.c - drawers that are files of their own, lent to the library as one slice.
 *
 *     mapped_drawers [folder]
 *
 * A range of addresses is reserved, and each file is mapped to its place in it, one after the other. This needs the length of
 * a drawer, T * B, to be a multiple of the page size. Three drawers become five; one of them is taken out and replaced.
 * The files drawer-0 to drawer-4 are made in the folder, where there may be none yet, and removed at the end. If no folder is
 * given, a new one is made below the current one. An error says which file it is about, and why.
 * Where record and images are to outlive the program the record is kept in a file too, which is not shown here.
 */
#define _DEFAULT_SOURCE
#include "pbm.h"

#include <errno.h>
#include <fcntl.h>
#include <stdio.h>
#include <stdlib.h>
#include <string.h>
#include <sys/mman.h>
#include <unistd.h>

enum { OLD = 3, NEW = 2, BLOCK = 512, STRIPES = 128 }; /* 128 * 512 is a multiple of 4096 */

static const char *folder;
static uint8_t record[PBM_RECORD_LEN], *images;
static const uint64_t drawer = (uint64_t)STRIPES * BLOCK;

/* Ends the program, unless it is so. */
static void must(const char *what, int is_so)
{
    if (is_so) return;
    fprintf(stderr, "mapped_drawers: %s\n", what);
    exit(1);
}

/* The same of a call of the system on a file: says which file, and why. */
static void must_on(const char *path, const char *what, int is_so)
{
    if (is_so) return;
    fprintf(stderr, "mapped_drawers: %s: %s: %s\n", path, what, strerror(errno));
    exit(1);
}

/* The same of a call of the library, by the number that it returned. */
static void must_do(const char *call, uint8_t number)
{
    if (number == PBM_DONE) return;
    fprintf(stderr, "mapped_drawers: %s is refused: %u %s\n", call, number, pbm_word(number));
    exit(1);
}

static const char *path(int d)
{
    static char text[4096];
    must("the folder's name is too long", snprintf(text, sizeof text, "%s/drawer-%d", folder, d) < (int)sizeof text);
    return text;
}

/* The images of a call on the array as it now is. */
static uint64_t images_len(void) { return pbm_images_len_by(record, 0); }

/* ---- one slice from many files */

/* Addresses for so many drawers: no memory is there yet, and no access. */
static uint8_t *reserve(int drawers)
{
    void *range = mmap(NULL, drawers * drawer, PROT_NONE, MAP_PRIVATE | MAP_ANONYMOUS | MAP_NORESERVE, -1, 0);
    must_on(folder, "no addresses are left for its drawers", range != MAP_FAILED);
    return range;
}

/* A new file for drawer d, mapped to its place. What it holds at first is of no matter to the library. */
static void insert(int d)
{
    const char *name = path(d);
    int file = open(name, O_RDWR | O_CREAT | O_EXCL, 0600);
    must_on(name, "cannot be made", file >= 0);
    must_on(name, "cannot be made as long as a drawer", ftruncate(file, (off_t)drawer) == 0);
    void *at = mmap(images + d * drawer, drawer, PROT_READ | PROT_WRITE, MAP_SHARED | MAP_FIXED, file, 0);
    must_on(name, "cannot be mapped", at != MAP_FAILED);
    close(file);
}

/* Drawer d is pulled: its addresses stay reserved, so that no other memory of the program comes to stand there. */
static void pull(int d)
{
    const char *name = path(d);
    void *at = mmap(images + d * drawer, drawer, PROT_NONE, MAP_PRIVATE | MAP_ANONYMOUS | MAP_NORESERVE | MAP_FIXED, -1, 0);
    must_on(name, "cannot be unmapped", at != MAP_FAILED);
    must_on(name, "cannot be removed", unlink(name) == 0);
}

/* ---- blocks: other bytes in each, and each time */

static int times;
static void fill(uint8_t *block, int number) { memset(block, number + 7 * times, BLOCK); }

static void write_blocks(int blocks)
{
    uint8_t block[BLOCK];
    times++;
    for (int b = 0; b < blocks; b++) {
        fill(block, b);
        must_do("write", pbm_write(record, sizeof record, images, images_len(), b, block, BLOCK));
    }
}

static void read_blocks(int blocks, const char *when)
{
    uint8_t block[BLOCK], wanted[BLOCK];
    for (int b = 0; b < blocks; b++) {
        fill(wanted, b);
        must_do("read", pbm_read(record, sizeof record, images, images_len(), b, block, BLOCK));
        must("a block is not as it was written", memcmp(block, wanted, BLOCK) == 0);
    }
    printf("%s: %d blocks are as written\n", when, blocks);
}

int main(int argc, char **argv)
{
    char made[] = "drawers-XXXXXX";
    int blocks = STRIPES * (OLD - 1);
    uint64_t moves, stripes;
    must("libpbm.a and pbm.h are of two versions", pbm_version() == PBM_VERSION);
    folder = argc > 1 ? argv[1] : mkdtemp(made);
    must_on(made, "a folder of such a name cannot be made", folder != NULL);
    must("a drawer is no whole number of pages", drawer % (uint64_t)sysconf(_SC_PAGESIZE) == 0);

    images = reserve(OLD + NEW);
    for (int d = 0; d < OLD; d++) insert(d);
    must_do("format", pbm_format(record, sizeof record, images, pbm_images_len(OLD, BLOCK, STRIPES), OLD, BLOCK, STRIPES));
    write_blocks(blocks);
    read_blocks(blocks, "3 drawers");

    for (int d = OLD; d < OLD + NEW; d++) insert(d); /* after the others: the slice gets longer, nothing is copied */
    must_do("grow", pbm_grow(record, sizeof record, images, pbm_images_len_by(record, NEW), NEW));
    must_do("advance", pbm_advance(record, sizeof record, images, images_len(), 50, &moves));
    read_blocks(blocks, "5 drawers, 50 moves made");

    must_do("out", pbm_out(record, sizeof record, 1)); /* first the word, then the deed */
    pull(1);
    read_blocks(blocks, "drawer 1 pulled");
    write_blocks(blocks); /* those of drawer 1 too */
    read_blocks(blocks, "all written anew");

    insert(1);
    must_do("begin", pbm_begin(record, sizeof record, images, images_len(), 1));
    must_do("continue", pbm_continue(record, sizeof record, images, images_len(), STRIPES / 2, &stripes));
    read_blocks(blocks, "drawer 1 replaced, half of it rebuilt");
    must_do("continue", pbm_continue(record, sizeof record, images, images_len(), UINT64_MAX, &stripes));
    must_do("advance", pbm_advance(record, sizeof record, images, images_len(), UINT64_MAX, &moves));
    read_blocks(blocks, "drawer 1 rebuilt, the growth over");

    for (int d = 0; d < OLD + NEW; d++) unlink(path(d));
    if (argc == 1) rmdir(folder);
    return 0;
}
