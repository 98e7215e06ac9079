/*
 * Calls that only read, many at once on one array (pbm.h, rule 4): four threads read every block, sweep and ask all that can be
 * asked, and compare with what was written and with what one thread was told before. Record and images are protected against writing,
 * a disk that is out, and one that is being rebuilt in the stripes not yet done, against all. Of 3 zones one is finished, so that 10
 * new blocks are among those read. Scan points, which are lent to all threads, are packed and unpacked meanwhile.
 */
#define _GNU_SOURCE
#include "pbm.h"

#include <pthread.h>
#include <stdio.h>
#include <stdlib.h>
#include <string.h>
#include <sys/mman.h>

enum { OLD = 3, NEW = 2, DISKS = OLD + NEW, STRIPES = 15, BLOCK = 4096, DISK = STRIPES * BLOCK };
enum { OLD_BLOCKS = STRIPES * (OLD - 1), BLOCKS = OLD_BLOCKS + 10 };
enum { REBUILT = 7, THREADS = 4, TURNS = 20 };

static uint8_t *record, *images, *points;

static uint8_t *map(size_t len)
{
    void *bytes = mmap(NULL, len, PROT_READ | PROT_WRITE, MAP_PRIVATE | MAP_ANONYMOUS, -1, 0);
    if (bytes == MAP_FAILED) exit(1);
    return (uint8_t *)bytes;
}

static void must(int is_so, const char *what)
{
    if (is_so) return;
    printf("not so: %s\n", what);
    exit(1);
}

static void done(uint8_t number) { must(number == PBM_DONE, pbm_word(number)); }

static void fill(uint8_t *block, uint64_t number)
{
    for (int i = 0; i < BLOCK; i++) block[i] = (uint8_t)(number * 37 + i);
}

/* All that status, locate and owner tell, and what a sweep returns and tells. */
struct told { uint64_t status[6], places[BLOCKS][4], owners[STRIPES][DISKS][2], swept[4]; } first;

static void ask(struct told *told)
{
    uint64_t *s = told->status, *x = told->swept;
    done(pbm_status(record, PBM_RECORD_LEN, s, s + 1, s + 2, s + 3, s + 4, s + 5));
    for (int b = 0; b < BLOCKS; b++) {
        uint64_t *p = told->places[b];
        done(pbm_locate(record, PBM_RECORD_LEN, b, p, p + 1, p + 2, p + 3));
    }
    for (int i = 0; i < STRIPES; i++)
        for (int d = 0; d < DISKS; d++)
            done(pbm_owner(record, PBM_RECORD_LEN, i, d, &told->owners[i][d][0], &told->owners[i][d][1]));
    x[0] = pbm_sweep(record, PBM_RECORD_LEN, images, DISKS * DISK, x + 1, x + 2, x + 3);
}

static void *reader(void *from)
{
    static const struct told none;
    struct told told;
    uint8_t into[BLOCK], wanted[BLOCK], packed[BLOCK];
    for (int turn = 0; turn < TURNS; turn++) {
        told = none;
        ask(&told);
        must(memcmp(&told, &first, sizeof told) == 0, "the answers are those of one thread");
        for (int i = 0; i < BLOCKS; i++) {
            uint64_t b = (*(int *)from + i) % BLOCKS;
            done(pbm_read(record, PBM_RECORD_LEN, images, DISKS * DISK, b, into, BLOCK));
            fill(wanted, b);
            must(memcmp(into, wanted, BLOCK) == 0, "a block is as it was written");
        }
        done(pbm_points_pack(points, BLOCK, packed, BLOCK));
        done(pbm_points_unpack(packed, BLOCK, into, BLOCK));
        must(memcmp(into, points, BLOCK) == 0, "points are as they were packed");
    }
    return NULL;
}

static void readers(const char *when)
{
    pthread_t threads[THREADS];
    int from[THREADS], is_whole = record[PBM_AT_HEALTH] == PBM_HEALTH_WHOLE;
    ask(&first);
    must(first.status[0] == BLOCKS, "the capacity");
    must(first.swept[0] == (is_whole ? PBM_DONE : PBM_DEGRADED), "a whole array is swept");
    must(first.swept[1] == 0 && first.swept[2] == 0 && first.swept[3] == (is_whole ? STRIPES : 0), "all its stripes are sound");
    for (int i = 0; i < THREADS; i++) {
        from[i] = i * BLOCKS / THREADS;
        must(pthread_create(&threads[i], NULL, reader, &from[i]) == 0, "a thread starts");
    }
    for (int i = 0; i < THREADS; i++) pthread_join(threads[i], NULL);
    printf("%s: %d readers at once\n", when, THREADS);
}

static void allow(uint8_t *bytes, size_t len, int access) { must(mprotect(bytes, len, access) == 0, "mprotect"); }

static void write_blocks(uint64_t first, uint64_t end, int disks)
{
    uint8_t block[BLOCK];
    for (uint64_t b = first; b < end; b++) {
        fill(block, b);
        done(pbm_write(record, PBM_RECORD_LEN, images, disks * DISK, b, block, BLOCK));
    }
}

/* With disk d of this health: it is protected from this stripe on. */
static void readers_without(const char *when, int health, int d, int first)
{
    uint8_t *absent = images + d * DISK + first * BLOCK;
    allow(record, BLOCK, PROT_READ | PROT_WRITE);
    record[PBM_AT_HEALTH] = (uint8_t)health, record[PBM_AT_OUT] = (uint8_t)d, record[PBM_AT_REBUILT] = (uint8_t)first;
    allow(record, BLOCK, PROT_READ);
    allow(absent, DISK - first * BLOCK, PROT_NONE);
    readers(when);
    allow(absent, DISK - first * BLOCK, PROT_READ);
}

int main(void)
{
    uint64_t made;
    record = map(BLOCK);
    images = map(DISKS * DISK);
    points = map(BLOCK);
    fill(points, 0);
    done(pbm_format(record, PBM_RECORD_LEN, images, OLD * DISK, OLD, BLOCK, STRIPES));
    write_blocks(0, OLD_BLOCKS, OLD);
    done(pbm_grow(record, PBM_RECORD_LEN, images, DISKS * DISK, NEW));
    done(pbm_advance(record, PBM_RECORD_LEN, images, DISKS * DISK, 9, &made));
    write_blocks(OLD_BLOCKS, BLOCKS, DISKS);
    allow(record, BLOCK, PROT_READ);
    allow(images, DISKS * DISK, PROT_READ);
    allow(points, BLOCK, PROT_READ);
    readers("whole, in the middle of a growth");

    for (int d = 0; d < DISKS; d++) {
        readers_without("a disk out", PBM_HEALTH_OUT, d, 0);
        readers_without("a disk being rebuilt", PBM_HEALTH_REBUILDING, d, REBUILT);
    }
    return 0;
}
