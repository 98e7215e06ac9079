/*
 * How much stack each call takes, of the 16 KiB that pbm.h speaks of: each is run twice on a stack of just that size, with a
 * protected page below it, and what was touched of it is told, for the first run and for the second. The first run of a
 * process is also that in which the dynamic linker looks up memcpy, memmove and memset; so each call has a process.
 */
#define _GNU_SOURCE
#include "pbm.h"

#include <stdio.h>
#include <stdlib.h>
#include <sys/mman.h>
#include <sys/wait.h>
#include <ucontext.h>
#include <unistd.h>

/* 16 + 16 disks of one group: the longest blocks but one byte, so that sums have a rest. Zeroes are a formatted array. */
enum { STACK = 16384, PAGE = 4096, OLD = 16, NEW = 16, BLOCK = 4095, STRIPES = OLD * (OLD + NEW), PAINT = 0xA5 };

static uint8_t record[PBM_RECORD_LEN], *images, *stack, block[BLOCK];
static uint64_t images_len, numbers[6];
static ucontext_t caller, callee;
static uint8_t answer;

static uint8_t *map(size_t len)
{
    void *bytes = mmap(NULL, len, PROT_READ | PROT_WRITE, MAP_PRIVATE | MAP_ANONYMOUS | MAP_NORESERVE, -1, 0);
    if (bytes == MAP_FAILED) exit(1);
    return (uint8_t *)bytes;
}

/* n, m, health, the disk that is out */
static void set(int n, int m, int health, int out)
{
    record[PBM_AT_N] = (uint8_t)n, record[PBM_AT_M] = (uint8_t)m;
    record[PBM_AT_HEALTH] = (uint8_t)health, record[PBM_AT_OUT] = (uint8_t)out;
    record[PBM_AT_REBUILT] = record[PBM_AT_REBUILT + 1] = 0;
    record[PBM_AT_BLOCK_LEN] = BLOCK & 255, record[PBM_AT_BLOCK_LEN + 1] = BLOCK >> 8;
    record[PBM_AT_STRIPES] = STRIPES & 255, record[PBM_AT_STRIPES + 1] = STRIPES >> 8;
    images_len = pbm_images_len_by(record, 0);
}

/* n + m, the disk that is being rebuilt, its stripes done */
static void set_rebuilding(int disk, int done) { set(OLD, NEW, PBM_HEALTH_REBUILDING, disk); record[PBM_AT_REBUILT] = (uint8_t)done; }

/* Each sets the array that it wants, and calls. Block 0 of the array stands on disk 15, the parity of its stripe on disk 0. */
static void format(void) { set(OLD, 0, 0, 0); answer = pbm_format(record, sizeof record, images, images_len, OLD, BLOCK, STRIPES); }
static void read_whole(void) { set(OLD, NEW, 0, 0); answer = pbm_read(record, sizeof record, images, images_len, 0, block, BLOCK); }
static void read_out(void) { set(OLD, NEW, 1, 15); answer = pbm_read(record, sizeof record, images, images_len, 0, block, BLOCK); }
static void write_whole(void) { set(OLD, NEW, 0, 0); answer = pbm_write(record, sizeof record, images, images_len, 0, block, BLOCK); }
static void write_out(void) { set(OLD, NEW, 1, 15); answer = pbm_write(record, sizeof record, images, images_len, 0, block, BLOCK); }
static void write_parity_out(void) { set(OLD, NEW, 1, 0); answer = pbm_write(record, sizeof record, images, images_len, 0, block, BLOCK); }
static void grow(void) { set(OLD, 0, 0, 0); answer = pbm_grow(record, sizeof record, images, pbm_images_len_by(record, NEW), NEW); }
static void advance(void) { set(OLD, NEW, 0, 0); answer = pbm_advance(record, sizeof record, images, images_len, 500, numbers); }
static void out(void) { set(OLD, NEW, 0, 0); answer = pbm_out(record, sizeof record, 31); }
static void begin(void) { set(OLD, NEW, 1, 15); answer = pbm_begin(record, sizeof record, images, images_len, 15); }
static void continue_all(void) { set_rebuilding(15, 0); answer = pbm_continue(record, sizeof record, images, images_len, STRIPES, numbers); }
static void continue_part(void) { set_rebuilding(15, 7); answer = pbm_continue(record, sizeof record, images, images_len, 300, numbers); }
static void read_done(void) { set_rebuilding(15, 1); answer = pbm_read(record, sizeof record, images, images_len, 0, block, BLOCK); }
static void read_undone(void) { set_rebuilding(15, 0); answer = pbm_read(record, sizeof record, images, images_len, 0, block, BLOCK); }
static void write_done(void) { set_rebuilding(15, 1); answer = pbm_write(record, sizeof record, images, images_len, 0, block, BLOCK); }
static void write_undone(void) { set_rebuilding(15, 0); answer = pbm_write(record, sizeof record, images, images_len, 0, block, BLOCK); }
static void status(void)
{
    uint64_t *x = numbers;
    set(OLD, NEW, 0, 0);
    answer = pbm_status(record, sizeof record, x, x + 1, x + 2, x + 3, x + 4, x + 5);
}
static void locate(void)
{
    uint64_t *x = numbers;
    set(OLD, NEW, 0, 0);
    answer = pbm_locate(record, sizeof record, 7, x, x + 1, x + 2, x + 3);
}
static void owner(void) { set(OLD, NEW, 0, 0); answer = pbm_owner(record, sizeof record, 7, 3, numbers, numbers + 1); }

/* 256 moves: zone 0 is finished. Its last new block, and the place of it. */
enum { NEWEST = STRIPES * (OLD - 1) + (OLD + NEW) * NEW - 1 };
static void set_zone(void) { set(OLD, NEW, 0, 0); record[PBM_AT_MOVES + 1] = 1; }
static void read_new(void) { set_zone(); answer = pbm_read(record, sizeof record, images, images_len, NEWEST, block, BLOCK); }
static void write_new(void) { set_zone(); answer = pbm_write(record, sizeof record, images, images_len, NEWEST, block, BLOCK); }
static void locate_new(void)
{
    uint64_t *x = numbers;
    set_zone();
    answer = pbm_locate(record, sizeof record, NEWEST, x, x + 1, x + 2, x + 3);
}
static void owner_new(void)
{
    locate_new();
    answer = pbm_owner(record, sizeof record, numbers[0], numbers[1], numbers + 2, numbers + 3);
    if (numbers[2] != PBM_DATA || numbers[3] != NEWEST) exit(3);
}

/* Over all stripes: zone 0 is finished, zone 1 begun; and before the growth. Up to the last stripe, whose last place is a blank. */
static void sweep_by(uint64_t found)
{
    answer = pbm_sweep(record, sizeof record, images, images_len, numbers, numbers + 1, numbers + 2);
    if (numbers[0] != found || numbers[1] != found * (STRIPES - 1) || numbers[2] != STRIPES) exit(3);
}
static void sweep_whole(void) { set_zone(); record[PBM_AT_MOVES] = 7; sweep_by(0); }
static void sweep_home(void) { set(OLD, 0, 0, 0); record[PBM_AT_MOVES] = record[PBM_AT_MOVES + 1] = 0; sweep_by(0); }
static void sweep_unsound(void) { sweep_whole(); images[images_len - 1] = 1; sweep_by(1); images[images_len - 1] = 0; }

/* 2047 points, zero, so that lanes of 16 have a rest. */
static void points_pack(void) { answer = pbm_points_pack(images, BLOCK - 1, block, BLOCK - 1); }
static void points_unpack(void) { answer = pbm_points_unpack(images, BLOCK - 1, block, BLOCK - 1); }

/* The bytes of the stack that one run touches. */
static int depth(void (*call)(void))
{
    int untouched = 0, i;
    answer = 255;
    for (i = 0; i < STACK; i++) ((volatile uint8_t *)stack)[i] = PAINT;
    getcontext(&callee);
    callee.uc_stack.ss_sp = stack;
    callee.uc_stack.ss_size = STACK;
    callee.uc_link = &caller;
    makecontext(&callee, call, 0);
    swapcontext(&caller, &callee);
    if (answer != PBM_DONE) exit(2);
    while (untouched < STACK && stack[untouched] == PAINT) untouched++;
    return STACK - untouched;
}

static void tell(const char *name, void (*call)(void))
{
    int how;
    pid_t child;
    fflush(stdout);
    child = fork();
    if (child == 0) {
        int first = depth(call), second = depth(call);
        printf("%s: %d, then %d\n", name, first, second);
        fflush(stdout);
        _exit(0);
    }
    if (child < 0 || waitpid(child, &how, 0) != child || how != 0) {
        printf("%s: not with %d bytes of stack\n", name, STACK);
        exit(1);
    }
}

int main(void)
{
    images = map((size_t)(OLD + NEW) * STRIPES * BLOCK);
    stack = map(STACK + PAGE) + PAGE;
    if (mprotect(stack - PAGE, PAGE, PROT_NONE) != 0) return 1;
    tell("format", format);
    tell("read", read_whole);
    tell("read, its disk out", read_out);
    tell("write", write_whole);
    tell("write, its disk out", write_out);
    tell("write, its parity's disk out", write_parity_out);
    tell("grow", grow);
    tell("advance", advance);
    tell("out", out);
    tell("begin", begin);
    tell("continue", continue_all);
    tell("continue, a part", continue_part);
    tell("read, its stripe rebuilt", read_done);
    tell("read, its stripe not rebuilt", read_undone);
    tell("write, its stripe rebuilt", write_done);
    tell("write, its stripe not rebuilt", write_undone);
    tell("status", status);
    tell("locate", locate);
    tell("owner", owner);
    tell("read, a new block", read_new);
    tell("write, a new block", write_new);
    tell("locate, a new block", locate_new);
    tell("owner, a new block", owner_new);
    tell("sweep", sweep_whole);
    tell("sweep, before a growth", sweep_home);
    tell("sweep, an unsound stripe", sweep_unsound);
    tell("points pack", points_pack);
    tell("points unpack", points_unpack);
    return 0;
}
