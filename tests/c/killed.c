/*
 * What a kill leaves (pbm.h, "A call that is killed"): calls are stopped inside by a page that they may not touch, in a process
 * that shares record and images with this one, and this one looks at what is left. Every place is one page. 15 stripes are a group,
 * two are a tail; every 6 moves finish a zone, which has 10 new blocks.
 */
#define _GNU_SOURCE
#include "pbm.h"

#include <signal.h>
#include <stdio.h>
#include <stdlib.h>
#include <string.h>
#include <sys/mman.h>
#include <sys/wait.h>
#include <unistd.h>

enum { OLD = 3, NEW = 2, DISKS = OLD + NEW, STRIPES = 17, BLOCK = 4096, PLACES = DISKS * STRIPES, MOVES = 18, STOPPED = 9 };

typedef uint8_t array_t[PLACES][BLOCK];

/* shared with the process that is stopped; what they held before; what they are to hold, and one move later */
static uint8_t *record, old_record[PBM_RECORD_LEN], new_record[PBM_RECORD_LEN];
static array_t *images;
static array_t before, wanted, behind;
static uint8_t data[BLOCK];

static void *map(size_t len)
{
    void *bytes = mmap(NULL, len, PROT_READ | PROT_WRITE, MAP_SHARED | MAP_ANONYMOUS, -1, 0);
    if (bytes == MAP_FAILED) exit(1);
    return bytes;
}

static void must(int is_so, const char *what)
{
    if (is_so) return;
    printf("not so: %s\n", what);
    exit(1);
}

static void done(uint8_t number) { must(number == PBM_DONE, pbm_word(number)); }
static size_t len_of(int disks) { return pbm_images_len(disks, BLOCK, STRIPES); }
static int place(uint64_t stripe, uint64_t disk) { return (int)(disk * STRIPES + stripe); }
static void fill(uint64_t seed) { for (int i = 0; i < BLOCK; i++) data[i] = (uint8_t)(1 + (seed * 7 + i) % 255); }

static void format(void) { done(pbm_format(record, PBM_RECORD_LEN, **images, len_of(OLD), OLD, BLOCK, STRIPES)); }
static void grow(void) { done(pbm_grow(record, PBM_RECORD_LEN, **images, len_of(DISKS), NEW)); }

static uint64_t budget;
static void advance(void) { uint64_t made; done(pbm_advance(record, PBM_RECORD_LEN, **images, len_of(DISKS), budget, &made)); }
static void proceed(void) { uint64_t made; done(pbm_continue(record, PBM_RECORD_LEN, **images, len_of(DISKS), budget, &made)); }

static uint64_t number;
static void write_block(void) { done(pbm_write(record, PBM_RECORD_LEN, **images, len_of(DISKS), number, data, BLOCK)); }

static uint64_t capacity(void)
{
    uint64_t blocks, moves, total, health, out, rebuilt;
    done(pbm_status(record, PBM_RECORD_LEN, &blocks, &moves, &total, &health, &out, &rebuilt));
    return blocks;
}

static void fill_from(uint64_t first, int disks)
{
    for (uint64_t b = first; b < capacity(); b++) {
        fill(b);
        done(pbm_write(record, PBM_RECORD_LEN, **images, len_of(disks), b, data, BLOCK));
    }
}

/* An array after so many moves, each block with bytes of its own, none of them 0, the new ones of finished zones too. */
static void prepare(uint64_t moves)
{
    format();
    fill_from(0, OLD);
    grow();
    budget = moves;
    if (moves > 0) advance();
    must(capacity() == STRIPES * (OLD - 1) + moves / 6 * 10, "the capacity");
    fill_from(STRIPES * (OLD - 1), DISKS);
}

static void stop(int signal_number) { (void)signal_number, _exit(STOPPED); }

/* Runs the call until it touches this place, so that access to it is not allowed. The record is the old one then. */
static void stop_at(int p, int access, void (*call)(void))
{
    int how;
    pid_t child;
    memcpy(before, images, sizeof before);
    memcpy(old_record, record, sizeof old_record);
    fflush(stdout);
    child = fork();
    if (child == 0) {
        signal(SIGSEGV, stop);
        if (mprotect((*images)[p], BLOCK, access) == 0) call();
        _exit(0);
    }
    must(child > 0 && waitpid(child, &how, 0) == child && WIFEXITED(how) && WEXITSTATUS(how) == STOPPED, "the call is stopped");
    must(memcmp(record, old_record, sizeof old_record) == 0, "the record is the old one");
}

static int is_as(array_t a, int p) { return memcmp((*images)[p], a[p], BLOCK) == 0; }

/* Does a sweep, by the record left, find a stripe? It is to be the first that has changed. (No byte is stored that was there before.) */
static int sweep_finds_it(void)
{
    uint64_t found, stripe, read, first = STRIPES;
    for (uint64_t p = 0; p < PLACES; p++)
        if (!is_as(before, (int)p) && p % STRIPES < first) first = p % STRIPES;
    done(pbm_sweep(record, PBM_RECORD_LEN, **images, len_of(DISKS), &found, &stripe, &read));
    if (first < STRIPES) must(found == 1 && stripe == first && read == first + 1, "the first stripe that has changed is found");
    else must(found == 0 && stripe == 0 && read == STRIPES, "nothing has changed, and nothing is found");
    return found == 1;
}

/* So many moves, made on a copy. */
static void make_moves(array_t copy, uint64_t moves)
{
    uint64_t made;
    memcpy(copy, images, sizeof before);
    memcpy(new_record, record, sizeof new_record);
    done(pbm_advance(new_record, PBM_RECORD_LEN, *copy, len_of(DISKS), moves, &made));
}

/* An advance by k from t on, stopped in its move j, at the copy or at the zeroes. Is it found to be in doubt? */
static int kill_advance(uint64_t t, uint64_t k, uint64_t j, int at_zeroes)
{
    int from = -1, to = -1, changed = 0;
    prepare(t);
    make_moves(wanted, j);
    make_moves(behind, j + 1);
    for (int p = 0; p < PLACES; p++)
        if (memcmp(wanted[p], behind[p], BLOCK) != 0) *(behind[p][0] == 0 ? &from : &to) = p;
    must(from >= 0 && to >= 0, "the move is found");
    budget = k;
    stop_at(at_zeroes ? from : to, at_zeroes ? PROT_READ : PROT_NONE, advance);
    if (at_zeroes) memcpy(wanted[to], wanted[from], BLOCK);
    for (int p = 0; p < PLACES; p++) {
        must(is_as(wanted, p), "the moves before it are made, and no other place has changed");
        changed += !is_as(before, p);
    }
    must((uint64_t)changed <= 2 * k, "at most two places for each of the k moves");
    return sweep_finds_it();
}

static void kill_advances(void)
{
    int kills = 0, found = 0;
    for (uint64_t t = 0; t < MOVES; t += 5)
        for (uint64_t k = 1; k <= MOVES; k += 4)
            for (uint64_t j = 0; j < k && t + j < MOVES; j++)
                for (int at_zeroes = 0; at_zeroes < 2; at_zeroes++, kills++) found += kill_advance(t, k, j, at_zeroes);
    printf("advance, stopped %d times: the old record, at most k moves in doubt; a sweep finds what has changed, %d times\n", kills, found);
}

/* Stopped at the parity or at the data: no other place has changed. */
static void kill_writes(void)
{
    int kills = 0, found = 0;
    uint64_t blocks = STRIPES * (OLD - 1) + 10; /* after 9 moves */
    for (number = 0; number < blocks; number++)
        for (int at_data = 0; at_data < 2; at_data++, kills++) {
            uint64_t stripe, disk, parity, moved;
            prepare(9);
            done(pbm_locate(record, PBM_RECORD_LEN, number, &stripe, &disk, &parity, &moved));
            fill(number + 100);
            stop_at(place(stripe, at_data ? disk : parity), PROT_READ, write_block);
            for (int p = 0; p < PLACES; p++)
                must(is_as(before, p) || p == place(stripe, disk) || p == place(stripe, parity), "only block and parity have changed");
            found += sweep_finds_it();
        }
    printf("write, stopped %d times: the old record, one block and its parity in doubt; a sweep finds what has changed, %d times\n", kills,
           found);
}

static void read_all(void)
{
    static uint8_t into[BLOCK];
    for (uint64_t b = 0; b < capacity(); b++) {
        fill(b);
        done(pbm_read(record, PBM_RECORD_LEN, **images, len_of(DISKS), b, into, BLOCK));
        must(memcmp(into, data, BLOCK) == 0, "every block is as it was written");
    }
}

/* The rebuild of disk 1, from so many stripes done on. From there the disk holds any bytes. */
static void begin_at(uint64_t stripes)
{
    done(pbm_out(record, PBM_RECORD_LEN, 1));
    done(pbm_begin(record, PBM_RECORD_LEN, **images, len_of(DISKS), 1));
    budget = stripes;
    proceed();
    memset((*images)[place(stripes, 1)], 0xEE, (STRIPES - stripes) * BLOCK);
}

/* A continue by k from so many stripes on, stopped at stripe s. */
static void kill_continue(uint64_t first, uint64_t k, uint64_t s)
{
    uint64_t made;
    prepare(9);
    begin_at(first);
    memcpy(wanted, images, sizeof wanted);
    memcpy(new_record, record, sizeof new_record);
    done(pbm_continue(new_record, PBM_RECORD_LEN, *wanted, len_of(DISKS), k, &made));
    budget = k;
    stop_at(place(s, 1), PROT_NONE, proceed);
    for (int p = 0; p < PLACES; p++)
        must(p >= place(first, 1) && p < place(s, 1) ? is_as(wanted, p) : is_as(before, p), "the stripes before it are made, and no other");
    read_all();
    proceed();
    must(memcmp(record, new_record, sizeof new_record) == 0 && memcmp(images, wanted, sizeof wanted) == 0, "made again it does it all");
    read_all();
}

static void kill_continues(void)
{
    static const uint64_t firsts[] = {0, 5, STRIPES - 1}, budgets[] = {1, 4, STRIPES};
    int kills = 0;
    for (int i = 0; i < 3; i++)
        for (int j = 0; j < 3; j++)
            for (uint64_t s = firsts[i]; s < firsts[i] + budgets[j] && s < STRIPES; s++, kills++) kill_continue(firsts[i], budgets[j], s);
    printf("continue, stopped %d times: the old record, by which every block is read, and right when made again\n", kills);
}

/* Made again after a kill, these leave what they would have left without it. */
static void kill_others(void)
{
    for (int s = 0; s < STRIPES; s++) {
        prepare(0);
        memcpy(wanted, images, sizeof wanted);
        memcpy(new_record, record, sizeof new_record);
        record[PBM_AT_M] = 0; /* as before the growth */
        memset((*images)[place(0, OLD)], 0xEE, NEW * STRIPES * BLOCK);
        stop_at(place(s, OLD + s % NEW), PROT_NONE, grow);
        grow();
        must(memcmp(record, new_record, sizeof new_record) == 0 && memcmp(images, wanted, sizeof wanted) == 0, "the growth has begun");

        stop_at(place(s, s % OLD), PROT_NONE, format);
        format();
        for (int p = 0; p < OLD * STRIPES; p++)
            for (int i = 0; i < BLOCK; i++) must((*images)[p][i] == 0, "the array is formatted");
    }
    printf("grow and format, each stopped %d times: the old record, and right when made again\n", STRIPES);
}

int main(void)
{
    record = map(BLOCK);
    images = map(sizeof *images);
    kill_advances();
    kill_writes();
    kill_continues();
    kill_others();
    return 0;
}
