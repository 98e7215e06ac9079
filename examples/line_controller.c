/*
 * line_controller.c - a sawmill line on an array that grows while the line runs.
 *
 * The scanner packs each log's outline, a row of points, and writes it to a numbered block; the saw reads and unpacks it.
 * Meanwhile three disks are added to five; in the middle of that growth a disk fails, and is rebuilt a few stripes at a time
 * while the line runs; halfway it fails again, and is rebuilt from its first stripe on. New blocks are used as they come, with
 * each zone that is finished. The disks are of no round size: a tail is left after the groups that move. Each block that the
 * saw reads is compared, point by point, with what the scanner last wrote to it, which this program keeps in a plain array of
 * its own. When a disk is out, service is told for every block which drawer it is in, and in which its parity is. Before the
 * growth, in the middle of it, after it and after each rebuild service sweeps the cabinet: all stripes must be sound. Where a
 * drawer has changed a bit by itself, on a block or on a blank, the sweep must stop at just that stripe.
 *
 *     line_controller [seed]
 *
 * Ends with status 0; with 1 at the first point that differs, and at the first call that is not answered as it must be.
 */
#include "pbm.h"
#include "profile.h"

#include <errno.h>
#include <inttypes.h>
#include <stdio.h>
#include <stdlib.h>
#include <string.h>

enum {
    OLD = 5, NEW = 3, /* disks */
    BLOCK = 4096,
    POINTS = BLOCK / 2,
    ROUGH = 2, /* tenths of a millimetre */
    STRIPES = 417, /* ten groups, and a tail of 17 stripes */
    DISK = STRIPES * BLOCK,
    ZONE = OLD + NEW, /* stripes */
    GROUP = OLD * ZONE,
    TAIL = STRIPES % GROUP,
    BLOCKS_BEFORE = STRIPES * (OLD - 1),
    BLOCKS_AFTER = STRIPES * (OLD + NEW - 1),
    BLOCKS_ZONE = ZONE * NEW, /* the new ones of a zone */
    BLOCKS_TAIL = TAIL * NEW, /* and of the tail, which are the last */
    MOVES_ZONE = OLD * NEW,
    MOVES = STRIPES / GROUP * OLD * MOVES_ZONE
};

/* What the library is lent: the record, and the images of all disks one after the other. */
static uint8_t record[PBM_RECORD_LEN];
static uint8_t *images;
static size_t images_len;

/* The points that each block was last given: zeroes at first. */
static uint16_t given[BLOCKS_AFTER][POINTS];

/* Where a block stands, on which disk of that stripe its parity does, and if a move carried the block itself. */
struct place { uint64_t stripe, disk, parity_disk, moved; };

/* Where each block stood when it came, with the format or with a zone. */
static struct place came[BLOCKS_AFTER];

/*
 * Calls for a block: all; those for one on a disk that is out, and for a new one in mid-growth; while a disk is rebuilt, those
 * in the stripes that are done, and in the others.
 */
struct calls { uint64_t all, degraded, early, in_done, in_others; };

static struct {
    struct calls writes, reads;
    uint64_t points, moves, refusals;
} count;

/* ---- random numbers: the same seed gives the same run */

static uint64_t state;
static uint64_t below(uint64_t limit)
{
    state = state * 6364136223846793005u + 1442695040888963407u;
    return (state >> 33) % limit;
}

/* ---- what every call is held to */

/* A call that the line counts on. */
static void must(const char *call, uint8_t number)
{
    if (number == PBM_DONE) return;
    fprintf(stderr, "line_controller: %s is refused: %u %s\n", call, number, pbm_word(number));
    exit(1);
}

/* A call that has to be refused, with this number. */
static void must_refuse(const char *call, uint8_t number, uint8_t wanted)
{
    if (number != wanted) {
        fprintf(stderr, "line_controller: %s gives: %u %s; it must give: %u %s\n", call, number, pbm_word(number),
                wanted, pbm_word(wanted));
        exit(1);
    }
    printf("    %s is refused: %u %s\n", call, number, pbm_word(number));
    count.refusals++;
}

static void must_be(const char *what, uint64_t is, uint64_t wanted)
{
    if (is == wanted) return;
    fprintf(stderr, "line_controller: %s: %" PRIu64 "; it must be %" PRIu64 "\n", what, is, wanted);
    exit(1);
}

/* ---- the array */

struct status { uint64_t capacity, moves, total, health, out_disk, rebuilt; };

static struct status status(void)
{
    struct status s;
    must("status",
         pbm_status(record, sizeof record, &s.capacity, &s.moves, &s.total, &s.health, &s.out_disk, &s.rebuilt));
    return s;
}

static struct place place_of(uint64_t block)
{
    struct place p;
    must("locate", pbm_locate(record, sizeof record, block, &p.stripe, &p.disk, &p.parity_disk, &p.moved));
    return p;
}

struct owner { uint64_t role, block; };

static struct owner owner_of(uint64_t stripe, uint64_t disk)
{
    struct owner o;
    must("owner", pbm_owner(record, sizeof record, stripe, disk, &o.role, &o.block));
    return o;
}

static void count_call(struct calls *calls, uint64_t block)
{
    struct status now = status();
    struct place p = place_of(block);
    int is_done = p.stripe < now.rebuilt; /* none is while the disk is out */
    calls->all++;
    calls->degraded += now.health != PBM_HEALTH_WHOLE && p.disk == now.out_disk && !is_done;
    calls->early += block >= BLOCKS_BEFORE && now.moves < MOVES;
    calls->in_done += now.health == PBM_HEALTH_REBUILDING && is_done;
    calls->in_others += now.health == PBM_HEALTH_REBUILDING && !is_done;
}

/* The blocks that there must be: with the last move of a zone its new ones come, with the last of all what is left. */
static uint64_t blocks_after(uint64_t moves)
{
    return moves < MOVES ? BLOCKS_BEFORE + moves / MOVES_ZONE * BLOCKS_ZONE : BLOCKS_AFTER;
}

/* Makes room for images of this length. What the new disks hold is of no matter: here, 0x5A in every byte. */
static void mount(uint64_t len)
{
    images = realloc(images, len);
    if (images == NULL) {
        fprintf(stderr, "line_controller: no memory for images of %" PRIu64 " bytes\n", len);
        exit(1);
    }
    memset(images + images_len, 0x5A, len - images_len);
    images_len = len;
}

/* A disk that is out may hold any bytes, new ones before each call: here one byte of each stripe not rebuilt yet changes. */
static void scribble(void)
{
    struct status now = status();
    if (now.health == PBM_HEALTH_WHOLE) return;
    uint8_t *disk = images + now.out_disk * DISK, change = (uint8_t)(1 + below(255));
    uint64_t at = below(BLOCK);
    for (uint64_t stripe = now.rebuilt; stripe < STRIPES; stripe++) disk[stripe * BLOCK + at] ^= change;
}

/* ---- points: in bytes, and packed */

/* By the example of pbm.h: a way there that the way back undoes could still be another one. */
static void packing_is_known(void)
{
    static const uint8_t points[] = {100, 0, 103, 0, 101, 0}, wanted[] = {100, 3, 0xFE, 0, 0, 0xFF};
    uint8_t packed[sizeof points];
    must("points pack", pbm_points_pack(points, sizeof points, packed, sizeof packed));
    for (size_t i = 0; i < sizeof packed; i++) must_be("a byte of packed points", packed[i], wanted[i]);
    printf("points are packed: 100, 103, 101 as 100, 3, -2\n");
    must_refuse("a pack of two points and a half", pbm_points_pack(points, 5, packed, 5), PBM_POINTS);
}

static void to_bytes(uint8_t *bytes, const uint16_t *points)
{
    for (size_t i = 0; i < POINTS; i++) bytes[2 * i] = (uint8_t)points[i], bytes[2 * i + 1] = (uint8_t)(points[i] >> 8);
}

static void must_be_as_given(uint64_t block, const uint8_t *bytes)
{
    for (size_t i = 0; i < POINTS; i++) {
        if ((bytes[2 * i] | bytes[2 * i + 1] << 8) == given[block][i]) continue;
        fprintf(stderr, "line_controller: point %zu of block %" PRIu64, i, block);
        fprintf(stderr, " is not what was last written, after %" PRIu64 " moves\n", count.moves);
        exit(1);
    }
    count.points += POINTS;
}

/* ---- the line: scanner and saw take turns */

static void scanner_writes(uint64_t block)
{
    uint8_t points[BLOCK], packed[BLOCK];
    profile_scan(given[block], POINTS, ROUGH, below);
    to_bytes(points, given[block]);
    must("points pack", pbm_points_pack(points, BLOCK, packed, BLOCK));
    scribble();
    must("write", pbm_write(record, sizeof record, images, images_len, block, packed, BLOCK));
    count_call(&count.writes, block);
}

static void saw_reads(uint64_t block)
{
    uint8_t packed[BLOCK], points[BLOCK];
    scribble();
    must("read", pbm_read(record, sizeof record, images, images_len, block, packed, BLOCK));
    must("points unpack", pbm_points_unpack(packed, BLOCK, points, BLOCK));
    must_be_as_given(block, points);
    count_call(&count.reads, block);
}

static void saw_reads_all(void)
{
    uint64_t capacity = status().capacity;
    for (uint64_t block = 0; block < capacity; block++) saw_reads(block);
    printf("    all %" PRIu64 " blocks are as last written\n", capacity);
}

/* So many logs: each one's outline goes to some block; the saw reads that block, and some other. */
static void logs_pass(int logs)
{
    uint64_t capacity = status().capacity;
    for (; logs > 0; logs--) {
        uint64_t block = below(capacity);
        scanner_writes(block);
        saw_reads(block);
        saw_reads(below(capacity));
    }
}

/* A log whose outline goes to a block of this stripe: to one of before the growth, which stays in its stripe. */
static void log_passes_in(uint64_t stripe)
{
    uint64_t block = stripe * (OLD - 1) + below(OLD - 1);
    scanner_writes(block);
    saw_reads(block);
}

static void blocks_come(uint64_t first, uint64_t end)
{
    for (uint64_t block = first; block < end; block++) came[block] = place_of(block);
}

/* New blocks hold zeroes until they are written: every other one is, the rest wait for a log. */
static void new_blocks_come(uint64_t first, uint64_t end)
{
    blocks_come(first, end);
    for (uint64_t block = first; block < end; block++) {
        uint64_t k = block - BLOCKS_BEFORE;
        must_be("stripe of a new block", came[block].stripe, k / NEW);
        saw_reads(block);
        if (k % 2 == 0) scanner_writes(block);
    }
}

static void new_blocks_stay(void)
{
    uint64_t capacity = status().capacity;
    for (uint64_t block = BLOCKS_BEFORE; block < capacity; block++) {
        struct place p = place_of(block);
        must_be("stripe of a new block", p.stripe, came[block].stripe);
        must_be("disk of a new block", p.disk, came[block].disk);
        must_be("disk of a new block's parity", p.parity_disk, came[block].parity_disk);
        must_be("a new block is moved", p.moved, 0);
    }
    printf("    all %" PRIu64 " new blocks stand where they stood when they came\n", capacity - BLOCKS_BEFORE);
}

/* In the tail no block has moved: the new ones stand on the new disks, stripe by stripe. */
static void tail_is_used(void)
{
    for (uint64_t k = 0; k < BLOCKS_TAIL; k++) {
        uint64_t block = BLOCKS_AFTER - BLOCKS_TAIL + k;
        must_be("stripe of a new block in the tail", place_of(block).stripe, STRIPES - TAIL + k / NEW);
        must_be("disk of a new block in the tail", place_of(block).disk, OLD + k % NEW);
        scanner_writes(block);
        saw_reads(block);
    }
    printf("    all %d new blocks of the tail are written and read\n", BLOCKS_TAIL);
}

/* ---- what happens to the array meanwhile */

/* By a controller that has started anew, and takes a zone for finished that is not. */
static void next_new_block_is_refused(void)
{
    uint8_t block[BLOCK];
    must_refuse("a read of the next new block",
                pbm_read(record, sizeof record, images, images_len, status().capacity, block, BLOCK), PBM_PAST_THE_END);
}

static void grow(void)
{
    uint8_t block[BLOCK];
    uint64_t old_len = images_len;
    mount(pbm_images_len_by(record, NEW));
    must("grow", pbm_grow(record, sizeof record, images, images_len, NEW));
    must_be("moves to make", status().total, MOVES);
    must_be("capacity", status().capacity, BLOCKS_BEFORE);
    printf("%d disks are added: %d moves to make\n", NEW, MOVES);
    /* by one that takes the array for the old one */
    must_refuse("a read with the old disks alone",
                pbm_read(record, sizeof record, images, old_len, 0, block, BLOCK), PBM_IMAGES);
    next_new_block_is_refused();
}

/* One to three moves, the new blocks that they bring, a log, and so on, until so many moves are made. */
static void move_until(uint64_t moves)
{
    struct status now = status();
    while (count.moves < moves) {
        uint64_t left = moves - count.moves, k = 1 + below(3), before = now.capacity, made;
        must("advance", pbm_advance(record, sizeof record, images, images_len, k < left ? k : left, &made));
        count.moves += made;
        now = status();
        must_be("moves done", now.moves, count.moves);
        must_be("capacity", now.capacity, blocks_after(count.moves));
        new_blocks_come(before, now.capacity);
        logs_pass(1);
    }
    printf("    %" PRIu64 " of %d moves, %" PRIu64 " blocks, %" PRIu64 " logs so far\n", count.moves, MOVES, now.capacity,
           count.writes.all);
}

static void advance_is_refused(uint8_t wanted)
{
    uint64_t made;
    must_refuse("advance", pbm_advance(record, sizeof record, images, images_len, 1, &made), wanted);
    must_be("moves of a refused advance", made, 0);
}

/* ---- service sweeps the cabinet */

static void sweep_must_tell(uint64_t found, uint64_t stripe, uint64_t read)
{
    uint64_t is_found, first, were_read;
    must("sweep", pbm_sweep(record, sizeof record, images, images_len, &is_found, &first, &were_read));
    must_be("an unsound stripe is found", is_found, found);
    must_be("the first unsound stripe", first, stripe);
    must_be("stripes read", were_read, read);
}

static void all_is_sound(void)
{
    sweep_must_tell(0, 0, STRIPES);
    printf("    all %d stripes are sound\n", STRIPES);
}

/* What is off in the cabinet is in this stripe alone. */
static void sweep_stops_at(uint64_t stripe, const char *off)
{
    sweep_must_tell(1, stripe, stripe + 1);
    printf("    %s: a sweep stops at stripe %" PRIu64 ", with %" PRIu64 " read\n", off, stripe, stripe + 1);
}

/* A drawer changes a bit by itself, here in the last byte of a place. A second flip puts it back. */
static void flip(uint64_t stripe, uint64_t disk)
{
    images[disk * DISK + stripe * BLOCK + BLOCK - 1] ^= 1;
}

static void block_off_is_found(uint64_t block)
{
    struct place p = place_of(block);
    flip(p.stripe, p.disk);
    sweep_stops_at(p.stripe, "a block is off");
    flip(p.stripe, p.disk);
}

/* In the first stripe with blanks on disks OLD and OLD + 1. With both off alike it xors to zero: only the blanks tell. */
static void blanks_off_are_found(void)
{
    uint64_t stripe = 0;
    while (owner_of(stripe, OLD).role != PBM_BLANK || owner_of(stripe, OLD + 1).role != PBM_BLANK) stripe++;
    flip(stripe, OLD);
    sweep_stops_at(stripe, "a blank is off");
    flip(stripe, OLD + 1);
    sweep_stops_at(stripe, "two blanks are off alike");
    flip(stripe, OLD);
    flip(stripe, OLD + 1);
}

static void sweep_is_refused(void)
{
    uint64_t found, stripe, read;
    must_refuse("sweep", pbm_sweep(record, sizeof record, images, images_len, &found, &stripe, &read), PBM_DEGRADED);
    must_be("numbers of a refused sweep", found | stripe | read, 0);
}

/* ---- a disk is out, and rebuilt while the line runs */

static void must_tell(uint64_t health, uint64_t disk, uint64_t rebuilt)
{
    must_be("health", status().health, health);
    must_be("disk out", status().out_disk, disk);
    must_be("stripes rebuilt", status().rebuilt, rebuilt);
}

/*
 * For each block service can light its drawer and that of its parity, also where one of them is out. The block was moved if it
 * stands on another disk than it came to, whatever its parity did.
 */
static void drawers_are_told(void)
{
    uint64_t capacity = status().capacity;
    for (uint64_t block = 0; block < capacity; block++) {
        struct place p = place_of(block);
        must_be("what the drawer of a block holds", owner_of(p.stripe, p.disk).role, PBM_DATA);
        must_be("the block in a drawer", owner_of(p.stripe, p.disk).block, block);
        must_be("what the drawer of a parity holds", owner_of(p.stripe, p.parity_disk).role, PBM_PARITY);
        must_be("a block is moved", p.moved, p.disk != came[block].disk);
    }
}

/*
 * What a disk that is out holds is of no matter: here, 0xEE in every byte at first. It may be the one that is being rebuilt:
 * what was done of it is gone.
 */
static void lose(uint64_t disk)
{
    uint64_t rebuilt = status().rebuilt;
    must("out", pbm_out(record, sizeof record, disk));
    must_tell(PBM_HEALTH_OUT, disk, 0);
    memset(images + disk * DISK, 0xEE, DISK);
    printf("disk %" PRIu64 " is out", disk);
    if (rebuilt > 0) printf(", and with it the %" PRIu64 " stripes rebuilt", rebuilt);
    printf("\n");
    drawers_are_told();
}

/* A bar of ten: a # for each tenth that is done. */
static void show_progress(uint64_t disk, uint64_t done)
{
    int tenths = (int)(10 * done / STRIPES);
    printf("    rebuilding disk %" PRIu64 ": [%.*s%.*s] %" PRIu64 " of %d stripes, %" PRIu64 " logs so far\n", disk, tenths,
           "##########", 10 - tenths, "..........", done, STRIPES, count.writes.all);
}

static void begin_rebuild(uint64_t disk)
{
    scribble();
    must("begin", pbm_begin(record, sizeof record, images, images_len, disk));
    must_tell(PBM_HEALTH_REBUILDING, disk, 0);
    show_progress(disk, 0);
}

/* One to eight stripes, a log somewhere, one in the last stripe done and one in the next, until so many stripes are done. */
static void rebuild_until(uint64_t stripes)
{
    uint64_t disk = status().out_disk, done = status().rebuilt;
    while (done < stripes) {
        uint64_t left = stripes - done, wish = 1 + below(8), k = wish < left ? wish : left, made;
        scribble();
        must("continue", pbm_continue(record, sizeof record, images, images_len, k, &made));
        must_be("stripes made", made, k);
        done += made;
        must_be("stripes rebuilt", status().rebuilt, done < STRIPES ? done : 0); /* with the last the array is whole */
        logs_pass(1);
        log_passes_in(done - 1);
        if (done < STRIPES) log_passes_in(done);
    }
    show_progress(disk, done);
}

static void end_rebuild(uint64_t disk)
{
    rebuild_until(STRIPES);
    must_tell(PBM_HEALTH_WHOLE, 0, 0);
    printf("disk %" PRIu64 " is rebuilt\n", disk);
    all_is_sound();
}

static void print_calls(const char *name, struct calls calls)
{
    printf("%s %" PRIu64 ", of these %" PRIu64 " of blocks on a disk that is out, %" PRIu64 " of new blocks in mid-growth\n",
           name, calls.all, calls.degraded, calls.early);
    printf("    while a disk was rebuilt: %" PRIu64 " in stripes done, %" PRIu64 " in the others\n", calls.in_done,
           calls.in_others);
}

/* Is it a decimal number of 64 bits, and nothing else? */
static int is_seed(const char *text)
{
    errno = 0;
    strtoull(text, NULL, 10);
    return text[0] != '\0' && text[strspn(text, "0123456789")] == '\0' && errno == 0;
}

int main(int argc, char **argv)
{
    if (argc > 2 || (argc == 2 && !is_seed(argv[1]))) {
        fprintf(stderr, "usage: line_controller [seed], a number from 0 to %" PRIu64 "\n", UINT64_MAX);
        return 1;
    }
    state = argc == 2 ? strtoull(argv[1], NULL, 10) : 1;
    printf("seed %" PRIu64 "\n", state);

    must_be("the version of libpbm.a", pbm_version(), PBM_VERSION);
    packing_is_known();
    mount(pbm_images_len(OLD, BLOCK, STRIPES));
    must("format", pbm_format(record, sizeof record, images, images_len, OLD, BLOCK, STRIPES));
    printf("%d disks are formatted: %d blocks of %d bytes\n", OLD, BLOCKS_BEFORE, BLOCK);
    blocks_come(0, BLOCKS_BEFORE);
    logs_pass(2000);
    all_is_sound();
    saw_reads_all();

    grow();
    move_until(200);
    move_until(400);
    all_is_sound();
    block_off_is_found(status().capacity - 1);
    blanks_off_are_found();

    next_new_block_is_refused();
    lose(2);
    advance_is_refused(PBM_DEGRADED);
    sweep_is_refused();
    logs_pass(1000);
    saw_reads_all();

    begin_rebuild(2);
    rebuild_until(100);
    rebuild_until(250);
    advance_is_refused(PBM_DEGRADED);
    sweep_is_refused();
    saw_reads_all();
    lose(2); /* again, in the middle */
    saw_reads_all();
    begin_rebuild(2);
    rebuild_until(150);
    rebuild_until(300);
    end_rebuild(2);
    saw_reads_all();

    move_until(600);
    move_until(MOVES);
    advance_is_refused(PBM_NOTHING_TO_MOVE);
    printf("the growth is over: %d blocks\n", BLOCKS_AFTER);
    all_is_sound();
    new_blocks_stay();
    saw_reads_all();
    logs_pass(2000);
    tail_is_used();

    lose(OLD); /* a new disk this time */
    saw_reads_all();
    tail_is_used();
    begin_rebuild(OLD);
    end_rebuild(OLD);
    saw_reads_all();

    print_calls("writes", count.writes);
    print_calls("reads", count.reads);
    printf("points compared %" PRIu64 "\n", count.points);
    printf("moves %" PRIu64 ", refusals met %" PRIu64 "\n", count.moves, count.refusals);
    printf("every read gave what was last written\n");
    free(images);
    return 0;
}
