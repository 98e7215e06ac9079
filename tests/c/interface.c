/*
 * Every call, word, limit and length of pbm.h from C: n = 3, m = 2, T = 15, B = 4; and the growth of n = 4, m = 1, T = 19, which
 * grow itself ends; and scan points. Prints what each returns and leaves; tests/tests/c_interface.rs has the values.
 */
#include "pbm.h"

#include <stdio.h>
#include <stdlib.h>
#include <string.h>

enum { STRIPES = 15, BLOCK = 4, DISK = STRIPES * BLOCK };

static uint8_t *record, *images, *block;
static size_t images_len;

/* Just so many bytes, without a value, so that memcheck knows their ends and what was set. */
static uint8_t *take(size_t len)
{
    uint8_t *bytes = (uint8_t *)malloc(len);
    if (bytes == NULL) exit(1);
    return bytes;
}

static void show_record(void)
{
    int i;
    printf("record");
    for (i = 0; i < PBM_RECORD_LEN; i++) printf(" %d", record[i]);
    printf("\n");
}

static void show_shape(void)
{
    struct pbm_shape shape = pbm_shape_of(record);
    printf("shape: n %d, m %d, B %d, T %d\n", (int)shape.n, (int)shape.m, (int)shape.block_len, (int)shape.stripes);
}

static void show_version(void)
{
    printf("version %d, header %d\n", (int)pbm_version(), PBM_VERSION);
    printf("limits: n %d to %d, m %d to %d, B %d to %d, T %d to %d\n", PBM_N_MIN, PBM_N_MAX, PBM_M_MIN, PBM_M_MAX,
           PBM_BLOCK_LEN_MIN, PBM_BLOCK_LEN_MAX, PBM_STRIPES_MIN, PBM_STRIPES_MAX);
}

static void show_status(void)
{
    uint64_t capacity = 9, moves = 9, total = 9, health = 9, out = 9, rebuilt = 9;
    int number = pbm_status(record, PBM_RECORD_LEN, &capacity, &moves, &total, &health, &out, &rebuilt);
    printf("status %d: capacity %d, moves %d of %d, health %d, out %d, rebuilt %d\n", number, (int)capacity, (int)moves,
           (int)total, (int)health, (int)out, (int)rebuilt);
}

static void show_place(uint64_t number)
{
    uint64_t stripe = 9, disk = 9, parity_disk = 9, moved = 9;
    int answer = pbm_locate(record, PBM_RECORD_LEN, number, &stripe, &disk, &parity_disk, &moved);
    printf("locate %d: %d (%d, %d), parity on %d, moved %d\n", (int)number, answer, (int)stripe, (int)disk, (int)parity_disk,
           (int)moved);
}

static void show_owner(uint64_t stripe, uint64_t disk)
{
    uint64_t role = 9, number = 9;
    int answer = pbm_owner(record, PBM_RECORD_LEN, stripe, disk, &role, &number);
    printf("owner (%d, %d): %d role %d, block %d\n", (int)stripe, (int)disk, answer, (int)role, (int)number);
}

static void show_read(uint64_t number)
{
    int answer = pbm_read(record, PBM_RECORD_LEN, images, images_len, number, block, BLOCK);
    printf("read %d: %d %.4s\n", (int)number, answer, (const char *)block);
}

static void show_write(uint64_t number, const char *data)
{
    uint8_t *bytes = take(BLOCK);
    int answer;
    memcpy(bytes, data, BLOCK);
    answer = pbm_write(record, PBM_RECORD_LEN, images, images_len, number, bytes, BLOCK);
    printf("write %d: %d\n", (int)number, answer);
    free(bytes);
}

static void show_advance(uint64_t k)
{
    uint64_t made = 9;
    int answer = pbm_advance(record, PBM_RECORD_LEN, images, images_len, k, &made);
    printf("advance %d: %d made %d\n", (int)k, answer, (int)made);
}

static void show_out(uint64_t disk) { printf("out %d: %d\n", (int)disk, pbm_out(record, PBM_RECORD_LEN, disk)); }

static void show_begin(uint64_t disk)
{
    printf("begin %d: %d\n", (int)disk, pbm_begin(record, PBM_RECORD_LEN, images, images_len, disk));
}

static void show_continue(uint64_t k)
{
    uint64_t made = 9;
    int answer = pbm_continue(record, PBM_RECORD_LEN, images, images_len, k, &made);
    printf("continue %d: %d made %d\n", (int)k, answer, (int)made);
}

static void show_sweep(void)
{
    uint64_t found = 9, stripe = 9, read = 9;
    int answer = pbm_sweep(record, PBM_RECORD_LEN, images, images_len, &found, &stripe, &read);
    printf("sweep: %d found %d, stripe %d, read %d\n", answer, (int)found, (int)stripe, (int)read);
}

/* With a bit off at the end of this place; then it is right again. */
static void show_sweep_off(uint64_t stripe, uint64_t disk)
{
    uint8_t *last = images + disk * DISK + stripe * BLOCK + BLOCK - 1;
    *last ^= 4;
    printf("(%d, %d) off, ", (int)stripe, (int)disk);
    show_sweep();
    *last ^= 4;
}

/* What a disk that is out holds is of no matter: without a value to memcheck. */
static void lose(uint64_t disk)
{
    uint8_t *garbage = take(DISK);
    show_out(disk);
    memcpy(images + disk * DISK, garbage, DISK);
    free(garbage);
}

/* The calls that take images, as they answer to a byte less and a byte more; these are lent bytes without a value. */
static void show_lengths(const char *when, uint64_t len, uint64_t grown_len)
{
    uint8_t *spare = take(grown_len + 1);
    uint64_t made = 9, found = 9, stripe = 9, read = 9, wrong[2];
    int i;
    wrong[0] = len - 1, wrong[1] = len + 1;
    printf("%s: images of %d bytes, grown by 2 disks %d\n", when, (int)len, (int)grown_len);
    for (i = 0; i < 2; i++) {
        printf("%d bytes: read %d, write %d, advance %d, begin %d, continue %d, sweep %d\n", (int)wrong[i],
               pbm_read(record, PBM_RECORD_LEN, spare, wrong[i], 0, block, BLOCK),
               pbm_write(record, PBM_RECORD_LEN, spare, wrong[i], 0, block, BLOCK),
               pbm_advance(record, PBM_RECORD_LEN, spare, wrong[i], 0, &made),
               pbm_begin(record, PBM_RECORD_LEN, spare, wrong[i], 0),
               pbm_continue(record, PBM_RECORD_LEN, spare, wrong[i], 0, &made),
               pbm_sweep(record, PBM_RECORD_LEN, spare, wrong[i], &found, &stripe, &read));
        printf("%d bytes: grow %d\n", (int)(grown_len - 1 + 2 * i),
               pbm_grow(record, PBM_RECORD_LEN, spare, grown_len - 1 + 2 * i, 2));
    }
    free(spare);
    printf("%d bytes: read %d\n", (int)len, pbm_read(record, PBM_RECORD_LEN, images, len, 0, block, BLOCK));
}

/* The longest images that there are, by numbers of 32 bits and by a record. */
static void show_longest(void)
{
    static uint8_t longest[PBM_RECORD_LEN];
    const int disks = 32, block_len = 4096, stripes = 1048576;
    int is_right;
    longest[PBM_AT_N] = longest[PBM_AT_M] = (uint8_t)(disks / 2);
    longest[PBM_AT_BLOCK_LEN + 1] = (uint8_t)(block_len >> 8);
    longest[PBM_AT_STRIPES + 2] = (uint8_t)(stripes >> 16);
    is_right = pbm_images_len(disks, block_len, stripes) == (uint64_t)1 << 37
        && pbm_images_len_by(longest, 0) == (uint64_t)1 << 37;
    printf("the longest images: %s\n", is_right ? "128 GiB" : "wrong");
}

static void format(void)
{
    uint8_t *spare;
    images_len = pbm_images_len(3, BLOCK, STRIPES);
    images = take(images_len);
    spare = take(images_len + 1);
    printf("format, %d and %d bytes: %d, %d\n", (int)images_len - 1, (int)images_len + 1,
           pbm_format(record, PBM_RECORD_LEN, spare, images_len - 1, 3, BLOCK, STRIPES),
           pbm_format(record, PBM_RECORD_LEN, spare, images_len + 1, 3, BLOCK, STRIPES));
    free(spare);
    printf("format n = 2: %d\n", pbm_format(record, PBM_RECORD_LEN, images, images_len, 2, BLOCK, STRIPES));
    printf("format, record of 16 bytes: %d\n", pbm_format(record, 16, images, images_len, 3, BLOCK, STRIPES));
    printf("format: %d\n", pbm_format(record, PBM_RECORD_LEN, images, images_len, 3, BLOCK, STRIPES));
    show_record();
    show_status();
}

static void grow(void)
{
    uint64_t more_len = pbm_images_len_by(record, 2);
    uint8_t *more = take(more_len);
    printf("grow, images of 3 disks: %d\n", pbm_grow(record, PBM_RECORD_LEN, images, images_len, 2));
    memcpy(more, images, images_len);
    free(images);
    images = more;
    images_len = more_len;
    printf("grow: %d\n", pbm_grow(record, PBM_RECORD_LEN, images, images_len, 2));
    printf("grow again: %d\n", pbm_grow(record, PBM_RECORD_LEN, images, images_len, 2));
    show_status();
}

static void show_words(void)
{
    int number;
    for (number = PBM_DONE; number <= PBM_POINTS + 1; number++) printf("word %d: %s\n", number, pbm_word((uint8_t)number));
    printf("word 255: %s\n", pbm_word(255));
}

/* Disk 3 is rebuilt, fails again in the middle, and is rebuilt. Block 4 stands on it, in stripe 2. */
static void show_rebuild(void)
{
    show_continue(1);
    show_begin(2);
    show_begin(3);
    show_status();
    show_begin(3);
    show_continue(2);
    show_read(4);
    show_write(4, "Four");
    show_continue(1);
    show_read(4);
    show_write(4, "FOUR");
    show_record();
    show_advance(1);
    show_sweep();
    lose(3);
    show_record();
    show_read(4);
    show_begin(3);
    show_continue(0);
    show_continue(14);
    show_status();
    show_continue(100);
    show_continue(100);
}

/* From 2 moves on: after move 5 zone 0 is finished, and there are 10 blocks more, which stay where they are. */
static void show_finished_zone(void)
{
    uint64_t number;
    show_advance(3);
    show_status();
    show_place(6);
    show_place(30);
    show_write(30, "past");
    show_owner(2, 1);
    show_advance(1);
    show_status();
    for (number = 30; number < 40; number++) {
        int answer = pbm_read(record, PBM_RECORD_LEN, images, images_len, number, block, BLOCK);
        if (answer != PBM_DONE || memcmp(block, "\0\0\0\0", BLOCK) != 0) printf("block %d is not zero\n", (int)number);
    }
    show_place(30);
    show_place(39);
    show_place(40);
    show_owner(2, 1);
    show_owner(5, 3);
    show_write(35, "3535");
    show_write(40, "past");
    show_advance(1);
    lose(1);
    show_read(35);
    show_write(35, "new!");
    show_write(5, "FIVE");
    show_read(40);
    show_begin(1);
    show_continue(15);
    show_advance(1);
    show_read(35);
    show_place(35);
    show_record();
}

/* A grown array of which two disks are out: the images for a format go by its own numbers, not by the record. */
static void show_format_anew(void)
{
    uint64_t by = pbm_images_len_by(record, 0), own = pbm_images_len(3, BLOCK, STRIPES);
    printf("format anew, %d bytes: %d\n", (int)by, pbm_format(record, PBM_RECORD_LEN, images, by, 3, BLOCK, STRIPES));
    printf("format anew, %d bytes: %d\n", (int)own, pbm_format(record, PBM_RECORD_LEN, images, own, 3, BLOCK, STRIPES));
    show_shape();
}

/* No whole group: 57 blocks, and with the grow itself 76. */
static void show_growth_at_once(void)
{
    enum { OLD = 4, TAIL = 19 };
    uint64_t number;
    uint8_t *more;
    free(images);
    images_len = pbm_images_len(OLD, BLOCK, TAIL);
    images = take(images_len);
    printf("format, 4 disks of 19 blocks: %d\n", pbm_format(record, PBM_RECORD_LEN, images, images_len, OLD, BLOCK, TAIL));
    show_write(56, "old!");
    show_read(57);
    more = take(pbm_images_len_by(record, 1));
    memcpy(more, images, images_len);
    free(images);
    images = more;
    images_len = pbm_images_len_by(record, 1);
    printf("grow by 1: %d\n", pbm_grow(record, PBM_RECORD_LEN, images, images_len, 1));
    show_status();
    show_advance(1);
    for (number = 57; number < 76; number++) {
        int answer = pbm_read(record, PBM_RECORD_LEN, images, images_len, number, block, BLOCK);
        if (answer != PBM_DONE || memcmp(block, "\0\0\0\0", BLOCK) != 0) printf("block %d is not zero\n", (int)number);
    }
    show_write(57, "5757");
    show_write(75, "7575");
    show_write(76, "past");
    show_read(57);
    show_read(75);
    show_read(56);
    show_place(57);
    show_place(75);
    show_owner(18, 4);
    show_sweep();
    show_record();
}

typedef uint8_t way(const uint8_t *from, size_t from_len, uint8_t *into, size_t into_len);

/* One way of scan points into bytes without a value, which are shown if it has filled them. */
static void show_way(const char *name, way *call, const uint8_t *from, size_t from_len, size_t into_len)
{
    uint8_t *source = take(from_len), *target = take(into_len);
    int answer;
    size_t i;
    memcpy(source, from, from_len);
    answer = call(source, from_len, target, into_len);
    printf("%s, %d bytes into %d: %d,", name, (int)from_len, (int)into_len, answer);
    if (answer == PBM_DONE) for (i = 0; i < into_len; i++) printf(" %d", target[i]);
    printf("\n");
    free(source);
    free(target);
}

/* The points 100, 103 and 101; and 40 of them, each 700 above the one before. */
static void show_points(void)
{
    static const uint8_t points[] = {100, 0, 103, 0, 101, 0}, packed[] = {100, 3, 254, 0, 0, 255};
    static const size_t lengths[][2] = {{6, 6}, {0, 0}, {5, 5}, {6, 4}, {4, 6}};
    static uint8_t rising[80], rising_packed[80];
    int i;
    for (i = 0; i < 5; i++) {
        show_way("pack", pbm_points_pack, points, lengths[i][0], lengths[i][1]);
        show_way("unpack", pbm_points_unpack, packed, lengths[i][0], lengths[i][1]);
    }
    for (i = 0; i < 40; i++) rising[2 * i] = (uint8_t)(700 * i), rising[2 * i + 1] = (uint8_t)(700 * i >> 8);
    for (i = 1; i < 40; i++) rising_packed[i] = 700 & 255, rising_packed[40 + i] = 700 >> 8;
    show_way("pack", pbm_points_pack, rising, 80, 80);
    show_way("unpack", pbm_points_unpack, rising_packed, 80, 80);
}

int main(void)
{
    record = take(PBM_RECORD_LEN);
    block = take(BLOCK);

    show_version();
    show_words();
    show_longest();
    format();
    show_shape();
    show_lengths("formatted", pbm_images_len_by(record, 0), pbm_images_len_by(record, 2));
    show_place(5);
    show_write(4, "four");
    show_write(5, "five");
    show_write(30, "past");
    show_read(4);
    printf("read, 3 bytes: %d\n", pbm_read(record, PBM_RECORD_LEN, images, images_len, 4, block, 3));
    printf("read, record a byte short: %d\n", pbm_read(record, PBM_RECORD_LEN - 1, images, images_len, 4, block, BLOCK));
    printf("read, record of 16 bytes: %d\n", pbm_read(record, 16, images, images_len, 4, block, BLOCK));
    show_advance(1);
    show_sweep();
    show_sweep_off(0, 0);
    show_sweep_off(14, 2);

    grow();
    show_shape();
    show_lengths("grown", pbm_images_len_by(record, 0), pbm_images_len_by(record, 2));
    show_owner(3, 0);
    show_advance(2);
    show_owner(3, 0);
    show_owner(3, 3);
    show_owner(2, 3);
    show_owner(15, 0);
    show_owner(0, 5);
    show_place(4);
    show_place(6);
    show_place(30);
    show_sweep();
    show_sweep_off(3, 0); /* a blank that a move has left */
    show_sweep_off(14, 4); /* a blank of a zone that is not begun */

    lose(3);
    show_read(4);
    show_write(4, "FOUR");
    show_advance(1);
    show_sweep();
    show_out(3);
    show_rebuild();
    show_read(4);
    show_record();
    show_finished_zone();

    show_advance(100);
    show_advance(100);
    show_status();
    show_sweep();
    show_sweep_off(14, 4);
    show_place(30);
    show_read(35);
    show_owner(1, 2);
    show_write(59, "last");
    lose(0);
    show_read(59);
    show_read(5);
    show_begin(0);
    show_continue(3);
    lose(1);
    show_read(59);
    show_continue(1);
    show_sweep();
    show_status();
    show_place(59);
    show_format_anew();

    show_growth_at_once();
    show_points();
    free(images);
    free(block);
    free(record);
    return 0;
}
