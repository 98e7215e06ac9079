/*
 * Calls for a memory trace: tests/tests/stores.rs runs this under valgrind's lackey, which tells every load and store. Each argument
 * is `w`, `a`, `c`, `f`, `g` or `s`, a record of 40 hexadecimal digits, a colon and a number: write the block of that number, advance by
 * so many moves, continue a rebuild by so many stripes, format so many stripes of the record's disks and block length, grow by so many
 * disks, or sweep, with so many bytes of the images that are not zero, each of which follows after a comma. Just before a call
 * `begin` is stored to, just after it `end`. Prints where these stand, and what is lent, and where the stack of the calls ends.
 */
#include "pbm.h"

#include <stdio.h>
#include <stdlib.h>
#include <string.h>

enum { BLOCK = 4096, MOST = 8 * 41 * BLOCK };

/* Zeroes are an array after any number of moves. */
static uint8_t record[PBM_RECORD_LEN], images[MOST], data[BLOCK];
static uint64_t made, swept[3];
static volatile uint8_t begin, end, helped;

/*
 * What the library asks of the C library, byte by byte: that one's own stores some bytes twice, and is looked up at its first use,
 * which takes stack. They store to `helped`: a write is to call none of them.
 */
void *memmove(void *to, const void *from, size_t len)
{
    uint8_t *t = to;
    const uint8_t *f = from;
    size_t i;
    helped = 1;
    if (t <= f) for (i = 0; i < len; i++) t[i] = f[i];
    else for (i = len; i > 0; i--) t[i - 1] = f[i - 1];
    return to;
}

void *memcpy(void *to, const void *from, size_t len) { return memmove(to, from, len); }

void *memset(void *to, int byte, size_t len)
{
    uint8_t *t = to;
    size_t i;
    helped = 1;
    for (i = 0; i < len; i++) t[i] = (uint8_t)byte;
    return to;
}

static uint8_t call(char name, uint64_t of)
{
    uint64_t images_len = pbm_images_len_by(record, name == 'g' ? of : 0);
    size_t data_len = record[PBM_AT_BLOCK_LEN] | (size_t)record[PBM_AT_BLOCK_LEN + 1] << 8;
    uint8_t answer;
    if (images_len > sizeof images) exit(2);
    begin = 1;
    if (name == 'w') answer = pbm_write(record, sizeof record, images, images_len, of, data, data_len);
    else if (name == 'a') answer = pbm_advance(record, sizeof record, images, images_len, of, &made);
    else if (name == 'c') answer = pbm_continue(record, sizeof record, images, images_len, of, &made);
    else if (name == 'f') answer = pbm_format(record, sizeof record, images, images_len, record[PBM_AT_N], data_len, of);
    else if (name == 'g') answer = pbm_grow(record, sizeof record, images, images_len, of);
    else answer = pbm_sweep(record, sizeof record, images, images_len, swept, swept + 1, swept + 2);
    end = 1;
    return answer;
}

/* The value of a hexadecimal digit. By hand: the trace is of all that is done, and sscanf would make ten times as much of it. */
static uint8_t digit(char c)
{
    if (c >= '0' && c <= '9') return (uint8_t)(c - '0');
    if (c >= 'a' && c <= 'f') return (uint8_t)(c - 'a' + 10);
    exit(4);
}

/* Sets the bytes of a list, each after a comma. */
static void set(const char *list, uint8_t value)
{
    while (*list == ',') {
        char *behind;
        uint64_t at = strtoull(list + 1, &behind, 10);
        if (at >= sizeof images) exit(2);
        images[at] = value;
        list = behind;
    }
}

static void tell(const char *name, const volatile void *where) { printf("%s %lx\n", name, (unsigned long)where); }

int main(int count, char **arguments)
{
    int i;
    size_t j;
    tell("begin", &begin), tell("end", &end);
    tell("record", record), tell("images", images), tell("made", &made), tell("swept", swept), tell("helped", &helped);
    tell("stack", __builtin_frame_address(0));
    for (i = 1; i < count; i++) {
        const char *argument = arguments[i], *colon = strchr(argument, ':');
        char *list;
        uint64_t of;
        for (j = 0; j < sizeof record; j++)
            record[j] = (uint8_t)(digit(argument[1 + 2 * j]) << 4 | digit(argument[2 + 2 * j]));
        if (colon == NULL) return 4;
        of = strtoull(colon + 1, &list, 10);
        set(list, 1);
        if (call(argument[0], of) != PBM_DONE) return 3;
        set(list, 0);
    }
    return 0;
}
