/* The speed of the library against its peers, as ratios of times measured in turn in one run. Prints a Markdown report. */
#include <inttypes.h>
#include <stdio.h>
#include <stdlib.h>
#include <string.h>

#include "agree.h"
#include "cases.h"

static const size_t IN_CACHE = 1048576;
static const size_t OUT_OF_CACHE = (size_t)1 << 30;
static const uint32_t SHORT_BLOCK = 32; /* the shortest that ISA-L takes */
static const size_t OUT_OF_CACHE_QUICK = (size_t)1 << 26;

static struct report report, beside;

static const char notes[] =
    "A ratio is the peer's time by ours, for the same calls: 2 means that we have twice the peer's speed, 0.5 half of it.\n"
    "The contestants take turns, round by round; given are the median over the rounds, its quartiles, and our own median\n"
    "time of one call (or move, or stripe). Time is processor time of the thread. Before timing, all calls of the peers were\n"
    "compared with the library's, byte for byte, refusals too; after each case that writes, xor_check found every parity\n"
    "right. Before each turn the upper halves of the vector registers are cleared, which xor_gen leaves in use.\n"
    "\n"
    "- *C* is bench/peer.c: the same calls with the same tests, written in C by hand; its write stores each byte of a parity\n"
    "  once, and then the block, as ours does. *C, at will* need not: it stores both at once, and with the block's disk\n"
    "  out sums eight sources a pass, of which each stores the parity. *ISA-L* is C with xor_gen for the sums; its sweep has\n"
    "  xor_check, and isal_zero_detect for blanks. *memcpy alone* copies from the same places, and asks nothing; *xor_check\n"
    "  alone* reads all stripes, and writes nothing: it knows no layout, and does not ask if blanks are zero.\n"
    "  *restripe* puts every block to its place in the layout of n + m disks, parities by xor_gen, in place, through a\n"
    "  buffer of one stripe; *out of place* it writes a second image, which spares it the buffer and all care of order, and\n"
    "  takes twice the disks.\n"
    "- Arrays stand in the middle of their growth, unless another state is given: half of the zones are finished, and half of\n"
    "  the moves of the next one made. A disk that is out is disk 1.\n"
    "- A rebuild is a begin and as many continues as it takes: one, or one for each 64 stripes. *Stripe rebuilt* and *not\n"
    "  rebuilt*: half of the stripes of disk 1 are rebuilt, those below T / 2, and blocks are asked for in these, on any disk,\n"
    "  or in the others, on disk 1. *Library, whole* and *library, disk out* are our own calls for the same blocks, by a\n"
    "  record with all disks in, or with disk 1 out; *library, at once* is our own rebuild in one continue.\n"
    "- A sweep is of sound images, so that it reads every stripe. Before growth it is of n disks.\n"
    "- Buffers are aligned to 4096 bytes and touched before, with no wish for huge pages; all contestants share them.\n"
    "- *Out of cache*: each contestant goes once through all blocks of the images, in one random order; they begin at\n"
    "  different points of it. 5 + 3 at B = 64 has 512 MiB at most, by the limit of T. A write whose parity's disk is out\n"
    "  touches one block alone, and there are few such blocks: 22 to 83 MiB, which the last cache may keep.\n"
    "- *In cache*: images of about 1 MiB, visited over and over. One group of 16 + 16 at B = 4096 has 64 MiB: there 8 random\n"
    "  stripes, 1 MiB together, are visited, and what takes the whole array, growth and rebuild, is not measured. A sweep is,\n"
    "  of an array that has no more than 8 stripes: they are no whole group, so that it is grown at once, never half grown.\n"
    "- *With a tail*: one whole group, and the same with a tail of half a group and one stripe, which does not move; visited\n"
    "  over and over as in cache, in turn with the array without the tail. The stripes are drawn from all, so that moved ones\n"
    "  and those of the tail mix. A tail is less than a group: of an array out of cache it is a small part, and not measured.\n"
    "- *points pack* and *points unpack* go from the places of the blocks into one buffer, as read does, and are lent nothing\n"
    "  else. The bytes are random: the time does not depend on them.\n"
    "- Targets are set for B = 4096, for points in cache alone, and at B = 64 for read, write, locate, a write whose disk is\n"
    "  out and a rebuild by 64. locate and owner read the record alone.\n"
    "- view returns a reference and is not exported to C. A read of a block of 32 bytes makes the same tests and finds the\n"
    "  same place; it also copies 32 bytes, which view does not. It is given against C's read of the same and C's view.\n";

static const uint32_t shapes[2][2] = {{5, 3}, {16, 16}}, blocks[2] = {4096, 64};

static void run_all(bool quick, struct settings set, uint64_t seed)
{
    for (int in_cache = 0; in_cache < 2; in_cache++)
        for (size_t h = 0; h < 2; h++)
            for (size_t b = 0; b < 2; b++) {
                size_t len = in_cache ? IN_CACHE : quick ? OUT_OF_CACHE_QUICK : OUT_OF_CACHE;
                static struct stage s;
                stage_open(&s, (struct plan){shapes[h][0], shapes[h][1], blocks[b], len, in_cache, 0, 0}, seed);
                cases_run(&s, set, &report);
                if (h == 0) /* no shape matters to points */
                    cases_points(&s, set, &report);
                stage_close(&s);
            }
    for (size_t h = 0; h < 2; h++) {
        static struct stage s;
        stage_open(&s, (struct plan){shapes[h][0], shapes[h][1], SHORT_BLOCK, IN_CACHE, true, 0, 0}, seed);
        cases_view(&s, set, &report);
        stage_close(&s);
    }
}

/* A sweep takes the whole array, and one of many disks and long blocks is in cache only if it has no whole group. */
static void run_without_group(struct settings set, uint64_t seed)
{
    static struct stage s;
    uint32_t n = shapes[1][0], m = shapes[1][1], stripes = (uint32_t)(IN_CACHE / ((n + m) * blocks[0]));
    stage_open(&s, (struct plan){n, m, blocks[0], IN_CACHE, true, NO_GROUP, stripes}, seed);
    cases_sweep(&s, set, &report);
    stage_close(&s);
}

/* A third of the stripes, which no branch foretells, and zones that the end cuts. */
static uint32_t tail_len(uint32_t n, uint32_t m) { return n * (n + m) / 2 + 1; }

static void run_with_tails(struct settings set, uint64_t seed)
{
    for (size_t h = 0; h < 2; h++)
        for (size_t b = 0; b < 2; b++) {
            static struct stage whole, tailed;
            uint32_t n = shapes[h][0], m = shapes[h][1];
            stage_open(&whole, (struct plan){n, m, blocks[b], IN_CACHE, true, 1, 0}, seed);
            stage_open(&tailed, (struct plan){n, m, blocks[b], IN_CACHE, true, 1, tail_len(n, m)}, seed);
            cases_beside(&whole, &tailed, set, &beside);
            if (b == 0)
                cases_asking_beside(&whole, &tailed, set, &beside);
            stage_close(&whole);
            stage_close(&tailed);
        }
}

static void print_notes(bool quick, uint64_t seed)
{
    printf("- seed: %" PRIu64 "\n\n", seed);
    if (quick)
        printf("**A shortened run, for trying out: \"out of cache\" is not, and the figures are rough.**\n\n");
    fputs(notes, stdout);
}

int main(int argc, char **argv)
{
    bool quick = argc > 1 && strcmp(argv[1], "quick") == 0;
    const char *wish = getenv("SEED");
    uint64_t seed = wish ? strtoull(wish, NULL, 0) : 20131;
    const struct settings set = quick ? (struct settings){5, 1000000} : (struct settings){15, 10000000};
    must(peers_agree(seed), "a peer and the library differ");
    run_all(quick, set, seed);
    run_without_group(set, seed);
    run_with_tails(set, seed);
    print_notes(quick, seed);
    printf("\n## Out of cache\n\n");
    report_print(&report, false);
    printf("\n## In cache\n\n");
    report_print(&report, true);
    printf("\n## With a tail\n\n");
    report_print_beside(&beside);
    return 0;
}
