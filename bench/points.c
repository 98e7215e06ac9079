/*
 * Prints blocks of 4096 bytes of points, as they are or packed: points ROUGH|random plain|packed BLOCKS. Each is an outline of
 * examples/profile.h, so rough, or is random: there neighbours have nothing in common. The same on every run.
 */
#include <stdio.h>
#include <stdlib.h>
#include <string.h>

#include "../examples/profile.h"
#include "pbm.h"
#include "random.h"
#include "stage.h"

enum { BLOCK = 4096 };

static struct random source = {1};

static uint64_t below(uint64_t limit) { return random_below(&source, limit); }

static void scan(uint8_t *block, int rough)
{
    uint16_t points[BLOCK / 2];
    profile_scan(points, BLOCK / 2, rough, below);
    memcpy(block, points, BLOCK); /* least byte first, as on every x86-64 */
}

int main(int argc, char **argv)
{
    must(argc == 4, "points ROUGH|random plain|packed BLOCKS");
    bool is_random = strcmp(argv[1], "random") == 0, is_packed = strcmp(argv[2], "packed") == 0;
    must(is_packed || strcmp(argv[2], "plain") == 0, "plain or packed");
    for (unsigned long left = strtoul(argv[3], NULL, 10); left > 0; left--) {
        uint8_t block[BLOCK], packed[BLOCK];
        if (is_random)
            random_fill(&source, block, BLOCK);
        else
            scan(block, atoi(argv[1]));
        must(pbm_points_pack(block, BLOCK, packed, BLOCK) == 0, "points pack");
        must(fwrite(is_packed ? packed : block, BLOCK, 1, stdout) == 1, "the blocks cannot be written");
    }
    must(fflush(stdout) == 0, "the blocks cannot be written");
    return 0;
}
