/* The calls whose work is a sum, on ISA-L. Tests and layout are those of the hand-written peer. */
#include "isal.h"

#include <isa-l/mem_routines.h>
#include <isa-l/raid.h>

#include "array.h"

/* ISA-L takes pointers to what may be written, whatever it does with it. */
static void *vector(const uint8_t *bytes) { return (void *)(uintptr_t)bytes; }

/* What is compiled here uses no upper half, so that none is lost. */
void isal_clear(void)
{
    if (__builtin_cpu_supports("avx")) __asm__ volatile("vzeroupper");
}

/* Sources and result are in one list, and the last alone is written. */
static void sum_others(const struct array *a, const uint8_t *images, uint32_t stripe, uint32_t but, uint8_t *into)
{
    void *vectors[MAX_DISKS];
    int count = 0;
    for (uint32_t d = 0; d < a->disks; d++)
        if (d != but)
            vectors[count++] = vector(images + offset_of(a, stripe, d));
    vectors[count++] = into;
    xor_gen(count, (int)a->block_len, vectors);
}

uint8_t isal_read(const uint8_t *record, size_t record_len, const uint8_t *images, size_t images_len, uint64_t block,
                  uint8_t *into, size_t into_len)
{
    struct array a;
    struct place q;
    uint8_t refused = array_reach(&a, record, record_len, images_len, block, into_len, &q);
    if (refused)
        return refused;
    if (is_absent(&a, q.stripe.number, q.disk))
        sum_others(&a, images, q.stripe.number, q.disk, into);
    else
        memcpy(into, images + offset_of(&a, q.stripe.number, q.disk), a.block_len);
    return PBM_DONE;
}

uint8_t isal_continue(uint8_t *record, size_t record_len, uint8_t *images, size_t images_len, uint64_t k, uint64_t *made)
{
    return continue_with(sum_others, record, record_len, images, images_len, k, made);
}

static bool cancel_places(const struct array *a, const uint8_t *images, uint32_t stripe, uint32_t first, uint32_t count)
{
    void *vectors[MAX_DISKS];
    for (uint32_t i = 0; i < count; i++)
        vectors[i] = vector(images + offset_of(a, stripe, first + i));
    return xor_check((int)count, (int)a->block_len, vectors) == 0;
}

static bool places_are_zero(const struct array *a, const uint8_t *images, uint32_t stripe, uint32_t first, uint32_t count)
{
    for (uint32_t d = first; d < first + count; d++)
        if (isal_zero_detect(vector(images + offset_of(a, stripe, d)), a->block_len) != 0)
            return false;
    return true;
}

uint8_t isal_sweep(const uint8_t *record, size_t record_len, const uint8_t *images, size_t images_len, uint64_t *found,
                   uint64_t *stripe, uint64_t *read)
{
    struct tests by = {cancel_places, places_are_zero};
    return sweep_with(by, record, record_len, images, images_len, found, stripe, read);
}

bool isal_check(const uint8_t *images, size_t disks, size_t stripes, size_t block_len)
{
    void *vectors[MAX_DISKS];
    int failed = 0;
    for (size_t s = 0; s < stripes; s++) {
        for (size_t d = 0; d < disks; d++)
            vectors[d] = vector(images + (d * stripes + s) * block_len);
        failed |= xor_check((int)disks, (int)block_len, vectors);
    }
    return failed == 0;
}
