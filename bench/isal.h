/*
 * Read and continue with Intel's ISA-L (xor_gen) for the sums; sweep with xor_check, and isal_zero_detect for blanks; every
 * stripe's parity checked by xor_check.
 */
#ifndef BENCH_ISAL_H
#define BENCH_ISAL_H

#include <stdbool.h>
#include <stddef.h>
#include <stdint.h>

/* As pbm_read, pbm_continue and pbm_sweep; images and `into` begin at a multiple of 32 bytes, and so does every block. */
uint8_t isal_read(const uint8_t *record, size_t record_len, const uint8_t *images, size_t images_len, uint64_t block,
                  uint8_t *into, size_t into_len);
uint8_t isal_continue(uint8_t *record, size_t record_len, uint8_t *images, size_t images_len, uint64_t k,
                      uint64_t *made);

uint8_t isal_sweep(const uint8_t *record, size_t record_len, const uint8_t *images, size_t images_len, uint64_t *found,
                   uint64_t *stripe, uint64_t *read);

/*
 * Clears what ISA-L leaves in the processor: xor_gen does not clear the upper halves of the vector registers that it used, after
 * which loops with vectors of 16 bytes, as the library and C have them, are slow on some processors, until this.
 */
void isal_clear(void);

/* Do the places of every stripe xor to zero? */
bool isal_check(const uint8_t *images, size_t disks, size_t stripes, size_t block_len);

#endif
