/* The calls of include/pbm.h and view, hand-written in C: same layout, same tests, same refusals. */
#ifndef BENCH_PEER_H
#define BENCH_PEER_H

#include <stddef.h>
#include <stdint.h>

uint8_t peer_format(uint8_t *record, size_t record_len, uint8_t *images, size_t images_len, uint64_t n,
                    uint64_t block_len, uint64_t stripes);
uint8_t peer_read(const uint8_t *record, size_t record_len, const uint8_t *images, size_t images_len, uint64_t block,
                  uint8_t *into, size_t into_len);
/* Sets `view` to the block in the images, or, if its disk counts as out, to the scratch, filled with it; if refused, to null. */
uint8_t peer_view(const uint8_t *record, size_t record_len, const uint8_t *images, size_t images_len, uint64_t block,
                  uint8_t *scratch, size_t scratch_len, const uint8_t **view);
uint8_t peer_write(const uint8_t *record, size_t record_len, uint8_t *images, size_t images_len, uint64_t block,
                   const uint8_t *data, size_t data_len);
/* The same without the library's rule for stores: parity and block at once; a sum of more than eight is stored several times. */
uint8_t peer_write_at_will(const uint8_t *record, size_t record_len, uint8_t *images, size_t images_len, uint64_t block,
                           const uint8_t *data, size_t data_len);
uint8_t peer_grow(uint8_t *record, size_t record_len, uint8_t *images, size_t images_len, uint64_t m);
uint8_t peer_advance(uint8_t *record, size_t record_len, uint8_t *images, size_t images_len, uint64_t k,
                     uint64_t *made);
uint8_t peer_out(uint8_t *record, size_t record_len, uint64_t disk);
uint8_t peer_begin(uint8_t *record, size_t record_len, const uint8_t *images, size_t images_len, uint64_t disk);
uint8_t peer_continue(uint8_t *record, size_t record_len, uint8_t *images, size_t images_len, uint64_t k,
                      uint64_t *made);
uint8_t peer_status(const uint8_t *record, size_t record_len, uint64_t *capacity_now, uint64_t *moves, uint64_t *total,
                    uint64_t *health, uint64_t *out_disk, uint64_t *rebuilt);
uint8_t peer_locate(const uint8_t *record, size_t record_len, uint64_t block, uint64_t *stripe, uint64_t *disk,
                    uint64_t *parity_disk, uint64_t *moved);
uint8_t peer_owner(const uint8_t *record, size_t record_len, uint64_t stripe, uint64_t disk, uint64_t *role,
                   uint64_t *block);
uint8_t peer_sweep(const uint8_t *record, size_t record_len, const uint8_t *images, size_t images_len, uint64_t *found,
                   uint64_t *stripe, uint64_t *read);
uint8_t peer_points_pack(const uint8_t *points, size_t points_len, uint8_t *packed, size_t packed_len);
uint8_t peer_points_unpack(const uint8_t *packed, size_t packed_len, uint8_t *points, size_t points_len);

#endif
