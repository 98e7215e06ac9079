/*
 * pbm.h - a RAID-5 array that grows by adding disks (parity-based migration), over memory that the caller lends.
 *
 * The library keeps nothing between calls. What it knows of an array is in a record of 20 bytes. What the array holds is in
 * the images of its disks. The caller keeps both, and lends each call what it needs of them.
 *
 * BUILDING
 *   The archive is libpbm.a, for x86-64 and Linux. This header is C99, and C++11. A program needs the two and the C library:
 *       cc -std=c99 -Iinclude program.c libpbm.a -o program
 *   An archive of another version can link in silence. So compare pbm_version() with PBM_VERSION before any other call.
 *
 * WORDS
 *   line     scanner, saw and the cabinet of disks between them; it should not wait long
 *   saw      reads blocks, which a scanner has written
 *   drawer   holds one disk of the cabinet: drawer d has disk d
 *   fitter   the person who pulls drawers and puts in others
 *   slice    a pointer with a length in bytes; lent: for the time of one call
 *
 * SIZES
 *   n   old disks, 3 to 16            m   new disks, 1 to 16; 0 before growth      N   all disks, n + m
 *   B   block length, 1 to 4096       T   stripes, 1 to 1048576                    t   moves done (GROWTH)
 *   Place (S, d) is block S of disk d. Stripe S is the places (S, 0) to (S, N - 1). On a place stands a block, or the parity of
 *   its stripe, or nothing: then it is a blank, and zero. A disk is T * B bytes, 4 GiB at most. T and B stay as pbm_format has
 *   set them. The limits are constants below.
 *
 * IMAGES
 *   One slice of N * T * B bytes, disk 0 first, each disk T * B bytes. Place (S, d) begins at byte (d * T + S) * B.
 *   pbm_images_len and pbm_images_len_by give the length. The slice may lie elsewhere at each call.
 *   - pbm_grow is lent the old images with m disks after them, which may hold any bytes. So a caller first makes room: it
 *     copies or maps the old disks to where m more fit. If the call is refused, the next one is lent the disks of before,
 *     without these m: n disks, where the array has not grown.
 *   - Drawers that are files become one slice if they are mapped one after the other (examples/mapped_drawers.c). T * B must
 *     be a multiple of the page size for that. Drawers of other sizes have to be copied.
 *
 * RECORD
 *   byte 0       n
 *   byte 1       m
 *   byte 2       health: 0 whole, 1 one disk out, 2 lost, 3 one disk being rebuilt
 *   byte 3       the disk that is out or being rebuilt; 0 unless health is 1 or 3
 *   bytes 4-5    B, least byte first, as all numbers of more than a byte
 *   bytes 6-7    zero
 *   bytes 8-11   T
 *   bytes 12-15  t
 *   bytes 16-19  the stripes done of the disk being rebuilt; 0 unless health is 3
 *   A record is good exactly if all of these hold. Each field is in its limits. Bytes 6-7 are zero. The disk that is out or
 *   being rebuilt is below N, and byte 3 is 0 for health 0 and 2. The stripes done are fewer than T, and bytes 16-19 are 0
 *   for health 0, 1 and 2. t is at most the total of moves (GROWTH); with m = 0, t = 0.
 *   pbm_format makes a good record, and every accepted call leaves one: a caller need not set a byte of it. pbm_shape_of reads
 *   n, m, B and T of it. A record of 16 bytes, from before rebuilds in steps, becomes one of 20 by four zeroes after it.
 *
 * BLOCKS
 *   Blocks are numbered from 0. Their number is the capacity: T * (n - 1), and T * (n + m - 1) once a growth is over. While it
 *   goes on the new ones come zone by zone (NEW BLOCKS).
 *
 * GROWTH
 *   A growth brings blocks and parities to the new disks, one at a move. It goes by zones of n + m stripes, with n * m moves
 *   each; n zones are a group. Stripes after the last whole group are the tail: what stands there stays. So any T will do,
 *   whatever m is. The total of moves is T / (n * (n + m)) * n * n * m, with a division as C has it. The growth is over exactly
 *   when t is the total. Reads and writes are accepted between any two moves.
 *   - Where T is below n * (n + m) the total is 0, and the growth is over with pbm_grow itself. pbm_status then tells 0 of 0
 *     moves, as before a growth. What tells the two apart is m: 0 before a growth, and not 0 after pbm_grow (pbm_shape_of).
 *
 * NEW BLOCKS
 *   New blocks come as zones finish. A zone is finished once all its moves are done, so t / (n * m) zones are. While t is below
 *   the total there are T * (n - 1) + t / (n * m) * (n + m) * m blocks. Once it is the total there are T * (n + m - 1): then
 *   all that are left come at once, on stripes of the tail too.
 *   - A pbm_advance brings the new blocks of every zone that its moves finish: often none, with a large k many. pbm_status
 *     tells the capacity, which never falls in a growth. A new block that has not come is refused, 8.
 *   - A new block may be used at once, while other zones move. It is zero until it is written. Then it holds what it was last
 *     given, as all others do: with a disk out, while that is rebuilt, and after that too.
 *   - It never moves: what pbm_locate tells of it stays so, its parity's disk too.
 *
 * A DISK THAT IS OUT
 *   A disk that is out may hold any bytes, new ones while other calls run too (rule 4). Only pbm_format and pbm_continue touch
 *   it, and they write it. No other call reads or writes a byte of it. So its pages may be unmapped or protected until one of
 *   these two comes to their stripes.
 *   A block that stands on it is the xor of its stripe's other places. While a disk is out a growth stands still. It goes on
 *   later where it stopped.
 *   With a second disk out the array is lost, until it is formatted anew. The record of a lost array no longer names its
 *   disks. Whoever wants to know which two they were must note them elsewhere.
 *
 * A DISK THAT IS BEING REBUILT
 *   pbm_begin begins with stripe 0, and each pbm_continue makes the next k stripes of the disk. Between any two of these calls
 *   reads and writes go on. Stripes below the count of those done have the disk in service: its places are read, and written
 *   with each block. In all other stripes it counts as out: there it may hold any bytes, new ones while other calls run too.
 *   Only pbm_format touches them, and pbm_continue when it comes to them. A write keeps both kinds of stripes so. When all T
 *   stripes are done the array is whole. A growth stands still as with a disk out.
 *   If the same disk fails again, or is to be replaced by another new one, pbm_out makes it a disk that is out. The count is
 *   gone, and a new rebuild begins with stripe 0. Another disk out, and the array is lost.
 *
 * HOW LONG THE LINE WAITS
 *   The line waits as long as a call runs that writes (rule 4). Short are pbm_read and pbm_write: a block and its parity, or
 *   with a disk out one stripe. So are pbm_out, pbm_begin, pbm_status, pbm_locate and pbm_owner: they look at the record alone.
 *   pbm_advance makes k moves, and pbm_continue k stripes: choose k by how long the line may wait. pbm_format writes all images
 *   and pbm_grow all of the new disks, each in one go. pbm_sweep reads up to all of the images: reads go on meanwhile, writes
 *   wait.
 *
 * WHAT THE CALLER SEES TO
 *   1. Each pointer is good for the length given with it: to read if it is const, else to read and write. (Pages of a disk
 *      may be missing where it is or counts as out, see above.) A pointer to a number is good for one uint64_t and aligned.
 *   2. No pointer is null, not even that of a slice of length 0.
 *   3. No two things lent to one call overlap. A number that is not wanted needs a variable of its own too.
 *   4. While a call runs nothing else writes what it is lent, nor reads what it writes. So the calls on one array take
 *      turns, with a lock of the caller's if scanner and saw are threads.
 *      - pbm_read, pbm_status, pbm_locate, pbm_owner and pbm_sweep only read record and images. Any number of these five may
 *        run at once on one array, while none of the other seven does (a readers-writer lock). Each has an `into` and numbers
 *        of its own.
 *      - A disk that is out is an exception, and so are the stripes not yet done of one that is being rebuilt. A fitter may
 *        fill such a drawer while any call runs but pbm_format and pbm_continue: no other call touches it (tested, not proved).
 *      - Calls on different arrays need no lock, nor do those of SCAN POINTS. Two calls share nothing but what they are lent.
 *   5. Each call on an array is lent the record and the images as the last one left them. Between calls nothing else writes
 *      them, save what rule 4 excepts. No older copy takes their place: an old record beside newer images is a good record,
 *      and a block read by it may be another block.
 *   6. A call that has begun runs to its end. See below what a kill leaves.
 *   7. There are 16 KiB of stack left for a call. (Measured, not proved: less than 5 KiB in pbm_continue and pbm_sweep, less
 *      than 1 KiB in all others. Where the dynamic linker looks up memcpy, memmove or memset, at their first use, it takes
 *      some 3 KiB more. Signal handlers on the same stack need theirs beside it.)
 *   Where these are kept nothing else can go wrong: any numbers, and slices of any length, get an answer, a refusal at worst.
 *   Where 5 alone is broken a call still answers, whatever bytes the record holds, and stays within what it is lent. But what
 *   it reads and writes may be anything. pbm_sweep alone is made for such images (SOUND STRIPES).
 *
 * SOUND STRIPES
 *   A stripe is sound if its N places xor to zero and its blanks, the places of role PBM_BLANK, are zero. Where the rules
 *   above are kept all stripes of a whole array are sound. A drawer that has changed a byte by itself, an older copy of one,
 *   or a call that was killed may break that. pbm_sweep finds the first stripe that is not sound, whatever the images hold
 *   and wherever they come from.
 *   - A sweep checks neither the order of the drawers nor the record. Two drawers exchanged can pass it. Take 3 disks with
 *     T = 1000, a growth by 2 begun, no move made, and drawers 0 and 1 exchanged: all stripes are sound. Then 1333 of 2000
 *     blocks read wrong, if all differ and none is zero. A record with another t can pass too. So label the drawers, and keep
 *     the record with them.
 *   - It goes by the record it is lent, which tells where the blanks are. In a finished zone there are none, nor are there
 *     any before a growth or once it is over: there a stripe is sound if it xors to zero.
 *   - It does not tell which disk is wrong. Where that is known, pbm_out, pbm_begin and pbm_continue make that disk, in all
 *     stripes, what the others say it is. All stripes are sound again if no other disk was wrong.
 *   - Errors that cancel each other it does not find: the same bits off on two disks that have a block or the parity there,
 *     or two such places exchanged. If one of the two places is a blank, they are found.
 *
 * A CALL THAT IS KILLED
 *   A process may be killed in a call while record and images outlive it, as mapped files do. Nothing is promised of them then:
 *   the proofs speak of calls that have ended. What the library does today is tested by stopping calls inside. In doubt below
 *   is what may be neither old nor new.
 *   The record is written by the last few instructions of a call, once. Before those it is the old one, and images may be
 *   half changed; among them it may be a mix of old and new.
 *   - pbm_advance: some of its moves are made, and t counts none of them. In doubt is what these moves carry, k blocks and
 *     parities at most; all other places are as they were. So k bounds the damage: choose it small. Do not go on with such
 *     an array. By the old t what has moved reads as zeroes, and another advance would copy these zeroes over it.
 *   - pbm_write: in doubt are that block and the parity of its stripe.
 *   - pbm_format, pbm_grow, pbm_continue: the same call, made again, does it all, as long as the record is the old one. After
 *     a killed pbm_continue no block is in doubt then: what it has made is of stripes that count as not done.
 *   - pbm_out and pbm_begin write the record alone, the other calls neither record nor images.
 *   Nothing here mends an array in doubt yet. If the array was whole, pbm_sweep with the old record finds that it is in doubt.
 *   A stripe is not sound in which a pbm_advance has changed a byte, or a pbm_write some bytes and not all. It does not tell
 *   what was to be done there. So a careful program notes elsewhere, before each write and advance, that it begins and with
 *   which numbers, and strikes that out after it.
 *   If power is lost, memory and files may keep some writes and lose earlier ones. None of this holds then: power cuts are not
 *   covered yet.
 *
 * SCAN POINTS
 *   A scanner's block is often a row of 16-bit points, least byte first, whose neighbours differ little. pbm_points_pack
 *   makes a row of the same length in which that shows. Each point is replaced by its difference from the one before, modulo
 *   65536, the first from 0. All low bytes of the differences go first, then all high bytes. pbm_points_unpack is the way
 *   back. Either after the other gives the bytes that were there before, for every slice of even length, the empty one too.
 *       points   100, 103, 101   = bytes 64 00 67 00 65 00
 *       packed   100, 3, -2      = bytes 64 03 fe 00 00 ff
 *   Packed, a block is no shorter. But differences are small, so most high bytes are 00 or ff. A general compressor, on the
 *   way to the archive or over a slow link, makes it a fifth to a half shorter than it would be else (gzip, on outlines of
 *   made-up logs: docs/SPEED.md).
 *   These two calls are on no array: they know no record and no images. Pack before pbm_write, unpack after pbm_read, or use
 *   neither. Each goes from one slice into another, not in place; for whole blocks B has to be even. A block that was never
 *   written is zero, and zero points packed are zeroes too. If such a call is killed, its target may be half filled.
 *
 * REFUSALS
 *   Each call but pbm_version returns 0, done, or the lowest number below whose condition holds. A refusal changes no byte of a
 *   slice that is lent, and sets every number beside it to 0. The two of SCAN POINTS have row 11 alone: "all" in another row is
 *   without them.
 *
 *    1  record            not 20 bytes long: all calls; not good: all but format
 *    2  lost              health is lost: all but format, status, locate, owner
 *    3  degraded          a disk is out or being rebuilt: grow, advance, sweep
 *    4  grown             m is not 0: grow
 *    5  nothing to move   m is 0, or t is the total: advance
 *    6  geometry          n, B or T outside its limits: format; m outside its limits: grow
 *    7  images            length not N * T * B (format: by its own n, B and T; grow: the new N): all but out, status,
 *                         locate, owner
 *    8  past the end      block number at or above the capacity now: read, write, locate; S not below T: owner
 *    9  block length      lent block not B bytes: read, write
 *   10  disk              not below N, or out already and not being rebuilt: out; not out, or being rebuilt already: begin;
 *                         no disk is being rebuilt: continue; not below N: owner
 *   11  points            an odd length, or two lengths that differ: points pack, points unpack
 */
#ifndef PBM_H
#define PBM_H

#include <stddef.h>
#include <stdint.h>

#ifdef __cplusplus
extern "C" {
#endif

/* The version of this header: raised whenever the signature of a call, or the record, changes. */
#define PBM_VERSION 1

/* Before every call but pbm_version: a compiler that can, warns if its number is not looked at, or if a pointer is null. */
#if defined(__GNUC__)
#define PBM_CALL __attribute__((warn_unused_result, nonnull))
#else
#define PBM_CALL
#endif

/* The limits of n, m, B and T. */
enum {
    PBM_N_MIN = 3,
    PBM_N_MAX = 16,
    PBM_M_MIN = 1,
    PBM_M_MAX = 16,
    PBM_BLOCK_LEN_MIN = 1,
    PBM_BLOCK_LEN_MAX = 4096,
    PBM_STRIPES_MIN = 1,
    PBM_STRIPES_MAX = 1048576
};

/* The length of a record. */
enum { PBM_RECORD_LEN = 20 };

/* The byte of the record at which each field begins; at PBM_AT_ZERO two that are no field and must be zero. */
enum {
    PBM_AT_N = 0,
    PBM_AT_M = 1,
    PBM_AT_HEALTH = 2,
    PBM_AT_OUT = 3,
    PBM_AT_BLOCK_LEN = 4,
    PBM_AT_ZERO = 6,
    PBM_AT_STRIPES = 8,
    PBM_AT_MOVES = 12,
    PBM_AT_REBUILT = 16
};

/* What a call returns. */
enum {
    PBM_DONE = 0,
    PBM_RECORD = 1,
    PBM_LOST = 2,
    PBM_DEGRADED = 3,
    PBM_GROWN = 4,
    PBM_NOTHING_TO_MOVE = 5,
    PBM_GEOMETRY = 6,
    PBM_IMAGES = 7,
    PBM_PAST_THE_END = 8,
    PBM_BLOCK_LENGTH = 9,
    PBM_DISK = 10,
    PBM_POINTS = 11
};

/* The word of a number that a call returned, for messages: "done", or the word under REFUSALS. */
static inline const char *pbm_word(uint8_t number)
{
    switch (number) {
    case PBM_DONE: return "done";
    case PBM_RECORD: return "record";
    case PBM_LOST: return "lost";
    case PBM_DEGRADED: return "degraded";
    case PBM_GROWN: return "grown";
    case PBM_NOTHING_TO_MOVE: return "nothing to move";
    case PBM_GEOMETRY: return "geometry";
    case PBM_IMAGES: return "images";
    case PBM_PAST_THE_END: return "past the end";
    case PBM_BLOCK_LENGTH: return "block length";
    case PBM_DISK: return "disk";
    case PBM_POINTS: return "points";
    default: return "no such number";
    }
}

/* n, m, B and T, as a record has them. */
struct pbm_shape {
    uint64_t n, m, block_len, stripes;
};

/* n, m, B and T of a record of PBM_RECORD_LEN bytes. If it is not good, which pbm_status tells, they may be any numbers. */
static inline struct pbm_shape pbm_shape_of(const uint8_t *record)
{
    const uint8_t *b = record + PBM_AT_BLOCK_LEN, *t = record + PBM_AT_STRIPES;
    struct pbm_shape shape;
    shape.n = record[PBM_AT_N];
    shape.m = record[PBM_AT_M];
    shape.block_len = (uint64_t)b[0] | (uint64_t)b[1] << 8;
    shape.stripes = (uint64_t)t[0] | (uint64_t)t[1] << 8 | (uint64_t)t[2] << 16 | (uint64_t)t[3] << 24;
    return shape;
}

/*
 * The length that the images of so many disks must have, computed in 64 bits. For pbm_format, whatever array was there before,
 * disks is n. For numbers outside the limits it may be any number.
 */
static inline uint64_t pbm_images_len(uint64_t disks, uint64_t block_len, uint64_t stripes)
{
    return disks * stripes * block_len;
}

/*
 * The same for the disks of a record of PBM_RECORD_LEN bytes and so many more: m more for pbm_grow, and 0 more for all other
 * calls on that array. Not for pbm_format, which makes another array: its length is pbm_images_len of the new numbers. If the
 * record is not good it may be any number.
 */
static inline uint64_t pbm_images_len_by(const uint8_t *record, uint64_t more)
{
    struct pbm_shape shape = pbm_shape_of(record);
    return pbm_images_len(shape.n + shape.m + more, shape.block_len, shape.stripes);
}

/* Health, as pbm_status tells it. */
enum { PBM_HEALTH_WHOLE = 0, PBM_HEALTH_OUT = 1, PBM_HEALTH_LOST = 2, PBM_HEALTH_REBUILDING = 3 };

/* What stands on a place, as pbm_owner tells it. */
enum { PBM_BLANK = 0, PBM_PARITY = 1, PBM_DATA = 2 };

/*
 * The version that the archive was made for: PBM_VERSION of its header. With another, signatures or the record differ, and no
 * other call of it may be made.
 */
uint64_t pbm_version(void);

/*
 * Makes a new array of n disks with `stripes` stripes and blocks of `block_len` bytes: zeroes the images and sets the
 * record. The line waits until all images are written.
 * Lent: record, written, with any bytes in it before; images of n disks, pbm_images_len(n, block_len, stripes) bytes, written.
 * Refusals: 1 record (by its length alone), 6 geometry, 7 images.
 */
PBM_CALL
uint8_t pbm_format(uint8_t *record, size_t record_len, uint8_t *images, size_t images_len,
                   uint64_t n, uint64_t block_len, uint64_t stripes);

/*
 * Fills `into` with block `block`.
 * Lent: record and images, read; into, written, B bytes.
 * Refusals: 1 record, 2 lost, 7 images, 8 past the end, 9 block length.
 */
PBM_CALL
uint8_t pbm_read(const uint8_t *record, size_t record_len, const uint8_t *images, size_t images_len,
                 uint64_t block, uint8_t *into, size_t into_len);

/*
 * Replaces block `block` by `data`. The block's place takes the data, the parity place its old value xor the old block xor
 * the data. Either is skipped if its disk is out, or counts as out in that stripe. All other bytes stay.
 * Lent: record, read; images, written; data, read, B bytes.
 * Refusals: 1 record, 2 lost, 7 images, 8 past the end, 9 block length.
 */
PBM_CALL
uint8_t pbm_write(const uint8_t *record, size_t record_len, uint8_t *images, size_t images_len,
                  uint64_t block, const uint8_t *data, size_t data_len);

/*
 * Begins a growth by m disks: zeroes the images after the first n disks, whatever they held, and sets m. No block has moved
 * yet. If the total is 0 the growth is over at once, with all new blocks; else none has come yet. An array grows once. The
 * line waits until the new disks are written.
 * Lent: record, written; the old images with m disks after them, these written. If refused, the next call is lent the old ones.
 * Refusals: 1 record, 2 lost, 3 degraded, 4 grown, 6 geometry, 7 images.
 */
PBM_CALL
uint8_t pbm_grow(uint8_t *record, size_t record_len, uint8_t *images, size_t images_len, uint64_t m);

/*
 * Makes the next k moves of the growth, or all that are left if those are fewer. Sets `made` to how many, which is t's rise.
 * A move copies a block or a parity to its new place and zeroes the place it left. With k = 0 it makes none. Each zone that
 * is finished by these moves raises the capacity (NEW BLOCKS). Call it while pbm_status tells fewer moves than their total:
 * where that is 0, not at all. While it runs the line waits: choose k by that.
 * Lent: record and images, written; made, written. If it is killed, k bounds what is in doubt (A CALL THAT IS KILLED).
 * Refusals: 1 record, 2 lost, 3 degraded, 5 nothing to move, 7 images.
 */
PBM_CALL
uint8_t pbm_advance(uint8_t *record, size_t record_len, uint8_t *images, size_t images_len,
                    uint64_t k, uint64_t *made);

/*
 * Reports disk `disk` out. A whole array is then one with that disk out. So is one that was rebuilding this disk, whatever
 * was done of it. One with another disk out or being rebuilt is lost, and its record names neither of the two.
 * Lent: record, written.
 * Refusals: 1 record, 2 lost, 10 disk.
 */
PBM_CALL
uint8_t pbm_out(uint8_t *record, size_t record_len, uint64_t disk);

/*
 * Begins to rebuild disk `disk`, which is out: none of its stripes is done. Whatever it holds will do: it may be a new one.
 * Lent: record, written; images, of which no byte is looked at, for their length.
 * Refusals: 1 record, 2 lost, 7 images, 10 disk.
 */
PBM_CALL
uint8_t pbm_begin(uint8_t *record, size_t record_len, const uint8_t *images, size_t images_len, uint64_t disk);

/*
 * Makes the next k stripes of the disk that is being rebuilt, or all that are left if those are fewer. Sets `made` to how
 * many. It makes them in rising order, each as the xor of the other places. When none is left the array is whole. With k = 0
 * it makes none. Call it while pbm_status tells PBM_HEALTH_REBUILDING. In steps or at once, it leaves the same. While it runs
 * the line waits: choose k by that.
 * Lent: record, written; images, those stripes of the disk written; made, written.
 * Refusals: 1 record, 2 lost, 7 images, 10 disk.
 */
PBM_CALL
uint8_t pbm_continue(uint8_t *record, size_t record_len, uint8_t *images, size_t images_len,
                     uint64_t k, uint64_t *made);

/*
 * Tells six numbers. The capacity in blocks rises as zones finish. The moves done are t. Their total is 0 before growth, and in
 * one with no whole group (GROWTH). The health is PBM_HEALTH_WHOLE, _OUT, _LOST or _REBUILDING. The disk that is out or being
 * rebuilt is 0 unless health is PBM_HEALTH_OUT or _REBUILDING. How many of its T stripes are rebuilt is 0 unless _REBUILDING.
 * n, m, B and T are in the record (pbm_shape_of).
 * Lent: record, read; the six numbers, written.
 * Refusals: 1 record.
 */
PBM_CALL
uint8_t pbm_status(const uint8_t *record, size_t record_len, uint64_t *capacity, uint64_t *moves,
                   uint64_t *total, uint64_t *health, uint64_t *out_disk, uint64_t *rebuilt);

/*
 * Tells where block `block` now stands, whether disks are out or not: its stripe and its disk, the disk on which the parity
 * of that stripe stands, and whether a move now done has carried the block itself. `moved` is 1 then. Else it is 0: the block
 * stands where it stood before the growth, or is new, even if the parity was carried. So a program can light two drawers for
 * the fitter: that of a block and that of its parity.
 * Lent: record, read; the four numbers, written.
 * Refusals: 1 record, 8 past the end.
 */
PBM_CALL
uint8_t pbm_locate(const uint8_t *record, size_t record_len, uint64_t block, uint64_t *stripe, uint64_t *disk,
                   uint64_t *parity_disk, uint64_t *moved);

/*
 * Tells what now stands on disk `disk` of stripe `stripe`: its role (PBM_BLANK, PBM_PARITY or PBM_DATA) and the number
 * of the block (0 unless the role is PBM_DATA).
 * Lent: record, read; the two numbers, written.
 * Refusals: 1 record, 8 past the end (of the stripes), 10 disk.
 */
PBM_CALL
uint8_t pbm_owner(const uint8_t *record, size_t record_len, uint64_t stripe, uint64_t disk,
                  uint64_t *role, uint64_t *block);

/*
 * Reads stripe after stripe up to the first that is not sound (SOUND STRIPES), and stops there: no byte of a stripe after it
 * is read (tested, not proved). Sets `found` to 1 and `stripe` to that one, or both to 0 if all are sound. Sets `read` to the
 * stripes read: that one's number plus 1, or T. It checks neither the order of the drawers nor the record.
 * Lent: record and images, read; the three numbers, written.
 * Refusals: 1 record, 2 lost, 3 degraded, 7 images.
 */
PBM_CALL
uint8_t pbm_sweep(const uint8_t *record, size_t record_len, const uint8_t *images, size_t images_len,
                  uint64_t *found, uint64_t *stripe, uint64_t *read);

/*
 * Fills `packed` with the points packed (SCAN POINTS).
 * Lent: points, read; packed, written, with any bytes in it before. Both have the same even length, which may be 0.
 * Refusals: 11 points.
 */
PBM_CALL
uint8_t pbm_points_pack(const uint8_t *points, size_t points_len, uint8_t *packed, size_t packed_len);

/*
 * Fills `points` with the points that were packed (SCAN POINTS).
 * Lent: packed, read; points, written, with any bytes in it before. Both have the same even length, which may be 0.
 * Refusals: 11 points.
 */
PBM_CALL
uint8_t pbm_points_unpack(const uint8_t *packed, size_t packed_len, uint8_t *points, size_t points_len);

#ifdef __cplusplus
}
#endif

#endif
