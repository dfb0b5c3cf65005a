/* LOCMAF for programs in C: the proved codec.
 *
 * An encoder turns CMAF chunks into LOCMAF objects, and a receiver turns LOCMAF objects into CMAF chunks. Each serves eight tracks, one to a slot (0
 * to 7), and keeps everything in a table of 64-bit numbers that the caller lends. An encoder's table and a receiver's are two tables.
 *
 * Tables. A table is an array of exactly locmaf_encoder_words() or locmaf_receiver_words() numbers, all 0 at first. `words` is its length in
 * numbers, not in bytes; with any other length a call answers LOCMAF_TABLE. A table has the alignment of uint64_t, and the caller neither reads
 * nor writes its numbers. A copy of a table is a table in the same state, on the same kind of machine.
 *
 * Memory. Everything belongs to the caller. Nothing is allocated, and no pointer is kept after a call. Pointers must not be NULL, also where a length
 * is 0; a length must not be more than what is really there; and what is lent to one call (table, bytes, output, *number, *front) must not overlap.
 * Bytes need no alignment. Chunks and objects are read and never written.
 *
 * Threads. Nothing is kept outside of tables, so two tables can be used at once, also from two threads; one table must not be used by two threads at
 * the same time.
 *
 * Stack. A call uses less than 16 KiB, whatever it is given: locmaf_encode about 11 KiB, locmaf_receive about 11, and up to 14 where an object has
 * events. */
#ifndef LOCMAF_H
#define LOCMAF_H

#include <stddef.h>
#include <stdint.h>

#ifdef __cplusplus
extern "C" {
#endif

/* What a call answers. Where several would do, it is the first one in the order of the rules: LOCMAF_TABLE for the length, LOCMAF_SLOT, LOCMAF_TABLE
 * for the share, then the others.
 *
 * On every number but 0 nothing is written to the output. 12 to 16 and 21, which only a receiver answers, drop the slot's reference (deltas are answered
 * with 11 until the next full object); every other refusal changes nothing, and the same call may be made again. A slot stays open whatever is refused. */
enum locmaf_number {
    LOCMAF_DONE = 0,          /* done */
    LOCMAF_SLOT = 1,          /* slot number above 7 */
    LOCMAF_NOT_OPEN = 2,      /* slot not open */
    LOCMAF_OPEN = 3,          /* opening an open slot */
    LOCMAF_PARAMETERS = 4,    /* bad parameters */
    LOCMAF_TREE = 5,          /* chunk: the tree of boxes is broken */
    LOCMAF_BOX = 6,           /* chunk: wrong box, order, version, flags or box length */
    LOCMAF_RULE = 7,          /* chunk: any other rule of the chunk accepted broken */
    LOCMAF_MAXIMUM = 8,       /* chunk: a count or length past its maximum */
    LOCMAF_WIDE = 9,          /* chunk: BMDT past its maximum, whatever the wish; or, where no delta is given, a number too wide in the full object */
    LOCMAF_SKIPPED = 10,      /* header id neither 23 nor 25: skipped */
    LOCMAF_NO_REFERENCE = 11, /* delta, and no reference held */
    LOCMAF_UNREADABLE = 12,   /* object unreadable */
    LOCMAF_IDS = 13,          /* id unknown, twice or forbidden here; a full without 10 or 14; only one of 18 and 20; 22 or 24 without them; a delta
                                 with `prft` ids where the current full has none */
    LOCMAF_SET = 14,          /* deletion, list length (ids 9 and 23 too) or resulting set unlawful, any other absence included */
    LOCMAF_RANGE = 15,        /* value outside its range or maximum */
    LOCMAF_SUMS = 16,         /* sizes or protected sums disagree */
    LOCMAF_ROOM = 17,         /* output shorter than the front */
    LOCMAF_TABLE = 18,        /* table of the wrong length, or the named share unlawful */
    LOCMAF_COUNTER = 21       /* derived IV past its size */
};

/* How a track is protected. */
enum locmaf_protection { LOCMAF_CLEAR = 0, LOCMAF_CENC = 1, LOCMAF_CBCS = 2 };

/* The length of an encoder's table, in 64-bit numbers. */
uint64_t locmaf_encoder_words(void);

/* Opens a slot on a track. Both sides of a track are opened with the same parameters:
 *   track, timescale           track_ID and timescale, 1 to 2^32-1
 *   description                the default sample description index of `trex`, 1 to 2^32-1
 *   duration, size             the default sample duration and size of `trex`, 0 to 2^32-1
 *   flags                      the default sample flags of `trex` in five bits: non_sync + 2 x depends_on + 8 x is_depended_on
 *   protection                 of enum locmaf_protection
 *   iv_size                    8 or 16 for LOCMAF_CENC, else 0
 * Answers the number: 0, 1, 3, 4 or 18. */
uint64_t locmaf_encoder_open(uint64_t *table, size_t words, uint64_t slot, uint64_t track, uint64_t timescale, uint64_t description,
                             uint64_t duration, uint64_t size, uint64_t flags, uint64_t protection, uint64_t iv_size);

/* Closes a slot: its part of the table becomes 0. Answers the number: 0, 1, 2 or 18. */
uint64_t locmaf_encoder_close(uint64_t *table, size_t words, uint64_t slot);

/* Starts a group in a slot: its reference is dropped, so that the next object is a full one. Answers the number: 0, 1, 2 or 18. */
uint64_t locmaf_encoder_start_group(uint64_t *table, size_t words, uint64_t slot);

/* Encodes one chunk. `delta` is 0 for a full object; any other value wishes for a delta, which is given where a reference is held and every number
 * fits, and else a full object. *number is the number: 0, 1, 2, 5 to 9, 17 or 18. Where it is 0, the first *front bytes of the output are the object
 * up to its payload, the bytes past them stay as they were, and the answer is the length of the payload: the last so many bytes of the chunk, which
 * follow the front in the object and are never copied. Otherwise *front and the answer are 0. No front has more than 12,343 bytes. */
uint64_t locmaf_encode(uint64_t *table, size_t words, uint64_t slot, uint64_t delta, const uint8_t *chunk, size_t chunk_len, uint8_t *output,
                       size_t output_len, uint64_t *number, uint64_t *front);

/* The length of a receiver's table, in 64-bit numbers. */
uint64_t locmaf_receiver_words(void);

/* Opens a slot on a track, as locmaf_encoder_open does. Answers the number: 0, 1, 3, 4 or 18. */
uint64_t locmaf_receiver_open(uint64_t *table, size_t words, uint64_t slot, uint64_t track, uint64_t timescale, uint64_t description,
                              uint64_t duration, uint64_t size, uint64_t flags, uint64_t protection, uint64_t iv_size);

/* Closes a slot: its part of the table becomes 0. Answers the number: 0, 1, 2 or 18. */
uint64_t locmaf_receiver_close(uint64_t *table, size_t words, uint64_t slot);

/* Starts a group in a slot: its reference is dropped. Answers the number: 0, 1, 2 or 18. */
uint64_t locmaf_receiver_start_group(uint64_t *table, size_t words, uint64_t slot);

/* Receives one object. *number is the number: 0, 1, 2, 10 to 18 or 21. Where it is 0, the first *front bytes of the output are the chunk up to and with
 * the `mdat` header, the bytes past them stay as they were, and the answer is the length of the payload: the last so many bytes of the object, which
 * follow the front in the chunk and are never copied. Otherwise *front and the answer are 0. No front has more than 8,577 bytes. */
uint64_t locmaf_receive(uint64_t *table, size_t words, uint64_t slot, const uint8_t *object, size_t object_len, uint8_t *output,
                        size_t output_len, uint64_t *number, uint64_t *front);

#ifdef __cplusplus
}
#endif

#endif
