/* The worked example of the rules, in both directions and byte for byte, and what the rules say of the table's words: all zeros is fresh, a slot's
 * share starts at its number times the share's length, closing zeroes it. */
#include "test.h"
#include <string.h>

static const struct track example_track = {1, 48000, 1, 1024, 0, 0, LOCMAF_CLEAR, 0};
static const uint8_t object_front[] = {0x17, 0x07, 0x0a, 0x80, 0x01, 0x77, 0x00, 0x0e, 0x01};
/* the chunk's front, in numbers of four bytes */
static const uint32_t chunk_numbers[25] = {
    0x0000005c, 0x6d6f6f66, 0x00000010, 0x6d666864, 0x00000000, 0x00000001,
    0x00000044, 0x74726166, 0x00000010, 0x74666864, 0x00020000, 0x00000001,
    0x00000014, 0x74666474, 0x01000000, 0x00000000, 0x00017700,
    0x00000018, 0x7472756e, 0x01000201, 0x00000001, 0x00000064, 0x00000004,
    0x0000000c, 0x6d646174};

static void same_front(const char *what, struct answer a, const uint8_t *front, size_t length) {
    check(a.number == 0 && a.front == length && a.payload == 4, "the example, %s: number %llu, front %llu, payload %llu", what,
          (unsigned long long)a.number, (unsigned long long)a.front, (unsigned long long)a.payload);
    for (size_t i = 0; i < length && i < a.front; i++)
        check(a.output[i] == front[i], "the example, %s: byte %zu should be %02x, and is %02x", what, i, front[i], a.output[i]);
}

/* What is expected behind the last chunk: its BMDT and its durations, or nothing. */
static void expects(struct side *s, uint64_t time) {
    const uint64_t *share = share_of(s, 0);
    check(share[PAST] == 0 && share[EXPECTED] == time, "the example: the %s expects %llu, and not %llu", s->encoder ? "encoder" : "receiver",
          (unsigned long long)share[EXPECTED], (unsigned long long)time);
}

static void both_ways(void) {
    struct side encoder, receiver;
    uint8_t chunk[104], object[13];
    for (size_t i = 0; i < 100; i++)
        chunk[i] = (uint8_t)(chunk_numbers[i / 4] >> (24 - 8 * (i % 4)));
    memcpy(chunk + 100, "abcd", 4);
    memcpy(object, object_front, 9);
    memcpy(object + 9, "abcd", 4);
    side_start(&encoder, 1);
    side_start(&receiver, 0);
    side_open(&encoder, 0, &example_track);
    side_open(&receiver, 0, &example_track);
    /* the output as short as it may be, and one byte shorter */
    check(side_code(&encoder, 0, 0, chunk, 104, 8).number == 17, "the example: an output of 8 bytes is too short");
    check(side_code(&receiver, 0, 0, object, 13, 99).number == 17, "the example: an output of 99 bytes is too short");
    same_front("object", side_code(&encoder, 0, 0, chunk, 104, 9), object_front, 9);
    same_front("chunk", side_code(&receiver, 0, 0, object, 13, 100), chunk, 100);
    expects(&encoder, 96000 + 1024);
    expects(&receiver, 96000 + 1024);
    side_group(&encoder, 0);
    expects(&encoder, 0);
    side_end(&encoder);
    side_end(&receiver);
}

/* Each slot in turn, from the last: only its own share is no longer zeros, and closing brings the zeros back. */
static void words(int encoder) {
    struct side s;
    side_start(&s, encoder);
    check(s.length > 0 && s.length % SLOTS == 0, "a table of %zu words has no eight shares", s.length);
    for (uint64_t slot = SLOTS; slot-- > 0;) {
        check(side_group(&s, slot) == 2, "a fresh slot is closed");
        check(side_open(&s, slot, &example_track) == 0, "slot %d opens", (int)slot);
        size_t in_use = 0;
        for (size_t i = 0; i < share_length(&s); i++)
            in_use += share_of(&s, slot)[i] != 0;
        check(in_use > 0, "opening slot %d left its share zeros", (int)slot);
    }
    for (uint64_t slot = 0; slot < SLOTS; slot++)
        check(side_close(&s, slot) == 0, "slot %d closes", (int)slot);
    for (size_t i = 0; i < s.length; i++)
        check(s.table[i] == 0, "all slots closed, but word %zu is %llx", i, (unsigned long long)s.table[i]);
    side_end(&s);
}

void test_worked(void) {
    both_ways();
    words(1);
    words(0);
}
