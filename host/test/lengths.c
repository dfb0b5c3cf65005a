/* Tables of a wrong length: every call answers 18, whatever the slot, and all is as before when the length is right again. */
#include "test.h"
#include <string.h>

static const uint8_t object[] = {0x17, 0x07, 0x0a, 0x80, 0x01, 0x77, 0x00, 0x0e, 0x01, 'a', 'b', 'c', 'd'};
static const struct track track = {1, 48000, 1, 1024, 0, 0, LOCMAF_CLEAR, 0};

static void refused(struct side *s, uint64_t slot, const struct bytes *input) {
    uint64_t numbers[4] = {side_open(s, slot, &track), side_close(s, slot), side_group(s, slot),
                           side_code(s, slot, 0, input->at, input->length, 200).number};
    static const char *const calls[4] = {"open", "close", "start a group", "a chunk or object"};
    for (int i = 0; i < 4; i++)
        check(numbers[i] == 18, "a table of %zu words lent as %zu, slot %llx, %s: number %llu", s->length, s->lent, (unsigned long long)slot,
              calls[i], (unsigned long long)numbers[i]);
}

static void wrong_lengths(struct side *s, const struct bytes *input) {
    const size_t n = s->length, share = share_length(s), lengths[] = {0, 1, share, n - share, n - 1, n + 1, n + share};
    const uint64_t slots[] = {0, 3, 7, 8, UINT64_MAX};
    side_open(s, 3, &track);
    check(side_code(s, 3, 0, input->at, input->length, 200).number == 0, "the right length");
    for (size_t i = 0; i < sizeof lengths / sizeof lengths[0]; i++) {
        s->lent = lengths[i];
        for (size_t k = 0; k < sizeof slots / sizeof slots[0]; k++)
            refused(s, slots[k], input);
    }
    s->lent = n;
    check(side_open(s, 8, &track) == 1, "slot 8 of a table of the right length");
    check(side_code(s, 3, 1, input->at, input->length, 200).number == 0, "the right length again");
}

void test_lengths(void) {
    struct side encoder, receiver;
    struct bytes o = {0}, c = {0};
    side_start(&encoder, 1);
    side_start(&receiver, 0);
    append(&o, object, sizeof object);
    wrong_lengths(&receiver, &o);
    /* the chunk to encode is the one that the receiver makes */
    struct answer a = side_code(&receiver, 3, 0, o.at, o.length, 200);
    append(&c, a.output, a.front);
    append(&c, "abcd", 4);
    wrong_lengths(&encoder, &c);
    release(&o);
    release(&c);
    side_end(&encoder);
    side_end(&receiver);
}
