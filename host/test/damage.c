/* Damaged words. A call on a share that isn't lawful answers 18 and touches nothing; where a changed word is lawful, the call goes on with it. Either
 * way judge.c sees to it that nothing else is written and that the share is lawful afterwards, where it wasn't refused. The places are those that
 * docs/ARCHITECTURE.md gives under "The words of a share". */
#include "test.h"
#include <string.h>

#define LONG(x) ((unsigned long long)(x))
enum { BMDT = SET, COUNT = SET + 1, IV_FIRST = SET + 270, SUBSAMPLES = SET + 398 };
enum { SLOT = 3, ROUNDS = 6000, SHARE_MOST = 4096 };

/* The fields of the set: where the mark is, the room behind it, the largest value. */
static const struct region {
    unsigned id, mark, room;
    uint64_t largest;
} regions[] = {{1, 2, 63, 0xffffffff},     {2, 66, 1, 0xffffffff},  {3, 68, 64, 0xffffffff}, {4, 133, 1, 0xffffffff},
               {5, 135, 64, 0xffffffff},   {6, 200, 1, 0xffffffff}, {7, 202, 64, 31},        {8, 267, 1, 31},
               {9, 269, 128, UINT64_MAX},  {11, 398, 64, 65535},    {12, 463, 1, 31},        {13, 465, 256, 65535},
               {15, 722, 256, 0xffffffff}, {16, 979, 1, 255}};

struct state {
    const char *name;
    struct side *side;
    const struct bytes *input; /* a chunk or an object that the undamaged share accepts */
};

/* One of the calls, by its number, on the damaged table, which is then put right. -> the number answered */
static uint64_t tried(const struct state *s, unsigned call, size_t word, uint64_t value) {
    static const struct track track = {1, 48000, 1, 1024, 0, 0, LOCMAF_CLEAR, 0};
    uint64_t kept[SHARE_MOST], *share = share_of(s->side, SLOT), number;
    size_t bytes = share_length(s->side) * 8;
    memcpy(kept, share, bytes);
    share[word] = value;
    if (call % 4 == 0)
        number = side_group(s->side, SLOT);
    else if (call % 4 == 1)
        number = side_code(s->side, SLOT, call % 8 == 5, s->input->at, s->input->length, 600).number;
    else
        number = call % 4 == 2 ? side_open(s->side, SLOT, &track) : side_close(s->side, SLOT);
    memcpy(share, kept, bytes);
    return number;
}

static void must_refuse(const struct state *s, unsigned call, size_t word, uint64_t value, const char *why) {
    uint64_t was = share_of(s->side, SLOT)[word], number = tried(s, call, word, value);
    check(number == 18, "%s of the %s, %s: word %zu was %llx and became %llx, number %llu", s->name, s->side->encoder ? "encoder" : "receiver", why,
          word, LONG(was), LONG(value), LONG(number));
}

/* Whether a word may be any number at all: an IV in use. */
static int any_value(const struct state *s, size_t word) {
    const uint64_t *share = share_of(s->side, SLOT);
    size_t ivs = share[HELD] && share[IV_FIRST - 1] ? share[COUNT] * share[7] / 8 : 0;
    return word >= IV_FIRST && word < IV_FIRST + ivs;
}

/* Every word of the share: as large as can be, and with its highest bit turned. */
static void every_word(const struct state *s) {
    for (size_t i = 0; i < share_length(s->side); i++) {
        uint64_t was = share_of(s->side, SLOT)[i];
        if (any_value(s, i)) {
            check(tried(s, 0, i, UINT64_MAX) == 0 && tried(s, 0, i, was ^ 1ull << 63) == 0, "%s: word %zu may be any number", s->name, i);
            continue;
        }
        must_refuse(s, (unsigned)i, i, UINT64_MAX, "largest number");
        must_refuse(s, (unsigned)i + 1, i, was ^ 1ull << 63, "highest bit");
    }
}

/* The last sample's protected bytes: what its subsamples have, or up to a whole payload, and none where there are no IVs. */
static void last_sample(const struct state *s) {
    const uint64_t *share = share_of(s->side, SLOT);
    if (!share[IV_FIRST - 1] || share[SUBSAMPLES]) {
        must_refuse(s, 0, LAST, share[LAST] + 1, "more protected bytes");
        must_refuse(s, 0, LAST, share[LAST] - 1, "fewer protected bytes");
        return;
    }
    must_refuse(s, 0, LAST, 16777217, "more protected bytes than a payload has");
    check(tried(s, 0, LAST, 0) == 0 && tried(s, 0, LAST, 16777216) == 0, "%s: the last sample may have no byte, and a whole payload", s->name);
}

/* Each region by its own rules: a mark is 0 or 1, a value is at most the largest, and behind the values in use there are zeros. */
static void every_region(const struct state *s) {
    const uint64_t *share = share_of(s->side, SLOT);
    for (size_t r = 0; r < sizeof regions / sizeof regions[0]; r++) {
        size_t mark = SET + regions[r].mark, last = mark + regions[r].room;
        for (unsigned call = 0; call < 4; call++)
            must_refuse(s, call, mark, 2, "a mark of 2");
        if (share[mark] == 0)
            must_refuse(s, 0, mark + 1, 1, "a value of no field");
        else if (regions[r].largest != UINT64_MAX)
            must_refuse(s, 0, mark + 1, regions[r].largest + 1, "a value too large");
        if (regions[r].room > 1)
            must_refuse(s, 0, last, 1, "a value behind those in use");
    }
    must_refuse(s, 0, HELD, 2, "held");
    must_refuse(s, 0, PRFT, 2, "prft");
    must_refuse(s, 0, NTP, 1ull << 62, "NTP");
    must_refuse(s, 0, MEDIA_TIME, 1ull << 62, "media time");
    must_refuse(s, 0, BMDT, 1ull << 62, "BMDT");
    must_refuse(s, 0, BMDT, share[BMDT] + 1, "BMDT without what is expected");
    must_refuse(s, 0, PAST, 1, "the mark of a sum that passes");
    must_refuse(s, 0, EXPECTED, share[EXPECTED] + 1, "too much is expected");
    must_refuse(s, 0, EXPECTED, share[EXPECTED] - 1, "too little is expected");
    last_sample(s);
    must_refuse(s, 0, COUNT, 65, "count");
    must_refuse(s, 0, 1, 0, "timescale");
    must_refuse(s, 0, 2, 0, "description index");
    must_refuse(s, 0, 5, 32, "flags");
    must_refuse(s, 0, 6, 3, "protection");
    must_refuse(s, 0, 7, 9, "IV size");
}

/* A number of any width. */
static uint64_t any_width(uint64_t *seed) {
    uint64_t value = chance(seed);
    return value >> chance(seed) % 64;
}

/* Words by chance, one to three at a time. What is answered is for judge.c. */
static void by_chance(const struct state *s) {
    uint64_t seed = 20261115, kept[SHARE_MOST], *share = share_of(s->side, SLOT);
    size_t length = share_length(s->side);
    memcpy(kept, share, length * 8);
    for (unsigned i = 0; i < ROUNDS; i++) {
        for (uint64_t n = chance(&seed) % 3; n > 0; n--) {
            size_t other = chance(&seed) % length;
            share[other] = any_width(&seed);
        }
        /* the first words are few, and the most hangs on them */
        size_t word = chance(&seed) % (i % 2 ? length : SET + 3);
        uint64_t value = any_width(&seed);
        tried(s, (unsigned)(chance(&seed) % 8), word, value);
        memcpy(share, kept, length * 8);
    }
}

static void closed(struct side *side) {
    const struct bytes none = {0};
    struct state s = {"a closed share", side, &none};
    for (size_t i = 0; i < share_length(side); i++) {
        must_refuse(&s, (unsigned)i, i, 1, "one");
        must_refuse(&s, (unsigned)i + 1, i, UINT64_MAX, "largest number");
    }
}

/* A state is where a conversation leaves slot 3 of both tables; its last chunk and object are tried on the damaged share. */
static void damaged(struct talk *t, const char *name) {
    if (share_length(&t->encoder) > SHARE_MOST || share_length(&t->receiver) > SHARE_MOST)
        give_up("a share is longer than the test can keep");
    closed(&t->encoder);
    closed(&t->receiver);
    converse(t, name);
    const struct state states[2] = {{name, &t->encoder, &t->chunk}, {name, &t->receiver, &t->object}};
    for (int i = 0; i < 2; i++) {
        every_word(&states[i]);
        every_region(&states[i]);
        by_chance(&states[i]);
    }
}

void test_damage(void) { for_each_conversation("state", damaged); }
