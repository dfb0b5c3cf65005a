/* Id 16 on the encoder's side. No chunk has one, but a reference may: a receiver takes one that is the parameter's, and a table may come from there.
 * The next delta lists it as deleted, the receiver forgets it too, and neither knows it afterwards; a full object goes by no reference. */
#include "test.h"
#include <string.h>

#define LONG(x) ((unsigned long long)(x))
enum { IV_SIZE_MARK = SET + 979 };
enum { TIME_LOW = 66 }; /* the last byte but one of the rebuilt chunk's BMDT: 0x77 in 96,000 */

/* A track, an object with id 16 for it, and the fronts that follow from the table that this object leaves. */
static const struct held_size {
    const char *name;
    struct track track;
    const char *object, *full, *first, *second;
} cases[] = {
    {"a clear track", {1, 48000, 1, 1024, 0, 0, LOCMAF_CLEAR, 0}, "17090a800177000e011000", "17070a80017b000e01", "19031b0110", "1900"},
    {"cenc", {1, 48000, 1, 1024, 0, 0, LOCMAF_CENC, 8}, "1713090800010203040506070a800177000e011008", "1711090800010203040506070a80017b000e01",
     "190d090800010203040506071b0110", "190a09080001020304050607"},
};

static void same_words(const struct held_size *h, struct side *encoder, struct side *receiver) {
    const uint64_t *e = share_of(encoder, 0), *r = share_of(receiver, 0);
    for (size_t i = 0; i < share_length(encoder); i++)
        check(i == ACCEPTED || e[i] == r[i], "%s: word %zu of the encoder is %llx, of the receiver %llx", h->name, i, LONG(e[i]), LONG(r[i]));
}

/* Encodes the chunk and holds the front to the one that is written in hex. -> the whole object */
static struct bytes encoded(const struct held_size *h, struct side *encoder, int delta, const struct bytes *chunk, const char *hex) {
    struct bytes object = {0}, front = bytes_of(hex);
    struct answer a = side_code(encoder, 0, delta, chunk->at, chunk->length, ENOUGH);
    check(a.number == 0 && a.front == front.length && memcmp(a.output, front.at, front.length) == 0, "%s: number %llu, front of %llu bytes, not %s",
          h->name, LONG(a.number), LONG(a.front), hex);
    append(&object, a.output, a.front);
    append(&object, chunk->at + chunk->length - a.payload, a.payload);
    release(&front);
    return object;
}

/* The object with id 16 received, and the chunk that it is rebuilt as. */
static struct bytes received(const struct held_size *h, struct side *receiver) {
    struct bytes object = bytes_of(h->object), chunk = {0};
    append(&object, "abcd", 4);
    check(side_open(receiver, 0, &h->track) == 0, "%s: the receiver opens", h->name);
    struct answer a = side_code(receiver, 0, 0, object.at, object.length, ENOUGH);
    check(a.number == 0 && share_of(receiver, 0)[IV_SIZE_MARK] == 1, "%s: id 16 is taken and kept, number %llu", h->name, LONG(a.number));
    append(&chunk, a.output, a.front);
    append(&chunk, "abcd", 4);
    release(&object);
    return chunk;
}

/* The next two chunks, 1,024 ticks apart, to an encoder whose share is the receiver's. */
static void follow(const struct held_size *h, struct side *encoder, struct side *receiver, struct bytes *chunk) {
    for (int i = 1; i <= 2; i++) {
        chunk->at[TIME_LOW] = (uint8_t)(0x77 + 4 * i);
        struct bytes object = encoded(h, encoder, 1, chunk, i == 1 ? h->first : h->second);
        struct answer a = side_code(receiver, 0, 0, object.at, object.length, ENOUGH);
        check(a.number == 0, "%s: object %d is received with number %llu", h->name, i, LONG(a.number));
        check(share_of(receiver, 0)[IV_SIZE_MARK] == 0, "%s: object %d leaves an id 16", h->name, i);
        same_words(h, encoder, receiver);
        release(&object);
    }
}

static void one(const struct held_size *h) {
    struct side receiver, encoder, other;
    side_start(&receiver, 0);
    side_start(&encoder, 1);
    side_start(&other, 1);
    struct bytes chunk = received(h, &receiver);
    struct side *both[2] = {&encoder, &other};
    for (int i = 0; i < 2; i++) {
        memcpy(both[i]->table, receiver.table, share_length(&receiver) * sizeof *receiver.table);
        both[i]->table[ACCEPTED] = 0;
    }
    follow(h, &encoder, &receiver, &chunk);
    chunk.at[TIME_LOW] = 0x7b;
    struct bytes object = encoded(h, &other, 0, &chunk, h->full);
    release(&object);
    release(&chunk);
    side_end(&receiver);
    side_end(&encoder);
    side_end(&other);
}

void test_iv_size(void) {
    for (size_t i = 0; i < sizeof cases / sizeof cases[0]; i++)
        one(&cases[i]);
}
