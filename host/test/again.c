/* The law of a chunk encoded again: each object that an encoder gives is received, and the rebuilt chunk, encoded by another encoder with the same
 * wish, gives the same object; payloads are the same bytes, and encoder, receiver and second encoder hold the same words. */
#include "test.h"
#include <string.h>

#define LONG(x) ((unsigned long long)(x))

struct law {
    const char *name;
    struct side receiver, encoder;
    unsigned long objects;
};

static void same_words(struct talk *t, struct law *l) {
    for (size_t i = 0; i < t->encoder.length; i++) {
        check(l->encoder.table[i] == t->encoder.table[i], "'%s': word %zu of the second encoder is %llx, of the first %llx", l->name, i,
              LONG(l->encoder.table[i]), LONG(t->encoder.table[i]));
        check(i % share_length(&t->encoder) == ACCEPTED || l->receiver.table[i] == t->encoder.table[i],
              "'%s': word %zu of the receiver is %llx, of the encoder %llx", l->name, i, LONG(l->receiver.table[i]), LONG(t->encoder.table[i]));
    }
}

static void encoded_again(struct talk *t, struct law *l, struct answer first) {
    const struct step *s = &t->step;
    struct bytes object = {0}, chunk = {0};
    append(&object, first.output, first.front);
    append(&object, t->chunk.at + t->chunk.length - first.payload, first.payload);
    struct answer r = side_code(&l->receiver, s->slot, 0, object.at, object.length, ENOUGH);
    if (check(r.number == 0 && r.payload == first.payload, "'%s', object %lu: received with number %llu, payload %llu", l->name, l->objects,
              LONG(r.number), LONG(r.payload))) {
        append(&chunk, r.output, r.front);
        append(&chunk, object.at + object.length - r.payload, r.payload);
        struct answer e = side_code(&l->encoder, s->slot, s->delta, chunk.at, chunk.length, ENOUGH);
        check(e.number == 0 && e.payload == first.payload && e.front == first.front && memcmp(e.output, first.output, e.front) == 0,
              "'%s', object %lu: encoded again with number %llu, front %llu for %llu, payload %llu for %llu", l->name, l->objects, LONG(e.number),
              LONG(e.front), LONG(first.front), LONG(e.payload), LONG(first.payload));
        same_words(t, l);
    }
    l->objects++;
    release(&object);
    release(&chunk);
}

/* The other two tables are told what the encoder is told. */
static void follow(struct talk *t, struct answer a) {
    const struct step *s = &t->step;
    struct law *l = t->more;
    if (!s->encoder || a.number != 0)
        return;
    if (s->call == CODE) {
        encoded_again(t, l, a);
        return;
    }
    struct side *both[2] = {&l->receiver, &l->encoder};
    for (int i = 0; i < 2; i++) {
        uint64_t n = s->call == OPEN    ? side_open(both[i], s->slot, &s->track)
                     : s->call == CLOSE ? side_close(both[i], s->slot)
                                        : side_group(both[i], s->slot);
        check(n == 0, "'%s': number %llu where the encoder had 0", l->name, LONG(n));
    }
}

static void lawful(struct talk *t, const char *name) {
    struct law l = {.name = name};
    side_start(&l.receiver, 0);
    side_start(&l.encoder, 1);
    t->after = follow;
    t->more = &l;
    converse(t, name);
    check(strncmp(name, "captured", 8) != 0 || l.objects > 0, "'%s' gave no object", name);
    side_end(&l.receiver);
    side_end(&l.encoder);
}

void test_again(void) { for_each_conversation("", lawful); }
