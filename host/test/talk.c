/* Conversations: calls and what they have to answer, as vectors.h has them. A step is two lines, the call and the answer:
 *   open e|r SLOT and the eight parameters, close e|r SLOT, group e|r SLOT    the number
 *   enc SLOT full|delta ROOM BYTES, rec SLOT ROOM BYTES                       the number, the front's length and bytes, the payload's place and
 * length */
#include "test.h"
#include "vectors.h"
#include <stdio.h>
#include <stdlib.h>
#include <string.h>

#define LONG(x) ((unsigned long long)(x))
enum { CONVERSATIONS = sizeof conversations / sizeof conversations[0], WORDS = 12 };

struct line {
    char *text, *word[WORDS];
    unsigned count;
};

static struct line split(const char *text) {
    struct line l = {.text = malloc(strlen(text) + 1)};
    if (!l.text)
        give_up("no memory");
    memcpy(l.text, text, strlen(text) + 1);
    for (char *p = l.text; p && l.count < WORDS; l.count++) {
        l.word[l.count] = p;
        p = strchr(p, ' ');
        if (p)
            *p++ = 0;
    }
    return l;
}

static uint64_t number_of(const struct line *l, unsigned place) {
    if (place >= l->count)
        give_up("a line of vectors.h is too short");
    return strtoull(l->word[place], 0, 10);
}

static struct step step_of(const struct line *l, struct talk *t) {
    struct step s = {.call = CODE, .encoder = strcmp(l->word[0], "enc") == 0};
    if (l->count >= 4 && (s.encoder || strcmp(l->word[0], "rec") == 0)) {
        s.slot = number_of(l, 1);
        s.delta = strcmp(l->word[2], "delta") == 0;
        s.room = number_of(l, l->count - 2);
        release(s.encoder ? &t->chunk : &t->object);
        *(s.encoder ? &t->chunk : &t->object) = bytes_of(l->word[l->count - 1]);
        return s;
    }
    s.call = strcmp(l->word[0], "open") == 0 ? OPEN : strcmp(l->word[0], "close") == 0 ? CLOSE : GROUP;
    s.slot = number_of(l, 2);
    s.encoder = strcmp(l->word[1], "e") == 0;
    if (s.call == OPEN)
        s.track = (struct track){number_of(l, 3), number_of(l, 4), number_of(l, 5), number_of(l, 6),
                                 number_of(l, 7), number_of(l, 8), number_of(l, 9), number_of(l, 10)};
    return s;
}

static struct answer answer_to(struct talk *t) {
    struct side *side = t->step.encoder ? &t->encoder : &t->receiver;
    const struct bytes *input = t->step.encoder ? &t->chunk : &t->object;
    const struct step *s = &t->step;
    if (s->call == CODE)
        return side_code(side, s->slot, s->delta, input->at, input->length, s->room);
    return (struct answer){.number = s->call == OPEN    ? side_open(side, s->slot, &s->track)
                                     : s->call == CLOSE ? side_close(side, s->slot)
                                                        : side_group(side, s->slot)};
}

/* The answer beside the words of the line that it is held to. */
static void compare(const struct talk *t, struct answer a, const struct line *want, const char *where) {
    if (!check(a.number == number_of(want, 0), "%s: number %s expected, and %llu came", where, want->word[0], LONG(a.number)) || t->step.call != CODE)
        return;
    uint64_t place = a.number == 0 ? (t->step.encoder ? &t->chunk : &t->object)->length - a.payload : 0;
    check(a.payload == number_of(want, 4) && place == number_of(want, 3), "%s: the payload should be %s bytes at %s, and is %llu at %llu", where,
          want->word[4], want->word[3], LONG(a.payload), LONG(place));
    if (!check(a.front == number_of(want, 1), "%s: the front should have %s bytes, and has %llu", where, want->word[1], LONG(a.front)))
        return;
    struct bytes front = bytes_of(want->word[2]);
    for (size_t i = 0; i < front.length; i++)
        if (!check(a.output[i] == front.at[i], "%s: byte %zu of the front should be %02x, and is %02x", where, i, front.at[i], a.output[i]))
            break;
    release(&front);
}

void talk_start(struct talk *t) {
    *t = (struct talk){0};
    side_start(&t->encoder, 1);
    side_start(&t->receiver, 0);
}

void talk_end(struct talk *t) {
    side_end(&t->encoder);
    side_end(&t->receiver);
    release(&t->object);
    release(&t->chunk);
}

static void take_step(struct talk *t, const char *name, unsigned number, const char *const *lines) {
    char where[160];
    struct line call = split(lines[0]), want = split(lines[1]);
    snprintf(where, sizeof where, "'%s', step %u, %.40s..", name, number, lines[0]);
    t->step = step_of(&call, t);
    struct answer a = answer_to(t);
    compare(t, a, &want, where);
    if (t->after)
        t->after(t, a);
    free(call.text);
    free(want.text);
}

void converse(struct talk *t, const char *name) {
    for (unsigned i = 0; i < CONVERSATIONS; i++)
        if (strcmp(conversations[i].name, name) == 0) {
            for (unsigned k = 0; conversations[i].lines[2 * k]; k++)
                take_step(t, name, k + 1, conversations[i].lines + 2 * k);
            return;
        }
    give_up("vectors.h has no such conversation");
}

void for_each_conversation(const char *beginning, void (*each)(struct talk *, const char *)) {
    unsigned found = 0;
    for (unsigned i = 0; i < CONVERSATIONS; i++)
        if (strncmp(conversations[i].name, beginning, strlen(beginning)) == 0) {
            struct talk t;
            talk_start(&t);
            each(&t, conversations[i].name);
            talk_end(&t);
            found++;
        }
    check(found > 0, "no conversation is called '%s ..'", beginning);
}
