/* A table and what is lent with it. The input ends at a fence, so that a byte read behind it ends the program; output and table stand between guards.
 */
#include "test.h"
#include <stdlib.h>
#include <string.h>

/* Whatever a call doesn't write can be told from what it does: the pattern changes from call to call. */
uint8_t pattern(unsigned calls, size_t place) { return (uint8_t)(place * 151 + calls * 7 + 13); }
uint64_t guard_word(size_t place) { return 0x5afe5afe00000000ull + place; }

size_t held(const struct side *s) { return s->length + share_length(s) + 2 * GUARD_WORDS; }

static uint64_t *words_between_guards(size_t length) {
    uint64_t *words = calloc(length + 2 * GUARD_WORDS, sizeof *words);
    if (!words)
        give_up("no memory");
    for (size_t i = 0; i < GUARD_WORDS; i++) {
        words[i] = guard_word(i);
        words[GUARD_WORDS + length + i] = guard_word(GUARD_WORDS + i);
    }
    return words + GUARD_WORDS;
}

void side_start(struct side *s, int encoder) {
    *s = (struct side){.encoder = encoder, .length = encoder ? locmaf_encoder_words() : locmaf_receiver_words()};
    s->lent = s->length;
    s->table = words_between_guards(s->length + share_length(s));
    s->before = words_between_guards(s->length + share_length(s));
    s->copy = words_between_guards(s->length + share_length(s));
}

void side_end(struct side *s) {
    free(s->table - GUARD_WORDS);
    free(s->before - GUARD_WORDS);
    free(s->copy - GUARD_WORDS);
    free(s->output);
}

size_t share_length(const struct side *s) { return s->length / SLOTS; }
uint64_t *share_of(struct side *s, uint64_t slot) { return s->table + slot * share_length(s); }

static uint64_t made(struct side *s, struct job *j) {
    j->encoder = s->encoder;
    j->table = s->table;
    j->words = s->lent;
    memcpy(s->before - GUARD_WORDS, s->table - GUARD_WORDS, held(s) * sizeof *s->table);
    if (s->stack)
        s->touched = on_stack(s->stack, perform, j);
    else
        perform(j);
    uint64_t number = j->call == CODE ? j->cells[1] : j->result;
    judge(s, j, number);
    return number;
}

uint64_t side_open(struct side *s, uint64_t slot, const struct track *track) {
    struct job j = {.call = OPEN, .slot = slot, .track = *track};
    return made(s, &j);
}

uint64_t side_close(struct side *s, uint64_t slot) {
    struct job j = {.call = CLOSE, .slot = slot};
    return made(s, &j);
}

uint64_t side_group(struct side *s, uint64_t slot) {
    struct job j = {.call = GROUP, .slot = slot};
    return made(s, &j);
}

struct answer side_code(struct side *s, uint64_t slot, int delta, const uint8_t *input, size_t length, size_t room) {
    uint8_t *lent = fenced(length + GUARD_BYTES) + GUARD_BYTES;
    struct job j = {.call = CODE, .slot = slot, .delta = delta, .input = lent, .length = length, .room = room};
    free(s->output);
    s->output = malloc(room + 2 * GUARD_BYTES);
    if (!s->output)
        give_up("no memory");
    s->calls++;
    for (size_t i = 0; i < room + 2 * GUARD_BYTES; i++)
        s->output[i] = pattern(s->calls, i);
    for (size_t i = 0; i < GUARD_BYTES; i++)
        lent[i - GUARD_BYTES] = pattern(s->calls, i);
    for (size_t i = 0; i < 5; i++)
        j.cells[i] = guard_word(i);
    if (length)
        memcpy(lent, input, length);
    j.output = s->output + GUARD_BYTES;
    uint64_t number = made(s, &j);
    check(length == 0 || memcmp(lent, input, length) == 0, "the lent input was written to, number %llu", (unsigned long long)number);
    for (size_t i = 0; i < GUARD_BYTES; i++)
        check(lent[i - GUARD_BYTES] == pattern(s->calls, i), "before the input, byte %zu was written", i);
    unfenced(lent - GUARD_BYTES, length + GUARD_BYTES);
    return (struct answer){.number = number, .front = j.cells[3], .payload = j.result, .output = j.output};
}
