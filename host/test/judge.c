/* What a call may have touched. Of the table: nothing on a refusal, but that 12 to 16 and 21 drop the reference; otherwise the named share alone, which is
 * lawful afterwards. Of the output: the front, where the number is 0. Beside number and front, and beside the table and the output: nothing. */
#include "test.h"
#include <string.h>

#define LONG(x) ((unsigned long long)(x))
enum { NUMBERS = 22 };
static unsigned long seen[2][NUMBERS];

unsigned long answered(int encoder, unsigned number) { return seen[encoder][number]; }

static const char *name_of(const struct side *s) { return s->encoder ? "encoder" : "receiver"; }

/* The first place, guards among them, where the words differ from others outside from..to; or `count`. */
static size_t differing(const uint64_t *a, const uint64_t *b, size_t count, size_t from, size_t to) {
    if (memcmp(a, b, from * 8) == 0 && memcmp(a + to, b + to, (count - to) * 8) == 0)
        return count;
    for (size_t i = 0; i < count; i++)
        if (a[i] != b[i] && (i < from || i >= to))
            return i;
    return count;
}

static void table_like(struct side *s, const uint64_t *other, size_t from, size_t to, const char *why, uint64_t number) {
    size_t count = held(s), at = differing(s->table - GUARD_WORDS, other - GUARD_WORDS, count, from, to);
    check(at == count, "%s, number %llu: %s: word %ld of the table should be %llx and is %llx", name_of(s), LONG(number), why, (long)at - GUARD_WORDS,
          LONG(at == count ? 0 : other[(long)at - GUARD_WORDS]), LONG(at == count ? 0 : s->table[(long)at - GUARD_WORDS]));
}

static uint64_t group_on_copy(struct side *s, const uint64_t *of, uint64_t slot) {
    struct job j = {.call = GROUP, .encoder = s->encoder, .table = s->copy, .words = s->length, .slot = slot};
    memcpy(s->copy - GUARD_WORDS, of - GUARD_WORDS, held(s) * 8);
    perform(&j);
    return j.result;
}

static void judge_table(struct side *s, const struct job *j, uint64_t number) {
    if ((number >= 12 && number <= 16) || number == 21) {
        check(group_on_copy(s, s->before, j->slot) == 0, "%s: number %llu from a share that can't start a group", name_of(s), LONG(number));
        table_like(s, s->copy, 0, 0, "not as if a group was started", number);
    } else if (number == 0) {
        size_t from = GUARD_WORDS + j->slot * share_length(s);
        table_like(s, s->before, from, from + share_length(s), "outside the named share", number);
        for (size_t i = 0; j->call == CLOSE && i < share_length(s); i++)
            check(share_of(s, j->slot)[i] == 0, "%s: closed, but word %zu of the share is %llx", name_of(s), i, LONG(share_of(s, j->slot)[i]));
    } else {
        table_like(s, s->before, 0, 0, "refused", number);
    }
    if (number != 18 && j->slot < SLOTS)
        check(group_on_copy(s, s->table, j->slot) != 18, "%s: the share isn't lawful after number %llu", name_of(s), LONG(number));
}

static void judge_output(struct side *s, const struct job *j, uint64_t number) {
    size_t front = number == 0 && j->cells[3] <= j->room ? j->cells[3] : 0, all = j->room + 2 * GUARD_BYTES;
    for (size_t i = 0; i < all; i++)
        if (s->output[i] != pattern(s->calls, i) && (i < GUARD_BYTES || i >= GUARD_BYTES + front)) {
            check(0, "%s, number %llu: byte %ld of an output of %zu (front %llu) was written", name_of(s), LONG(number), (long)i - GUARD_BYTES,
                  j->room, LONG(j->cells[3]));
            return;
        }
    check(1, "the output");
}

static void judge_answer(struct side *s, const struct job *j, uint64_t number) {
    check(j->cells[0] == guard_word(0) && j->cells[2] == guard_word(2) && j->cells[4] == guard_word(4), "%s: beside number or front", name_of(s));
    check(j->cells[3] != guard_word(3), "%s, number %llu: the front's length wasn't written", name_of(s), LONG(number));
    if (number == 0) {
        uint64_t most = s->encoder ? 12343 : 8577;
        check(j->cells[3] <= j->room && j->cells[3] <= most, "%s: a front of %llu bytes", name_of(s), LONG(j->cells[3]));
        check(j->result <= j->length, "%s: a payload of %llu bytes out of %zu", name_of(s), LONG(j->result), j->length);
    } else {
        check(j->cells[3] == 0 && j->result == 0, "%s, number %llu: front %llu, payload %llu", name_of(s), LONG(number), LONG(j->cells[3]),
              LONG(j->result));
    }
}

void judge(struct side *s, const struct job *j, uint64_t number) {
    if (!check(number < NUMBERS, "%s: %llx is no number", name_of(s), LONG(number)))
        return;
    __atomic_fetch_add(&seen[s->encoder][number], 1, __ATOMIC_RELAXED);
    judge_table(s, j, number);
    if (j->call == CODE) {
        judge_output(s, j, number);
        judge_answer(s, j, number);
    }
}
