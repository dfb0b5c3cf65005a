/* One call of the library, as it is. It is all that runs on a small stack. */
#include "test.h"

static uint64_t opened(struct job *j) {
    uint64_t (*open)(uint64_t *, size_t, uint64_t, uint64_t, uint64_t, uint64_t, uint64_t, uint64_t, uint64_t, uint64_t, uint64_t) =
        j->encoder ? locmaf_encoder_open : locmaf_receiver_open;
    const struct track *t = &j->track;
    return open(j->table, j->words, j->slot, t->track, t->timescale, t->description, t->duration, t->size, t->flags, t->protection, t->iv_size);
}

static uint64_t coded(struct job *j) {
    if (j->encoder)
        return locmaf_encode(j->table, j->words, j->slot, (uint64_t)j->delta, j->input, j->length, j->output, j->room, &j->cells[1], &j->cells[3]);
    return locmaf_receive(j->table, j->words, j->slot, j->input, j->length, j->output, j->room, &j->cells[1], &j->cells[3]);
}

void *perform(void *job) {
    struct job *j = job;
    if (j->call == OPEN)
        j->result = opened(j);
    else if (j->call == CLOSE)
        j->result = (j->encoder ? locmaf_encoder_close : locmaf_receiver_close)(j->table, j->words, j->slot);
    else if (j->call == GROUP)
        j->result = (j->encoder ? locmaf_encoder_start_group : locmaf_receiver_start_group)(j->table, j->words, j->slot);
    else
        j->result = coded(j);
    return 0;
}
