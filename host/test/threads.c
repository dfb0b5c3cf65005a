/* Two threads, each with tables of its own: each has the answers and the words that it has alone. */
#include "test.h"
#include <pthread.h>
#include <stddef.h>

enum { ROUNDS = 20 };

struct run {
    const char *name;
    struct talk alone;
};

static void *repeated(void *argument) {
    struct run *r = argument;
    for (int i = 0; i < ROUNDS; i++) {
        struct talk t;
        talk_start(&t);
        converse(&t, r->name);
        for (size_t w = 0; w < t.encoder.length; w++)
            check(t.encoder.table[w] == r->alone.encoder.table[w], "'%s' beside another thread: word %zu of the encoder", r->name, w);
        for (size_t w = 0; w < t.receiver.length; w++)
            check(t.receiver.table[w] == r->alone.receiver.table[w], "'%s' beside another thread: word %zu of the receiver", r->name, w);
        talk_end(&t);
    }
    return 0;
}

void test_threads(void) {
    struct run runs[2] = {{.name = "state cenc"}, {.name = "state prft"}};
    pthread_t threads[2];
    for (int i = 0; i < 2; i++) {
        talk_start(&runs[i].alone);
        converse(&runs[i].alone, runs[i].name);
    }
    for (int i = 0; i < 2; i++)
        if (pthread_create(&threads[i], 0, repeated, &runs[i]))
            give_up("no thread");
    for (int i = 0; i < 2; i++) {
        if (pthread_join(threads[i], 0))
            give_up("no thread");
        talk_end(&runs[i].alone);
    }
}
