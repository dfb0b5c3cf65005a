/* Small stacks. A chunk and an object of any kind need no more than 64 KiB: long ones, deep ones, and hostile lists of events. A call that needed more
 * would end the program. */
#include "test.h"
#include <stdio.h>

#define KIB 64

static void deepest(struct talk *t, struct answer a) {
    size_t *most = t->more, touched = (t->step.encoder ? &t->encoder : &t->receiver)->touched;
    (void)a;
    if (touched > *most)
        *most = touched;
}

static void small(struct talk *t, const char *name) {
    size_t most = 0;
    t->encoder.stack = t->receiver.stack = KIB;
    t->after = deepest;
    t->more = &most;
    converse(t, name);
    printf("  on %d KiB of stack: '%s' touched %zu bytes\n", KIB, name, most);
}

void test_stacks(void) {
    for_each_conversation("deep", small);
    for_each_conversation("captured", small);
    for_each_conversation("hostile events", small);
}
