/* The C library, tested from outside. Each subject is a file; what differs is printed, and the last line is the sum. */
#include "test.h"
#include <stdio.h>

static void talked(struct talk *t, const char *name) { converse(t, name); }

/* The places where mistakes were seen or are to be expected. */
void test_slips(void) {
    for_each_conversation("worked", talked);
    for_each_conversation("slip", talked);
}

void test_numbers(void) { for_each_conversation("numbers", talked); }

/* No number was left out, on the side that can answer it. */
static void every_number(void) {
    static const char encoder[] = "1111111111000000011000", receiver[] = "1111100000111111111001";
    for (unsigned n = 0; n <= 21; n++) {
        check((answered(1, n) > 0) == (encoder[n] == '1'), "the encoder answered %u %lu times", n, answered(1, n));
        check((answered(0, n) > 0) == (receiver[n] == '1'), "the receiver answered %u %lu times", n, answered(0, n));
    }
}

int main(void) {
    static const struct {
        const char *name;
        void (*test)(void);
    } subjects[] = {{"the worked example, and the table's words", test_worked},
                    {"the sums and the slips", test_slips},
                    {"the numbers, what they leave, and what comes after", test_numbers},
                    {"tables of a wrong length", test_lengths},
                    {"damaged words", test_damage},
                    {"small stacks", test_stacks},
                    {"two threads", test_threads},
                    {"each object received and encoded again", test_again},
                    {"an id 16 that only a table holds", test_iv_size},
                    {"every number answered", every_number}};
    for (unsigned i = 0; i < sizeof subjects / sizeof subjects[0]; i++) {
        unsigned long made = checks_made(), failed = checks_failed();
        subjects[i].test();
        printf("%s: %lu checks, %lu failed\n", subjects[i].name, checks_made() - made, checks_failed() - failed);
        fflush(stdout);
    }
    printf("the library in C: %lu checks, %lu failed\n", checks_made(), checks_failed());
    return checks_failed() != 0;
}
