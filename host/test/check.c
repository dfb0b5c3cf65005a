/* Checks, from any thread. */
#include "test.h"
#include <stdarg.h>
#include <stdio.h>
#include <stdlib.h>

enum { SHOWN = 40 };
static unsigned long made, failed;

int check(int holds, const char *form, ...) {
    va_list list;
    __atomic_fetch_add(&made, 1, __ATOMIC_RELAXED);
    if (holds)
        return 1;
    if (__atomic_fetch_add(&failed, 1, __ATOMIC_RELAXED) < SHOWN) {
        printf("FAILED ");
        va_start(list, form);
        vprintf(form, list);
        va_end(list);
        printf("\n");
        fflush(stdout);
    }
    return 0;
}

unsigned long checks_made(void) { return made; }
unsigned long checks_failed(void) { return failed; }

void give_up(const char *why) {
    printf("the test can't go on: %s\n", why);
    fflush(stdout);
    exit(2);
}
