/* Memory that ends at a fence, stacks of a given size, bytes that grow, and chance that is the same in every run. */
#include "test.h"
#include <pthread.h>
#include <stdlib.h>
#include <string.h>
#include <sys/mman.h>

/* A frame may be longer than a page, so one page below a stack wouldn't catch all. */
enum { PAGE = 4096, BELOW = 1 << 20 };
#define PAINT 0xa5a5a5a55a5a5a5aull

static uint8_t *map(size_t length) {
    void *start = mmap(0, length, PROT_READ | PROT_WRITE, MAP_PRIVATE | MAP_ANONYMOUS, -1, 0);
    if (start == MAP_FAILED)
        give_up("no memory");
    return start;
}

static size_t pages(size_t length) { return (length + PAGE - 1) / PAGE * PAGE; }

uint8_t *fenced(size_t length) {
    uint8_t *start = map(pages(length) + PAGE);
    if (mprotect(start + pages(length), PAGE, PROT_NONE))
        give_up("no fence");
    return start + pages(length) - length;
}

void unfenced(uint8_t *start, size_t length) { munmap(start + length - pages(length), pages(length) + PAGE); }

size_t on_stack(size_t kib, void *(*act)(void *), void *argument) {
    size_t length = kib * 1024, clean = 0;
    uint8_t *start = map(BELOW + length);
    uint64_t *stack = (uint64_t *)(start + BELOW);
    pthread_attr_t attributes;
    pthread_t thread;
    for (size_t i = 0; i < length / 8; i++)
        stack[i] = PAINT;
    if (mprotect(start, BELOW, PROT_NONE) || pthread_attr_init(&attributes) || pthread_attr_setstack(&attributes, stack, length) ||
        pthread_create(&thread, &attributes, act, argument) || pthread_join(thread, 0))
        give_up("no thread");
    pthread_attr_destroy(&attributes);
    while (clean < length / 8 && stack[clean] == PAINT)
        clean++;
    munmap(start, BELOW + length);
    return length - 8 * clean;
}

uint64_t chance(uint64_t *state) {
    *state ^= *state << 13;
    *state ^= *state >> 7;
    *state ^= *state << 17;
    return *state * 0x2545f4914f6cdd1dull;
}

void append(struct bytes *bytes, const void *data, size_t length) {
    if (bytes->length + length > bytes->room) {
        uint8_t *old = bytes->at;
        bytes->room = 2 * (bytes->length + length);
        bytes->at = malloc(bytes->room);
        if (!bytes->at)
            give_up("no memory");
        if (old)
            memcpy(bytes->at, old, bytes->length);
        free(old);
    }
    if (length)
        memcpy(bytes->at + bytes->length, data, length);
    bytes->length += length;
}

void release(struct bytes *bytes) {
    free(bytes->at);
    *bytes = (struct bytes){0};
}
