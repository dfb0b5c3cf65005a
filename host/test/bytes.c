/* Words of vectors.h that stand for bytes: '-' for none, or parts joined by '+'. A part is one of
 *   hex, in which z is three zero bytes and letters between quotes are themselves
 *   N*HEX, for N times the same
 *   mN, for N boxes `moof`, each around the next and the last around all that follows; nN, for the same with `moof` and `traf` by turns. */
#include "test.h"
#include <stdlib.h>
#include <string.h>

static uint8_t digit(char c) { return (uint8_t)(c <= '9' ? c - '0' : c - 'a' + 10); }

static void append_hex(struct bytes *b, const char *at, const char *end) {
    while (at < end) {
        const char *close = *at == '\'' ? strchr(at + 1, '\'') : 0;
        if (close) {
            append(b, at + 1, (size_t)(close - at - 1));
            at = close + 1;
        } else if (*at == 'z') {
            append(b, "\0\0", 3);
            at++;
        } else {
            uint8_t byte = (uint8_t)(digit(at[0]) << 4 | digit(at[1]));
            append(b, &byte, 1);
            at += 2;
        }
    }
}

static void append_heads(struct bytes *b, uint64_t depth, int by_turns, size_t inside) {
    for (uint64_t i = 0; i < depth; i++) {
        size_t n = inside + 8 * (depth - i);
        uint8_t size[4] = {(uint8_t)(n >> 24), (uint8_t)(n >> 16), (uint8_t)(n >> 8), (uint8_t)n};
        append(b, size, 4);
        append(b, by_turns && i % 2 ? "traf" : "moof", 4);
    }
}

struct bytes bytes_of(const char *word) {
    struct bytes b = {0};
    while (*word && *word != '-') {
        char *end, *next = strchr(word, '+');
        size_t length = next ? (size_t)(next - word) : strlen(word);
        if (*word == 'm' || *word == 'n') {
            struct bytes rest = bytes_of(word + length + (next != 0));
            append_heads(&b, strtoull(word + 1, 0, 10), *word == 'n', rest.length);
            append(&b, rest.at, rest.length);
            release(&rest);
            return b;
        }
        uint64_t times = strtoull(word, &end, 10);
        if (*end == '*')
            for (; times; times--)
                append_hex(&b, end + 1, word + length);
        else
            append_hex(&b, word, word + length);
        word += length + (next != 0);
    }
    return b;
}
