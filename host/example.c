#include <locmaf.h>
#include <stdio.h>
#include <stdlib.h>
#include <string.h>

/* One chunk to an object and back. The payload is never copied by a call: it is the end of the bytes that were lent. */
int main(void) {
    uint8_t chunk[364], object[12343 + 364], rebuilt[8577 + 364];
    uint64_t words = locmaf_encoder_words(), others = locmaf_receiver_words(), number, front, payload, length;
    uint64_t *encoder = calloc(words, sizeof *encoder), *receiver = calloc(others, sizeof *receiver);
    FILE *file = fopen("captures/ff5-aac-1/chunks.bin", "rb");
    if (!encoder || !receiver || !file || fread(chunk, 1, sizeof chunk, file) != sizeof chunk) return 1;
    if (locmaf_encoder_open(encoder, words, 0, 1, 48000, 1, 0, 0, 0, LOCMAF_CLEAR, 0) != LOCMAF_DONE) return 1;
    if (locmaf_receiver_open(receiver, others, 0, 1, 48000, 1, 0, 0, 0, LOCMAF_CLEAR, 0) != LOCMAF_DONE) return 1;
    payload = locmaf_encode(encoder, words, 0, 0, chunk, sizeof chunk, object, sizeof object, &number, &front);
    if (number != LOCMAF_DONE) return 1;
    memcpy(object + front, chunk + sizeof chunk - payload, payload);
    length = front + payload;
    printf("object %02x %02x %02x %02x .., front %d, payload %d\n", object[0], object[1], object[2], object[3], (int)front, (int)payload);
    payload = locmaf_receive(receiver, others, 0, object, length, rebuilt, sizeof rebuilt, &number, &front);
    if (number != LOCMAF_DONE) return 1;
    memcpy(rebuilt + front, object + length - payload, payload);
    printf("chunk %02x %02x %02x %02x .., front %d, payload %d\n", rebuilt[0], rebuilt[1], rebuilt[2], rebuilt[3], (int)front, (int)payload);
    printf("the payload is %s\n", memcmp(rebuilt + front, chunk + sizeof chunk - payload, payload) ? "another" : "the same");
    return 0;
}
