/* What the files of the test have in common: checks, the library behind lent buffers that are looked at after every call, and conversations. */
#ifndef TEST_H
#define TEST_H

#include <locmaf.h>

enum { SLOTS = 8, ENOUGH = 20000 };

/* The words of a share, as docs/ARCHITECTURE.md gives them. */
enum { ACCEPTED = 8, HELD = 9, PRFT = 10, NTP = 11, MEDIA_TIME = 12, PAST = 15, EXPECTED = 16, LAST = 17, SET = 18 };

/* Counts a check, and says what differed where it doesn't hold. -> whether it holds */
int check(int holds, const char *form, ...) __attribute__((format(printf, 2, 3)));
/* How many checks were made and how many failed, from all threads. */
unsigned long checks_made(void), checks_failed(void);
/* Ends the program: the test itself can't go on. */
_Noreturn void give_up(const char *why);

/* Memory of `length` bytes that ends where a page begins that nobody may touch. */
uint8_t *fenced(size_t length);
void unfenced(uint8_t *start, size_t length);
/* Calls `act` on a thread that has a stack of so many KiB, and none below it. -> how many bytes of it were touched */
size_t on_stack(size_t kib, void *(*act)(void *), void *argument);
/* The next number of a fixed generator. */
uint64_t chance(uint64_t *state);

/* A table of one side between guard words, and all that is lent with it. */
struct side {
    int encoder;                          /* 1 for an encoder's table, 0 for a receiver's */
    size_t stack;                         /* KiB of stack for the calls; 0 for that of the caller */
    size_t touched;                       /* bytes of such a stack that the last call touched */
    size_t length, lent;                  /* words of the table, and what a call is told of them */
    uint64_t *table;                      /* as it is */
    uint64_t *before, *copy;              /* as it was before a call, and a place to try things */
    uint8_t *output;                      /* of the last chunk or object */
    unsigned calls;
};

struct track {
    uint64_t track, timescale, description, duration, size, flags, protection, iv_size;
};

/* What a call for a chunk or an object answered; `output` is the side's own, up to the next call. */
struct answer {
    uint64_t number, front, payload;
    const uint8_t *output;
};

/* A fresh table. One share more than its length is really there, since some tests lend more. */
void side_start(struct side *side, int encoder);
void side_end(struct side *side);
uint64_t *share_of(struct side *side, uint64_t slot);
size_t share_length(const struct side *side);
/* The calls. Each looks afterwards at everything that was lent: see judge.c. */
uint64_t side_open(struct side *side, uint64_t slot, const struct track *track);
uint64_t side_close(struct side *side, uint64_t slot);
uint64_t side_group(struct side *side, uint64_t slot);
struct answer side_code(struct side *side, uint64_t slot, int delta, const uint8_t *input, size_t length, size_t room);
/* How often a side answered a number, over the whole test. */
unsigned long answered(int encoder, unsigned number);

/* A call as the library takes it, on its own: the job of raw.c. */
enum call { OPEN, CLOSE, GROUP, CODE };
struct job {
    enum call call;
    int encoder;
    uint64_t *table;
    size_t words;
    uint64_t slot;
    struct track track;
    int delta;
    const uint8_t *input;
    uint8_t *output;
    size_t length, room;
    uint64_t cells[5]; /* a guard, the number, a guard, the front, a guard */
    uint64_t result;
};
void *perform(void *job);
/* The checks of judge.c on a call that was made; `before` and the pattern of the output are as side.c left them. */
void judge(struct side *side, const struct job *job, uint64_t number);
uint8_t pattern(unsigned calls, size_t place);
uint64_t guard_word(size_t place);
/* The words that are looked at: the table, what is there beyond it, and the guards on both sides. */
size_t held(const struct side *side);
enum { GUARD_WORDS = 64, GUARD_BYTES = 64 };

/* Bytes that grow. */
struct bytes {
    uint8_t *at;
    size_t length, room;
};
void append(struct bytes *bytes, const void *data, size_t length);
void release(struct bytes *bytes);
/* The bytes that a word of vectors.h stands for. */
struct bytes bytes_of(const char *word);

/* Two tables that are talked to. */
struct talk {
    struct side encoder, receiver;
    struct bytes object, chunk; /* the last that were lent */
    struct step {
        enum call call;
        int encoder, delta;
        uint64_t slot, room;
        struct track track;
    } step;
    void (*after)(struct talk *talk, struct answer answer); /* called after each step, which is `step`; may be 0 */
    void *more;                                             /* what `after` needs */
};
void talk_start(struct talk *talk);
void talk_end(struct talk *talk);
/* Has the conversation of that name in vectors.h, holding each answer to the one that stands there. */
void converse(struct talk *talk, const char *name);
/* Does so with each conversation whose name begins so: `each` is given fresh tables and the name. */
void for_each_conversation(const char *beginning, void (*each)(struct talk *talk, const char *name));

/* The subjects. */
void test_worked(void), test_slips(void), test_numbers(void), test_lengths(void);
void test_damage(void), test_stacks(void), test_threads(void), test_again(void), test_iv_size(void);

#endif
