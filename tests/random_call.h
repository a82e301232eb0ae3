/* One call that is made on both sides: what it is lent, what comes back, and how that is compared (random_call.c). */
#ifndef RANDOM_CALL_H
#define RANDOM_CALL_H
#include "random.h"

enum call {
    SPLIT, OPEN, CHECK, UNUSED_A, UNUSED_B, HOUSE, LOAD, DAY_QUARTERS, PREPARE, DAY_PREPARE, START, DAY_START, HEAR,
    DAY_HEAR, CALLS
};
enum { GUARDS = 8 };

/* What one call writes, between guard words. */
struct frame {
    uint32_t before[GUARDS];
    union {
        lamphiek_shares shares;
        lamphiek_counts counts;
        lamphiek_masks masks;
        lamphiek_state state;
        lamphiek_quarters quarters;
        uint32_t number;
        int64_t value;
        uint32_t house[LAMPHIEK_HOUSE_WORDS], table[LAMPHIEK_TABLE_WORDS];
        uint32_t words[sizeof(lamphiek_state) / sizeof(uint32_t)];
    } of;
    uint32_t after[GUARDS];
};

/* The call that is being made: what it was lent to write, and what came back. */
struct made {
    enum call call;
    const struct lent *lent;
    int64_t reading;       /* that is split, under the first two words given */
    lamphiek_shares given; /* that are opened */
    const uint8_t *text; /* that is loaded */
    size_t text_bytes;
    uint32_t host, heard;
    struct frame before, library, model;
    lamphiek_answer answers[2];
};

extern struct made now;

/* A call begins: what it is lent to write is at random, in now.before; from there it goes to both sides. */
void call_begins(enum call call, const struct lent *l);
void lend_frames(void);
bool same_frames(const struct frame *x, const struct frame *y);
/* Fails with these words if not. */
void same(bool equal, const char *what);
/* Compares the answers and the lists that are only read, and counts the number, which it gives. */
uint32_t answered(void);
/* The same with all that was written, where that is no state. */
uint32_t written_alike(void);
#endif
