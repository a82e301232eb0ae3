/* Every number of document 01, R-3, R-5, R-6 and R-7 by every call that can give it. All that a refused call is lent
 * stands on pages that cannot be written (but for the number of unused masks), and every list that is only read ends
 * where a page ends behind which nothing can be read: a store, or a read too far, ends the program. */
#define _GNU_SOURCE
#include "border.h"
#include <stdio.h>
#include <string.h>
#include <sys/mman.h>
#include <unistd.h>

enum { PAGE = 4096, NUMBERS = 19 };

/* The numbers that each must give here: bit n for number n. */
static const struct {
    const char *name;
    uint32_t gives;
} CALL[CALLS] = {{"split", 0x0800},   {"open", 0x0400},        {"check", 0x003c},     {"unused_a", 0x007c},
                 {"unused_b", 0x007c}, {"load", 0xe000},        {"prepare", 0x00fc},   {"start", 0x00fe},
                 {"hear", 0x403fe},    {"day_quarters", 0x30000}, {"day_prepare", 0x310e0}, {"day_start", 0x310e2},
                 {"day_hear", 0x713e2}};
static unsigned reached[CALLS][NUMBERS], failed;

const struct sealed *sealed;

void expect(int holds, const char *file, int line, const char *what)
{
    if (!holds) {
        printf("%s:%d: not so: %s\n", file, line, what);
        failed++;
    }
}

void is(enum call call, lamphiek_answer r, uint32_t number, uint32_t index, const char *file, int line)
{
    if (r.number != number || r.index != index || r.count || r.word) {
        printf("%s:%d: %s gave %u %u %u %u, not %u %u 0 0\n", file, line, CALL[call].name, r.number, r.index, r.count,
               r.word, number, index);
        failed++;
    }
    reached[call][number]++;
}

/* ---- pages */

static void *pages(size_t bytes)
{
    void *at = mmap(NULL, bytes, PROT_READ | PROT_WRITE, MAP_PRIVATE | MAP_ANONYMOUS, -1, 0);
    if (at == MAP_FAILED) {
        perror("border: mmap");
        _exit(2);
    }
    return at;
}

static void protect(void *at, size_t bytes, int how)
{
    if (mprotect(at, bytes, how)) {
        perror("border: mprotect");
        _exit(2);
    }
}

struct list fenced(const uint32_t *words, size_t n)
{
    size_t room = (n * sizeof *words + PAGE) / PAGE * PAGE;
    char *at = pages(room + PAGE);
    uint32_t *list = (uint32_t *)(void *)(at + room) - n;
    if (words)
        memcpy(list, words, n * sizeof *words);
    protect(at, room, PROT_READ);
    protect(at + room, PAGE, PROT_NONE);
    return (struct list){list, n};
}

struct list shorter(struct list l)
{
    return (struct list){l.at + 1, l.n - 1};
}

/* ---- conditions 2 to 5, by every call that is lent a job */

static void refuse_job(struct given g, struct list job, struct list table, uint32_t number, uint32_t index)
{
    lamphiek_masks *k = WRITABLE(lamphiek_masks, masks);
    lamphiek_state *s = WRITABLE(lamphiek_state, state);
    uint32_t said = 0;
    g.job = job;
    g.table = table;
    IS(CHECK, lamphiek_check(TASK(g), WRITABLE(lamphiek_counts, counts)), number, index);
    IS(PREPARE, lamphiek_prepare(k, TASK(g), LIST(g.a), LIST(g.b), WRITABLE(uint32_t, deals), DEALS), number, index);
    for (uint32_t host = 1; host <= 2; host++) {
        IS(START, lamphiek_start(s, HOST(g, host)), number, index);
        IS(HEAR, lamphiek_hear(s, HOST(g, host), 7), number, index);
    }
    EXPECT(lamphiek_unused_a(TASK(g), LIST(g.a), &said) == g.a.n);
    IS(UNUSED_A, BARE(said), number, 0);
    EXPECT(lamphiek_unused_b(TASK(g), LIST(g.b), &said) == g.b.n);
    IS(UNUSED_B, BARE(said), number, 0);
}

/* The second of three orders is the first faulty one; the third has a fault that the list names earlier, or later. */
static void refuse_jobs(struct given g)
{
    static const uint32_t jobs[][12] = {
        {0, 1, 2, 3, 11, 0, 0, 0, 0, 16, 0, 0}, {0, 1, 2, 3, 0, 16, 0, 0, 11, 0, 0, 0},
        {0, 1, 2, 3, 9, 0, 16, 0, 11, 0, 0, 0}, {0, 1, 2, 3, 4, 0, 0, 16, 11, 0, 0, 0},
        {0, 1, 2, 3, 5, 0, 0, 1, 11, 0, 0, 0},  {0, 1, 2, 3, 6, 0, 0, 32, 11, 0, 0, 0},
        {0, 1, 2, 3, 7, 0, 0, 31, 11, 0, 0, 0}, {0, 1, 2, 3, 8, 0, 0, 0, 11, 0, 0, 0},
        {0, 1, 2, 3, 10, 0, 0, 2, 11, 0, 0, 0}};
    static const uint32_t numbers[] = {3, 4, 4, 4, 5, 5, 5, 5, 5}, zeros[260] = {0};
    static const size_t sizes[] = {0, 1, 3, 5, 257, 260};
    for (size_t i = 0; i < sizeof numbers / sizeof *numbers; i++)
        refuse_job(g, fenced(jobs[i], 12), g.table, numbers[i], 1);
    for (size_t i = 0; i < sizeof sizes / sizeof *sizes; i++)
        refuse_job(g, fenced(zeros, sizes[i]), g.table, LAMPHIEK_JOB_SIZE, 0);
    refuse_job(g, NONE, NONE, LAMPHIEK_JOB_SIZE, 0);
}

/* A curve whose table breaks one rule. */
static void refuse_tables(struct given g)
{
    static const uint32_t tables[][4] = {
        {5, 0, 5, 0}, {6, 0, 5, 0}, {0, 0, 4096, 0}, {0, 20001, 1, 0}, {0, 0, 1, 20001}};
    uint32_t rows[LAMPHIEK_TABLE_WORDS + 2];
    for (uint32_t i = 0; i < LAMPHIEK_TABLE_WORDS + 2; i++)
        rows[i] = i;
    refuse_job(g, g.job, NONE, LAMPHIEK_FOURTH, 0);
    refuse_job(g, g.job, fenced(rows, 2), LAMPHIEK_FOURTH, 0);
    refuse_job(g, g.job, fenced(rows, 5), LAMPHIEK_FOURTH, 0);
    refuse_job(g, g.job, fenced(rows, LAMPHIEK_TABLE_WORDS + 2), LAMPHIEK_FOURTH, 0);
    for (size_t i = 0; i < sizeof tables / sizeof *tables; i++)
        refuse_job(g, g.job, fenced(tables[i], 4), LAMPHIEK_FOURTH, 0);
}

/* ---- condition 1, and 6 to 9 */

static void refuse_hosts(struct given g)
{
    static const uint32_t hosts[] = {0, 3, UINT32_MAX};
    lamphiek_state *s = WRITABLE(lamphiek_state, state);
    for (size_t i = 0; i < 3; i++) {
        IS(START, lamphiek_start(s, HOST(g, hosts[i])), LAMPHIEK_NO_HOST, 0);
        IS(START, lamphiek_start(s, hosts[i], NULL, 0, NULL, 0, NULL, 0, NULL, 0), LAMPHIEK_NO_HOST, 0);
        IS(HEAR, lamphiek_hear(s, HOST(g, hosts[i]), 7), LAMPHIEK_NO_HOST, 0);
    }
}

/* Lists one word short, or of no words; the shorter mask list comes before the shorter deals. */
static void refuse_lists(struct given g)
{
    struct given less = g, fewer = g, none = g;
    less.a = shorter(g.a);
    less.b = shorter(g.b);
    fewer.deals = shorter(g.deals);
    none.deals = NONE;
    lamphiek_masks *k = WRITABLE(lamphiek_masks, masks);
    lamphiek_state *s = WRITABLE(lamphiek_state, state);
    uint32_t *d = WRITABLE(uint32_t, deals), said = 0;
    IS(PREPARE, lamphiek_prepare(k, TASK(g), LIST(less.a), LIST(g.b), d, DEALS), LAMPHIEK_SHORT_MASKS, 0);
    IS(PREPARE, lamphiek_prepare(k, TASK(g), LIST(g.a), LIST(less.b), d, DEALS - 1), LAMPHIEK_SHORT_MASKS, 0);
    IS(PREPARE, lamphiek_prepare(k, TASK(g), LIST(g.a), LIST(g.b), d, DEALS - 1), LAMPHIEK_SHORT_DEALS, 0);
    for (uint32_t host = 1; host <= 2; host++) {
        IS(START, lamphiek_start(s, HOST(less, host)), LAMPHIEK_SHORT_MASKS, 0);
        IS(HEAR, lamphiek_hear(s, HOST(less, host), 7), LAMPHIEK_SHORT_MASKS, 0);
    }
    IS(START, lamphiek_start(s, HOST(fewer, 2)), LAMPHIEK_SHORT_DEALS, 0);
    IS(HEAR, lamphiek_hear(s, HOST(fewer, 2), 7), LAMPHIEK_SHORT_DEALS, 0);
    IS(HEAR, lamphiek_hear(s, HOST(none, 2), 7), LAMPHIEK_SHORT_DEALS, 0);
    EXPECT(lamphiek_unused_a(TASK(g), LIST(less.a), &said) == A_WORDS - 1);
    IS(UNUSED_A, BARE(said), LAMPHIEK_SHORT_MASKS, 0);
    EXPECT(lamphiek_unused_b(TASK(g), LIST(less.b), &said) == B_WORDS - 1);
    IS(UNUSED_B, BARE(said), LAMPHIEK_SHORT_MASKS, 0);
}

/* In the sealed states nothing is used, but at the end all that the job needs: what is refused at another place, or for
 * another fault, would be refused with 18 behind it. */
static void refuse_places(struct given g)
{
    for (uint32_t host = 1; host <= 2; host++) {
        IS(HEAR, lamphiek_hear(WRITABLE(lamphiek_state, state), HOST(g, host), 7), LAMPHIEK_STORED, 0);
        for (size_t i = 0; i < PLACES; i++)
            IS(HEAR, lamphiek_hear(WRITABLE(lamphiek_state, elsewhere[i]), HOST(g, host), 7), LAMPHIEK_PLACE, 0);
        IS(HEAR, lamphiek_hear(WRITABLE(lamphiek_state, end), HOST(g, host), 7), LAMPHIEK_END, 0);
    }
}

/* ---- conditions 10 and 11 */

static void refuse_readings(void)
{
    static const int64_t outside[] = {-1073741825, 1073741824, INT64_MIN, INT64_MAX, 4294967296, -4294967296};
    for (size_t i = 0; i < sizeof outside / sizeof *outside; i++)
        IS(SPLIT, BARE(lamphiek_split(outside[i], 1, 2, WRITABLE(lamphiek_shares, shares))), LAMPHIEK_RANGE, 0);
    static const lamphiek_shares apart[] = {
        {{1, 2}, {9, 3}, {9, 2}}, {{1, 2}, {9, 1}, {9, 3}}, {{1, 2}, {9, 1}, {8, 2}}};
    for (size_t i = 0; i < 3; i++)
        IS(OPEN, BARE(lamphiek_open(&apart[i], WRITABLE(int64_t, value))), LAMPHIEK_DISAGREE, 0);
}

/* ---- calls that complete, on lists of no words and on buffers with more room than the deals need */

static void complete(struct given g)
{
    static const uint32_t addition[4] = {LAMPHIEK_ADD, 1, 2, 3};
    lamphiek_state s = {{0}, {0}, 9, 9, 9, 9, 9};
    s.m[2] = 5, s.m[3] = 7, s.mask[2] = 1, s.m[20] = 99;
    lamphiek_answer r = lamphiek_start(&s, 1, addition, 4, NULL, 0, NULL, 0, NULL, 0);
    EXPECT(r.number == 0 && r.count == 0 && r.word == 0);
    EXPECT(s.m[1] == 12 && s.mask[1] == 1 && s.order == 1 && s.turn == 0);
    EXPECT(s.used_a == 0 && s.used_b == 0 && s.used_deals == 0);

    uint32_t buffer[DEALS + 2], said = 0;
    memset(buffer, 0xA5, sizeof buffer);
    lamphiek_masks k = {{0}, {0}};
    EXPECT(lamphiek_prepare(&k, TASK(g), LIST(g.a), LIST(g.b), buffer + 1, DEALS + 1).count == DEALS);
    EXPECT(buffer[0] == 0xA5A5A5A5u && buffer[DEALS + 1] == 0xA5A5A5A5u);
    EXPECT(lamphiek_unused_a(TASK(g), LIST(g.a), &said) == 0 && said == 0);
    EXPECT(lamphiek_unused_b(TASK(g), LIST(g.a), &said) == A_WORDS - B_WORDS && said == 0);
}

static void seal(void)
{
    static const uint32_t places[PLACES][2] = {{0, B_WORDS}, {0, B_WORDS + 1}, {0, UINT32_MAX}, {1, 1},
                                               {2, 0},       {2, 1},           {UINT32_MAX, 0}, {1, UINT32_MAX}};
    struct sealed *s = pages(sizeof *s);
    s->end.order = 1;
    use(&s->end, A_WORDS, B_WORDS, DEALS);
    for (int i = 0; i < PLACES; i++) {
        s->elsewhere[i].order = places[i][0];
        s->elsewhere[i].turn = places[i][1];
    }
    seal_days(s);
    seal_left_out(s);
    protect(s, sizeof *s, PROT_READ);
    sealed = s;
}

int main(void)
{
    static const uint32_t order[4] = {LAMPHIEK_CURVE, 0, 0, LAMPHIEK_MODE_EXACT};
    uint32_t rows[LAMPHIEK_HOUSE_WORDS] = {0};
    lamphiek_house(rows);
    struct given g = {.job = fenced(order, 4),
                      .table = fenced(rows, LAMPHIEK_HOUSE_WORDS),
                      .a = fenced(NULL, A_WORDS),
                      .b = fenced(NULL, B_WORDS),
                      .deals = fenced(NULL, DEALS)};
    seal();
    refuse_jobs(g);
    refuse_tables(g);
    refuse_hosts(g);
    refuse_lists(g);
    refuse_places(g);
    refuse_readings();
    complete(g);
    refuse_days(g.table);
    complete_day(g.table);
    refuse_hours(g.table);
    complete_hours(g.table);
    refuse_loads();
    complete_loads();
    stored_places(g.table);
    for (int call = 0; call < CALLS; call++)
        for (uint32_t n = 0; n < NUMBERS; n++)
            if (CALL[call].gives >> n & 1 && !reached[call][n]) {
                printf("border.c: %s never gave %u\n", CALL[call].name, n);
                failed++;
            }
    return failed != 0;
}
