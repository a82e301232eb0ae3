/* A call on both sides: its record, the comparing, the counting, and the printing where the sides differ. */
#define _DEFAULT_SOURCE
#include "random_call.h"
#include <inttypes.h>
#include <signal.h>
#include <stdio.h>
#include <string.h>
#include <unistd.h>

enum { NUMBERS = 19, TEXT_SHOWN = 128 };

/* The numbers that each can give: bit n for number n. */
static const struct {
    const char *name;
    uint32_t can;
} CALL[CALLS] = {{"split", 0x801},     {"open", 0x401},         {"check", 0x03d},      {"unused_a", 0x07d},
                 {"unused_b", 0x07d}, {"house", 0x001},        {"load", 0xe001},      {"day_quarters", 0x30001},
                 {"prepare", 0x0fd},  {"day_prepare", 0x310e1}, {"start", 0x0ff},     {"day_start", 0x310e3},
                 {"hear", 0x403ff},   {"day_hear", 0x713e3}};

struct made now;

static uint64_t came[CALLS][NUMBERS], calls, seed_of_run;

/* ---- printing */

static void print_list(const char *name, struct words w, size_t most)
{
    printf("  %s: %zu words", name, w.n);
    for (size_t i = 0; i < w.n && i < most; i++)
        printf(" %" PRIu32, w.at[i]);
    puts(w.n > most && most ? " .." : "");
}

static void print_answers(void)
{
    for (int side = 0; side < 2; side++) {
        const lamphiek_answer *r = &now.answers[side];
        printf("  %s: number %" PRIu32 ", index %" PRIu32 ", count %" PRIu32 ", word %" PRIu32 "; words",
               side ? "model" : "library", r->number, r->index, r->count, r->word);
        for (size_t i = 0; i < sizeof now.model.of / sizeof(uint32_t); i++)
            printf(" %" PRIu32, (side ? &now.model : &now.library)->of.words[i]);
        puts("");
    }
}

static void print_arguments(void)
{
    const struct lent *l = now.lent;
    const lamphiek_state *s = &now.before.of.state;
    const lamphiek_shares *g = &now.given;
    if (l) {
        print_list("job", l->job, JOB_MOST);
        print_list("table", l->table, TABLE_MOST);
        print_list("a", l->a, 4);
        print_list("b", l->b, 4);
        print_list("deals", l->deals, 4);
        for (int host = 0; host < 3; host++)
            print_list("shares", l->shares[host], 4);
        print_list("calendar", l->calendar, CALENDAR_MOST);
        printf("  weekday %" PRIu32 "\n", l->weekday);
    }
    if (now.call == SPLIT)
        printf("  reading %" PRId64 " under %" PRIu32 " %" PRIu32 "\n", now.reading, g->host0.l1, g->host0.l2);
    if (now.call == OPEN)
        printf("  shares %" PRIu32 " %" PRIu32 ", %" PRIu32 " %" PRIu32 ", %" PRIu32 " %" PRIu32 "\n", g->host0.l1,
               g->host0.l2, g->host1.m, g->host1.l, g->host2.m, g->host2.l);
    if (now.call == LOAD) {
        printf("  text: %zu bytes", now.text_bytes);
        for (size_t i = 0; i < now.text_bytes && i < TEXT_SHOWN; i++)
            printf(" %u", now.text[i]);
        puts("");
    }
    if (now.call >= START)
        printf("  host %" PRIu32 ", place %" PRIu32 " %" PRIu32 ", stored %" PRIu32 " %" PRIu32 " %" PRIu32
               ", heard %" PRIu32 "\n",
               now.host, s->order, s->turn, s->used_a, s->used_b, s->used_deals, now.heard);
}

void fail(const char *what)
{
    printf("random: seed %" PRIu64 ", call %" PRIu64 ", %s: %s\n", seed_of_run, calls, CALL[now.call].name, what);
    print_arguments();
    print_answers();
    fflush(stdout);
    _exit(1);
}

void same(bool equal, const char *what)
{
    if (!equal)
        fail(what);
}

/* A page that nobody may touch was touched: by the code of a call, which holds no lock, so printing is safe. */
static void touched(int signal)
{
    (void)signal;
    fail("read or wrote outside what was lent");
}

void begin(uint64_t seed_given)
{
    struct sigaction on = {.sa_handler = touched};
    seed_of_run = seed_given;
    seed(seed_given);
    open_rooms();
    sigaction(SIGSEGV, &on, NULL);
    sigaction(SIGBUS, &on, NULL);
}

uint64_t calls_made(void) { return calls; }

bool numbers_came(void)
{
    bool all = true;
    printf("%-12s", "number");
    for (int n = 0; n < NUMBERS; n++)
        printf("%8d", n);
    puts("");
    for (int c = 0; c < CALLS; c++) {
        printf("%-12s", CALL[c].name);
        for (int n = 0; n < NUMBERS; n++) {
            bool can = CALL[c].can >> n & 1;
            if (can || came[c][n])
                printf("%8" PRIu64, came[c][n]);
            else
                printf("%8s", "");
            all = all && can == (came[c][n] > 0);
        }
        puts("");
    }
    return all;
}

/* ---- comparing */

void call_begins(enum call call, const struct lent *l)
{
    uint32_t *words = (uint32_t *)(void *)&now.before;
    calls++;
    now.call = call;
    now.lent = l;
    memset(now.answers, 0, sizeof now.answers);
    for (size_t i = 0; i < sizeof now.before / sizeof *words; i++)
        words[i] = draw();
}

void lend_frames(void) { now.library = now.model = now.before; }

bool same_frames(const struct frame *x, const struct frame *y) { return !memcmp(x, y, sizeof *x); }

uint32_t answered(void)
{
    uint32_t number = now.answers[0].number;
    same(!memcmp(&now.answers[0], &now.answers[1], sizeof now.answers[0]), "the answers differ");
    same(number < NUMBERS, "a number that is none");
    for (int r = 0; r < ROOM_DEALS + (now.call != PREPARE && now.call != DAY_PREPARE); r++)
        same(unchanged((enum room)r), "a list that is only read was written");
    came[now.call][number]++;
    return number;
}

uint32_t written_alike(void)
{
    uint32_t number = answered();
    same(same_frames(&now.library, &now.model), "what was written differs");
    same(number == 0 || same_frames(&now.library, &now.before), "written though refused");
    return number;
}
