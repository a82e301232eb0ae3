/* Stored places: 18, directly after 8 and before 9, by hearing in a job and in a day; what starting and hearing
 * store. The places and what is used there are counted by hand. */
#include "border.h"
#include <string.h>

struct stop { uint32_t order, turn, a, b, deals; };

/* On the house table. Behind each order what is used before it: words of A, words of B, deals. Kind 6 deals and speaks
 * nothing: its deal counts with the next word, the last one at the end. */
static const uint32_t JOB[] = {
    LAMPHIEK_PRODUCT,     1, 2, 3, /* 0, 0, 0 */
    LAMPHIEK_LARGE_SLACK, 1, 1, 3, /* 2, 1, 1 */
    LAMPHIEK_REFRESH,     4, 1, 0, /* 3, 1, 2 */
    LAMPHIEK_RELU,        5, 4, 0, /* 4, 2, 2 */
    LAMPHIEK_ONE_BIT,     6, 5, 9, /* 28, 14, 14 */
    LAMPHIEK_EXACT,       7, 6, 4, /* 31, 15, 16 */
    LAMPHIEK_CURVE,       8, 7, 0, /* 56, 27, 29 */
    LAMPHIEK_CURVE,       9, 8, 1, /* 297, 147, 150 */
    LAMPHIEK_LARGE_SLACK, 9, 9, 1, /* 517, 257, 260 */
};
enum { JOB_WORDS = sizeof JOB / sizeof *JOB, JOB_A = 518, JOB_B = 257, JOB_DEALS = 261 };

static const struct stop JOB_STOPS[] = {
    {0, 0, 2, 1, 1},
    {2, 0, 4, 2, 2}, /* kind 6's deal, and the refresh */
    {3, 0, 6, 3, 3}, /* a deal, and a product with a known value */
    {3, 1, 8, 4, 4},
    {3, 9, 24, 12, 12},
    {3, 10, 26, 13, 13},
    {3, 11, 28, 14, 14},
    {4, 0, 31, 15, 16},
    {5, 0, 34, 16, 18},
    {5, 9, 52, 25, 27},
    {5, 10, 54, 26, 28},
    {5, 11, 56, 27, 29},
    {6, 0, 58, 28, 30},
    {6, 95, 248, 123, 125},
    {6, 96, 251, 124, 127},
    {6, 107, 273, 135, 138},
    {6, 108, 275, 136, 139},
    {6, 119, 297, 147, 150},
    {7, 0, 299, 148, 151},
    {7, 95, 489, 243, 246},
    {7, 96, 490, 244, 246}, /* the refresh before the one-bit truncation has no deal */
    {7, 97, 493, 245, 248},
    {7, 98, 495, 246, 249},
    {7, 109, 517, 257, 260},
    {9, 0, 518, 257, 261},
};

/* A day of quarters 0, 40, 41 and 95; those left out use nothing. */
static const struct stop DAY_STOPS[] = {
    {0, 0, 2, 1, 1},
    {0, 1, 4, 2, 2},
    {0, 95, 192, 96, 96},
    {0, 96, 195, 97, 98},
    {0, 119, 241, 120, 121},
    {40, 0, 243, 121, 122},
    {41, 60, 604, 301, 303},
    {41, 119, 723, 360, 363},
    {95, 0, 725, 361, 364},
    {95, 119, 964, 480, 484},
    {96, 0, 967, 481, 486},
    {96, 9, 985, 490, 495},
    {96, 10, 987, 491, 496},
    {96, 11, 989, 492, 497},
    {97, 0, 989, 492, 497},
};

/* ---- calls on a job, or on a day where there are shares */

static lamphiek_answer start(struct given g, uint32_t host, lamphiek_state *s)
{
    return g.shares.n ? lamphiek_day_start(s, DAY_HOST(g, host)) : lamphiek_start(s, HOST(g, host));
}

static lamphiek_answer hear(struct given g, uint32_t host, lamphiek_state *s)
{
    return g.shares.n ? lamphiek_day_hear(s, DAY_HOST(g, host), 7) : lamphiek_hear(s, HOST(g, host), 7);
}

/* The state on pages that cannot be written is refused with this number; and a copy of it keeps every word. */
static void refuse_hearing(struct given g, uint32_t host, lamphiek_state s, uint32_t number)
{
    lamphiek_state copy = s;
    struct list sealed_words = fenced((const uint32_t *)&s, sizeof s / sizeof(uint32_t));
    enum call call = g.shares.n ? DAY_HEAR : HEAR;
    IS(call, hear(g, host, (lamphiek_state *)(uintptr_t)sealed_words.at), number, 0);
    IS(call, hear(g, host, &copy), number, 0);
    EXPECT(!memcmp(&copy, &s, sizeof s));
}

/* At a place whose stored places are right: one of them off alone, or all three, is 18; but short lists and places that
 * are none come before. */
static void refuse_others(struct given g, uint32_t host, lamphiek_state s)
{
    static const uint32_t off[] = {1, UINT32_MAX, 1u << 31};
    struct given less = g, fewer = g;
    less.a = shorter(g.a);
    less.b = shorter(g.b);
    fewer.deals = shorter(g.deals);
    lamphiek_state other = s;
    for (size_t i = 0; i < 3; i++) {
        uint32_t *const each[] = {&other.used_a, &other.used_b, &other.used_deals};
        for (size_t j = 0; j < sizeof off / sizeof *off; j++) {
            other = s;
            *each[i] += off[j];
            refuse_hearing(g, host, other, LAMPHIEK_STORED);
        }
        refuse_hearing(less, host, other, LAMPHIEK_SHORT_MASKS);
        refuse_hearing(fewer, host, other, host == 1 ? LAMPHIEK_STORED : LAMPHIEK_SHORT_DEALS);
        refuse_hearing(g, 3, other, LAMPHIEK_NO_HOST);
        other.turn = UINT32_MAX;
        refuse_hearing(g, host, other, LAMPHIEK_PLACE);
    }
    other = s;
    use(&other, s.used_a + 2, s.used_b + 1, s.used_deals + 1); /* a product more */
    refuse_hearing(g, host, other, LAMPHIEK_STORED);
    use(&other, 0, 0, 0);
    refuse_hearing(g, host, other, LAMPHIEK_STORED);
}

/* From a start on stale words to the end, past every stop. */
static void pass_stops(struct given g, uint32_t host, const struct stop *stops, size_t n)
{
    const struct stop end = stops[n - 1];
    lamphiek_state s;
    size_t passed = 0;
    memset(&s, 0xA5, sizeof s);
    lamphiek_answer r = start(g, host, &s);
    while (r.number == 0 && passed < n) {
        const struct stop at = stops[passed];
        EXPECT(r.count == s.used_b && s.used_a == s.used_b + s.used_deals);
        if (s.order == at.order && s.turn == at.turn) {
            EXPECT(s.used_a == at.a && s.used_b == at.b && s.used_deals == at.deals);
            refuse_others(g, host, s);
            passed++;
        }
        if (s.order == end.order)
            break;
        r = hear(g, host, &s);
    }
    EXPECT(r.number == 0 && passed == n);
    refuse_hearing(g, host, s, LAMPHIEK_END);
}

/* A refused start keeps all that the host held. */
static void refuse_starting(struct given g, uint32_t host)
{
    struct given less = g;
    less.a = shorter(g.a);
    less.b = shorter(g.b);
    lamphiek_state held, s;
    memset(&held, 0x5A, sizeof held);
    s = held;
    IS(g.shares.n ? DAY_START : START, start(less, host, &s), LAMPHIEK_SHORT_MASKS, 0);
    EXPECT(!memcmp(&s, &held, sizeof s));
}

void stored_places(struct list table)
{
    struct given job = {.job = fenced(JOB, JOB_WORDS),
                        .table = table,
                        .a = fenced(NULL, JOB_A),
                        .b = fenced(NULL, JOB_B),
                        .deals = fenced(NULL, JOB_DEALS)};
    struct given day = a_scattered_day(table);
    for (uint32_t host = 1; host <= 2; host++) {
        pass_stops(job, host, JOB_STOPS, sizeof JOB_STOPS / sizeof *JOB_STOPS);
        pass_stops(day, host, DAY_STOPS, sizeof DAY_STOPS / sizeof *DAY_STOPS);
        refuse_starting(job, host);
        refuse_starting(day, host);
    }
}
