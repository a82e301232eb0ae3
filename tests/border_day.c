/* A day's numbers: 1, 12, 5, 6, 7, 8, 9, in this order; 16 and 17, which stand before 5, are in border_hours.c, and 18,
 * which stands before 9, is in border_used.c. */
#include "border.h"
#include <string.h>

enum { MEAN = LAMPHIEK_QUARTERS, END, MEAN_TURNS = 12 };

struct given a_day(struct list table)
{
    uint32_t calendar[LAMPHIEK_CALENDAR_WORDS] = {0};
    open_always(calendar);
    return (struct given){.job = NONE,
                          .shares = fenced(NULL, LAMPHIEK_DAY_WORDS),
                          .calendar = fenced(calendar, LAMPHIEK_CALENDAR_WORDS),
                          .table = table,
                          .a = fenced(NULL, DAY_A_WORDS),
                          .b = fenced(NULL, DAY_B_WORDS),
                          .deals = fenced(NULL, DAY_DEALS)};
}

void seal_days(struct sealed *s)
{
    static const uint32_t places[DAY_PLACES][2] = {{0, B_WORDS},
                                                   {0, UINT32_MAX},
                                                   {1, B_WORDS + 1},
                                                   {MEAN - 1, B_WORDS},
                                                   {MEAN, MEAN_TURNS},
                                                   {MEAN, B_WORDS - 1},
                                                   {END, 1},
                                                   {END, UINT32_MAX},
                                                   {END + 1, 0},
                                                   {UINT32_MAX, 0},
                                                   {UINT32_MAX, UINT32_MAX}};
    s->day_end.order = END;
    use(&s->day_end, DAY_A_WORDS, DAY_B_WORDS, DAY_DEALS);
    for (int i = 0; i < DAY_PLACES; i++) {
        s->day_elsewhere[i].order = places[i][0];
        s->day_elsewhere[i].turn = places[i][1];
    }
}

void refuse_day(struct given g, size_t room, uint32_t number)
{
    lamphiek_masks *k = WRITABLE(lamphiek_masks, masks);
    lamphiek_state *s = WRITABLE(lamphiek_state, state), *end = WRITABLE(lamphiek_state, day_end);
    IS(DAY_PREPARE, lamphiek_day_prepare(k, DAY(g), LIST(g.a), LIST(g.b), WRITABLE(uint32_t, deals), room), number, 0);
    for (uint32_t host = 1; host <= 2; host++) {
        IS(DAY_START, lamphiek_day_start(s, DAY_HOST(g, host)), number, 0);
        IS(DAY_HEAR, lamphiek_day_hear(s, DAY_HOST(g, host), 7), number, 0);
        IS(DAY_HEAR, lamphiek_day_hear(end, DAY_HOST(g, host), 7), number, 0);
    }
}

/* 12, whatever the calendar, the table and the lists are; then 5, whatever the lists are. */
static void refuse_shares_and_tables(struct given g)
{
    static const size_t sizes[] = {0, 1, 2, 96, 190, 191, 193, 194, 384};
    static const uint32_t tables[][4] = {
        {5, 0, 5, 0}, {6, 0, 5, 0}, {0, 0, 4096, 0}, {0, 20001, 1, 0}, {0, 0, 1, 20001}};
    struct given poor = g;
    poor.a = poor.b = poor.deals = NONE;
    for (size_t i = 0; i < sizeof sizes / sizeof *sizes; i++) {
        struct given other = i % 2 ? g : poor;
        other.shares = fenced(NULL, sizes[i]);
        refuse_day(other, DAY_DEALS, LAMPHIEK_DAY_LIST);
        other.table = NONE;
        other.weekday = i % 2 ? 0 : LAMPHIEK_WEEKDAYS;
        other.calendar = i % 3 ? g.calendar : NONE;
        refuse_day(other, 0, LAMPHIEK_DAY_LIST);
    }
    for (size_t i = 0; i < sizeof tables / sizeof *tables; i++) {
        struct given other = i % 2 ? g : poor;
        other.table = fenced(tables[i], 4);
        refuse_day(other, DAY_DEALS, LAMPHIEK_FOURTH);
    }
    poor.table = NONE;
    refuse_day(poor, 0, LAMPHIEK_FOURTH);
    poor.shares = NONE;
    refuse_day(poor, 0, LAMPHIEK_DAY_LIST);
}

static void refuse_day_hosts(struct given g)
{
    static const uint32_t hosts[] = {0, 3, UINT32_MAX};
    const struct given none = {.weekday = UINT32_MAX};
    lamphiek_state *s = WRITABLE(lamphiek_state, state);
    for (size_t i = 0; i < 3; i++) {
        IS(DAY_START, lamphiek_day_start(s, DAY_HOST(g, hosts[i])), LAMPHIEK_NO_HOST, 0);
        IS(DAY_START, lamphiek_day_start(s, DAY_HOST(none, hosts[i])), LAMPHIEK_NO_HOST, 0);
        IS(DAY_HEAR, lamphiek_day_hear(s, DAY_HOST(g, hosts[i]), 7), LAMPHIEK_NO_HOST, 0);
        IS(DAY_HEAR, lamphiek_day_hear(s, DAY_HOST(none, hosts[i]), 7), LAMPHIEK_NO_HOST, 0);
    }
}

/* Lists one word short of the whole day, or of one quarter; the shorter mask list comes before the shorter deals. */
static void refuse_day_lists(struct given g)
{
    struct given less = g, quarter = g, fewer = g;
    less.a = shorter(g.a);
    less.b = shorter(g.b);
    less.deals = NONE;
    quarter.a = fenced(NULL, A_WORDS);
    quarter.b = fenced(NULL, B_WORDS);
    fewer.deals = shorter(g.deals);
    lamphiek_masks *k = WRITABLE(lamphiek_masks, masks);
    lamphiek_state *s = WRITABLE(lamphiek_state, state);
    uint32_t *d = WRITABLE(uint32_t, deals);
    refuse_day(less, DAY_DEALS - 1, LAMPHIEK_SHORT_MASKS);
    refuse_day(quarter, DAY_DEALS, LAMPHIEK_SHORT_MASKS);
    IS(DAY_PREPARE, lamphiek_day_prepare(k, DAY(g), LIST(less.a), LIST(g.b), d, DAY_DEALS), LAMPHIEK_SHORT_MASKS, 0);
    IS(DAY_PREPARE, lamphiek_day_prepare(k, DAY(g), LIST(g.a), LIST(less.b), d, DAY_DEALS), LAMPHIEK_SHORT_MASKS, 0);
    IS(DAY_PREPARE, lamphiek_day_prepare(k, DAY(g), LIST(g.a), LIST(g.b), d, DAY_DEALS - 1), LAMPHIEK_SHORT_DEALS, 0);
    IS(DAY_START, lamphiek_day_start(s, DAY_HOST(fewer, 2)), LAMPHIEK_SHORT_DEALS, 0);
    IS(DAY_HEAR, lamphiek_day_hear(s, DAY_HOST(fewer, 2), 7), LAMPHIEK_SHORT_DEALS, 0);
}

static void refuse_day_places(struct given g)
{
    for (uint32_t host = 1; host <= 2; host++) {
        IS(DAY_HEAR, lamphiek_day_hear(WRITABLE(lamphiek_state, state), DAY_HOST(g, host), 7), LAMPHIEK_STORED, 0);
        for (size_t i = 0; i < DAY_PLACES; i++)
            IS(DAY_HEAR, lamphiek_day_hear(WRITABLE(lamphiek_state, day_elsewhere[i]), DAY_HOST(g, host), 7),
               LAMPHIEK_PLACE, 0);
        IS(DAY_HEAR, lamphiek_day_hear(WRITABLE(lamphiek_state, day_end), DAY_HOST(g, host), 7), LAMPHIEK_END, 0);
    }
}

void refuse_days(struct list table)
{
    struct given g = a_day(table);
    refuse_shares_and_tables(g);
    refuse_day_hosts(g);
    refuse_day_lists(g);
    refuse_day_places(g);
}

/* Whether registers from the first on are zero in both lanes. */
static int zero(const uint32_t *left, const uint32_t *right, int first)
{
    uint32_t any = 0;
    for (int i = first; i < LAMPHIEK_REGISTERS; i++)
        any |= left[i] | right[i];
    return any == 0;
}

/* Calls that complete, on a buffer with more room than the deals need; whatever masks and state were, they are written.
 * A hearing behind: the last turn of a quarter, and of the mean, leave their registers and go to the next order. */
void complete_day(struct list table)
{
    static uint32_t buffer[DAY_DEALS + 2];
    struct given g = a_day(table);
    lamphiek_masks k;
    lamphiek_state s;
    memset(buffer, 0xA5, sizeof buffer);
    memset(&k, 0xA5, sizeof k);
    lamphiek_answer r = lamphiek_day_prepare(&k, DAY(g), LIST(g.a), LIST(g.b), buffer + 1, DAY_DEALS + 1);
    EXPECT(r.number == 0 && r.index == 0 && r.count == DAY_DEALS && r.word == 0 && zero(k.l1, k.l2, 2));
    EXPECT(buffer[0] == 0xA5A5A5A5u && buffer[DAY_DEALS + 1] == 0xA5A5A5A5u);
    for (uint32_t host = 1; host <= 2; host++) {
        memset(&s, 0xA5, sizeof s);
        r = lamphiek_day_start(&s, DAY_HOST(g, host));
        EXPECT(r.number == 0 && r.index == 0 && r.count == 1 && zero(s.m, s.mask, 0) && s.order == 0 && s.turn == 0);
        s.order = 40, s.turn = B_WORDS - 1;
        use(&s, 41 * A_WORDS, 41 * B_WORDS, 41 * DEALS);
        r = lamphiek_day_hear(&s, DAY_HOST(g, host), 7);
        EXPECT(r.number == 0 && r.count == 41 * B_WORDS + 1 && zero(s.m, s.mask, 2) && s.order == 41 && s.turn == 0);
        s.order = MEAN, s.turn = MEAN_TURNS - 1;
        use(&s, DAY_A_WORDS, DAY_B_WORDS, DAY_DEALS);
        r = lamphiek_day_hear(&s, DAY_HOST(g, host), 7);
        EXPECT(r.number == 0 && r.count == DAY_B_WORDS && r.word == 0 && s.order == END && s.turn == 0);
    }
}
