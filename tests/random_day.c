/* Days at random: damaged and forged calls, a host alone, and whole days of three hosts. */
#include "random.h"
#include <string.h>

enum { MEAN = LAMPHIEK_QUARTERS, END, MEAN_TURNS = 12 };

static struct days_held held;

struct days_held days_held(void) { return held; }

/* ---- what is drawn and lent */

static uint32_t day_turns(uint32_t order, struct words table)
{
    static const uint32_t curve[4] = {LAMPHIEK_CURVE, 0, 0, LAMPHIEK_MODE_EXACT};
    return order < MEAN ? turns(curve, table) : order == MEAN ? MEAN_TURNS : 0;
}

/* The quarters that count, in day order, and how many. */
static uint32_t counted(const struct lent *l, uint32_t quarters[LAMPHIEK_QUARTERS])
{
    bool counts[LAMPHIEK_QUARTERS];
    uint32_t n = 0;
    if (plain_hours(l->calendar, l->weekday, counts))
        fail("a sound calendar is none by plain arithmetic");
    for (uint32_t q = 0; q < LAMPHIEK_QUARTERS; q++)
        if (counts[q])
            quarters[n++] = q;
    return n;
}

/* So many exact curves and one exact truncation. */
static lamphiek_counts day_needs(const uint32_t *table, size_t words, uint32_t n)
{
    static const uint32_t curve[4] = {LAMPHIEK_CURVE, 0, 0, LAMPHIEK_MODE_EXACT}, mean[4] = {LAMPHIEK_EXACT, 0, 0, 16};
    lamphiek_counts q, m;
    if (model_check(curve, 4, table, words, &q).number || model_check(mean, 4, table, words, &m).number)
        fail("a table that keeps the rules was refused");
    return (lamphiek_counts){n * q.deals + m.deals, n * q.words + m.words, n * q.a + m.a, n * q.b + m.b};
}

/* The three hosts' shares of these values, under masks at random. */
static void lend_shares(struct lent *l, const int64_t x[LAMPHIEK_QUARTERS])
{
    uint32_t lists[3][LAMPHIEK_DAY_WORDS];
    for (int i = 0; i < LAMPHIEK_QUARTERS; i++) {
        uint32_t l1 = draw(), l2 = draw(), m = (uint32_t)x[i] + l1 + l2;
        const uint32_t shares[3][2] = {{l1, l2}, {m, l1}, {m, l2}};
        for (int host = 0; host < 3; host++)
            memcpy(lists[host] + 2 * i, shares[host], sizeof shares[host]);
    }
    for (int host = 0; host < 3; host++)
        l->shares[host] = lend((enum room)(ROOM_SHARES + host), lists[host], LAMPHIEK_DAY_WORDS);
}

static struct lent make_day(uint32_t rows, uint32_t n, const int64_t x[LAMPHIEK_QUARTERS])
{
    uint32_t table[TABLE_MOST], quarters[LAMPHIEK_QUARTERS];
    struct lent l = {.job = {NULL, 0}};
    size_t words = make_rows(table, rows);
    if (n)
        lend_so_many(&l, n);
    else
        lend_hours(&l);
    lamphiek_counts need = day_needs(table, words, counted(&l, quarters));
    l.table = lend(ROOM_TABLE, table, words);
    lend_lists(&l, &need);
    lend_shares(&l, x);
    return l;
}

/* Days on short tables, whose lists are short; now and then with all quarters. */
static struct lent make_short_day(const int64_t x[LAMPHIEK_QUARTERS])
{
    uint32_t rows = 2 + below(3);
    return make_day(rows, chance(20) ? LAMPHIEK_QUARTERS : 0, x);
}

/* Every quarter's share the same words. */
static void level_shares(struct lent *l)
{
    for (int host = 0; host < 3; host++) {
        struct words w = l->shares[host];
        for (size_t i = 2; i < w.n; i++)
            w.at[i] = w.at[i % 2];
        remember((enum room)(ROOM_SHARES + host));
    }
}

/* A list of shares of a wrong length. */
static struct words wrong_shares(void)
{
    static const uint32_t sizes[] = {0, 1, 2, 96, 190, 191, 193, 194, 384};
    return lend(ROOM_OTHER_SHARES, NULL, one_of(sizes, sizeof sizes / sizeof *sizes));
}

static struct lent damage_day(struct lent l)
{
    uint32_t table[TABLE_MOST];
    size_t n = l.table.n;
    if (chance(40))
        l.shares[below(3)] = wrong_shares();
    if (chance(30)) {
        memcpy(table, l.table.at, n * sizeof *table);
        n = damage_table(table, n);
        l.table = lend(ROOM_OTHER_TABLE, table, n);
    }
    if (chance(30))
        l = damage_hours(l);
    return chance(30) ? cut_one(l) : l;
}

/* A place on the way of a day, which is sound, in a quarter that is left out, the end, one off either, or anywhere. The
 * turn goes by another table, which may be damaged. */
static void forge_day_place(lamphiek_state *s, const struct lent *sound, struct words table)
{
    static const uint32_t orders[] = {0, 1, 95, 96, 97, 98, UINT32_MAX};
    uint32_t quarters[LAMPHIEK_QUARTERS], n = counted(sound, quarters), any = draw();
    uint32_t one = one_of(quarters, n), beside = one + below(3) - 1, order = chance(50) ? beside : below(END + 1);
    s->order = chance(40) ? one : chance(70) ? order : chance(80) ? one_of(orders, 7) : any;
    uint32_t spoken = day_turns(s->order, table), near[] = {0, 1, spoken - 1, spoken, spoken + 1, UINT32_MAX, any};
    s->turn = chance(60) ? below(spoken + 1) : one_of(near, sizeof near / sizeof *near);
}

/* ---- rounds */

static void any_values(int64_t x[LAMPHIEK_QUARTERS])
{
    for (int i = 0; i < LAMPHIEK_QUARTERS; i++)
        x[i] = signed_reading(make_reading());
}

void round_of_day_damage(void)
{
    int64_t x[LAMPHIEK_QUARTERS];
    lamphiek_masks masks;
    any_values(x);
    struct lent whole = make_short_day(x);
    for (int turn = 0; turn < 4; turn++) {
        struct lent l = chance(70) ? damage_day(whole) : whole;
        for (int i = 0; i < LAMPHIEK_REGISTERS; i++) {
            masks.l1[i] = draw();
            masks.l2[i] = draw();
        }
        both_day_prepare(&masks, &l);
        struct host h = make_state();
        both_day_start(&h, make_host(), &l);
        for (int i = 0; i < 6; i++) {
            struct host forged = make_state();
            if (chance(90))
                forge_day_place(&forged.library, &whole, l.table);
            hear_forged(forged, make_host(), &l, true);
        }
    }
}

void round_of_long_days(struct words all)
{
    const struct words as_a_day = {all.at, ((size_t)1 << 32) + LAMPHIEK_DAY_WORDS};
    const struct words as_a_calendar = {all.at, ((size_t)1 << 32) + LAMPHIEK_CALENDAR_WORDS};
    int64_t x[LAMPHIEK_QUARTERS];
    any_values(x);
    for (int i = 0; i < 14; i++) {
        struct lent l = make_short_day(x);
        struct words *lists[7] = {&l.table, &l.a, &l.b, &l.shares[0], &l.shares[1], &l.shares[2], &l.calendar};
        *lists[i % 7] = i % 7 < 3 ? all : i % 7 < 6 ? as_a_day : as_a_calendar;
        lamphiek_masks masks = {{draw()}, {0}};
        lamphiek_quarters quarters;
        both_day_quarters(&l, &quarters);
        both_day_prepare(&masks, &l);
        if (chance(50))
            l.deals = all;
        for (uint32_t number = 1; number <= 2; number++) {
            struct host h = make_state();
            if (both_day_start(&h, number, &l).number == 0)
                both_day_hear(&h, number, &l, draw(), GENUINE);
        }
    }
}

/* The same with other shares of all quarters but the one at hand, which one side may have read already. */
static struct lent other_quarters(struct lent l, uint32_t number, uint32_t order)
{
    uint32_t words[LAMPHIEK_DAY_WORDS];
    memcpy(words, l.shares[number].at, sizeof words);
    for (uint32_t i = 0; i < LAMPHIEK_DAY_WORDS; i++)
        if (i / 2 != order)
            words[i] = draw();
    l.shares[number] = lend(ROOM_OTHER_SHARES, words, LAMPHIEK_DAY_WORDS);
    return l;
}

static void forge_registers(struct host *h)
{
    for (int i = 0; i < LAMPHIEK_REGISTERS; i++) {
        h->library.m[i] = h->model.m[i] = draw();
        h->library.mask[i] = h->model.mask[i] = draw();
    }
}

/* A call on a copy of a state on a day's way that is no call of this day. */
static void day_astray(struct host h, uint32_t number, const struct lent *l)
{
    struct lent other = *l;
    uint32_t job[JOB_MOST];
    switch (below(9)) {
    case 0: /* other registers: no quarter reads one */
        forge_registers(&h);
        both_day_hear(&h, number, l, draw(), GENUINE);
        break;
    case 1:
        other = other_quarters(other, number, h.library.order);
        both_day_hear(&h, number, &other, draw(), GENUINE);
        break;
    case 2: /* another place */
        forge_day_place(&h.library, l, l->table);
        hear_forged(h, number, l, true);
        break;
    case 3: /* another table, list of shares, calendar or weekday, or lists too short */
        other = damage_day(other);
        hear_forged(h, number, &other, true);
        break;
    case 4: /* a job's call on the day's state */
        other.job = lend(ROOM_OTHER_JOB, job, make_job(job, 1 + below(ORDERS), false));
        hear_forged(h, number, &other, false);
        break;
    case 5: /* perhaps another host, whose share one side has read before */
        hear_forged(h, make_host(), l, true);
        break;
    case 6: /* the same quarters by another calendar */
        other = same_hours(other);
        both_day_hear(&h, number, &other, draw(), GENUINE);
        break;
    case 7:
        hear_miscounted(h, number, l, true);
        break;
    default: /* starting again */
        both_day_start(&h, number, l);
    }
}

static bool ended(const struct host *h) { return h->library.order == END; }

/* At the end, where the day has used what it needs. */
static void past_end(struct host h, uint32_t number, const struct lent *l)
{
    uint32_t quarters[LAMPHIEK_QUARTERS];
    lamphiek_counts need = day_needs(l->table.at, l->table.n, counted(l, quarters));
    if (!holds(&h.library, (struct used){need.a, need.b, need.deals}))
        fail("the stored places at the end of a day");
    if (both_day_hear(&h, number, l, draw(), GENUINE).number != LAMPHIEK_END)
        fail("hearing at the end of a day");
    hear_miscounted(h, number, l, true);
}

/* Where every quarter's share is the same, a quarter's kept words are as good in any other. */
void round_of_hops(void)
{
    int64_t x[LAMPHIEK_QUARTERS];
    any_values(x);
    struct lent l = make_short_day(x);
    level_shares(&l);
    uint32_t quarters[LAMPHIEK_QUARTERS], n = counted(&l, quarters);
    uint32_t number = 1 + below(2), hops = 10 + below(40);
    struct host h = make_state();
    if (number == 1 && chance(50))
        l.deals = cut(l.deals); /* which host 1 does not look at */
    lamphiek_answer r = both_day_start(&h, number, &l);
    while (r.number == 0 && !ended(&h)) {
        if (chance(20) && h.library.order < MEAN) { /* at last into the last quarter, and so to the mean */
            h.library.order = h.model.order = quarters[hops ? below(n) : n - 1];
            store(&h, plain_day_used(&l, h.library.order, h.library.turn));
            hops -= hops > 0;
        }
        if (chance(20))
            day_astray(h, number, &l);
        r = both_day_hear(&h, number, &l, chance(95) ? draw() : 0, GENUINE);
    }
    if (r.number)
        fail("an accepted day was refused");
    past_end(h, number, &l);
}

/* ---- whole days */

/* Prepares, starts, and carries each word to the other host. */
static void run_day(const struct lent *l, lamphiek_masks *masks, struct host *one, struct host *two)
{
    if (both_day_prepare(masks, l).number)
        fail("an accepted day was refused");
    lamphiek_answer r = both_day_start(one, 1, l), s = both_day_start(two, 2, l);
    while (!r.number && !s.number && !(ended(one) && ended(two))) {
        uint32_t from_one = r.word, from_two = s.word;
        if (chance(1)) {
            uint32_t number = 1 + below(2);
            day_astray(number == 1 ? *one : *two, number, l);
        }
        r = both_day_hear(one, 1, l, from_two, GENUINE);
        s = both_day_hear(two, 2, l, from_one, GENUINE);
    }
    if (r.number || s.number)
        fail("a day was refused");
    past_end(*one, 1, l);
    past_end(*two, 2, l);
}

void round_of_whole_day(uint32_t rows, uint32_t n)
{
    bool counts[LAMPHIEK_QUARTERS], left_out = false;
    int64_t x[LAMPHIEK_QUARTERS], expected[LAMPHIEK_REGISTERS] = {0}, opened;
    lamphiek_masks masks = {{draw()}, {0}};
    struct host one = make_state(), two = make_state();
    any_values(x);
    struct lent l = make_day(rows, n, x);
    if (plain_hours(l.calendar, l.weekday, counts))
        fail("a sound calendar is none by plain arithmetic");
    for (int i = 0; i < LAMPHIEK_QUARTERS; i++) {
        x[i] = chance(60) ? make_count(l.table) : x[i];
        left_out = left_out || !counts[i];
    }
    lend_shares(&l, x);
    run_day(&l, &masks, &one, &two);
    plain_day(x, counts, l.table, &expected[0], &expected[1]);
    for (int i = 0; i < LAMPHIEK_REGISTERS; i++) {
        const lamphiek_state *r = &one.library, *s = &two.library;
        lamphiek_shares left = {{masks.l1[i], masks.l2[i]}, {r->m[i], r->mask[i]}, {s->m[i], s->mask[i]}};
        if (both_open(&left, &opened))
            fail("the hosts' shares of a day's result disagree");
        if (opened != expected[i])
            fail("a day opens otherwise than by plain arithmetic");
    }
    (*(left_out ? &held.some : &held.all))++;
}
