/* random [CALLS [SEED]]: the library held to the model (model.h) on calls at random, the same ones at every time. Ends
 * after the round that reaches CALLS calls; each number comes only after some tens of thousands.
 *
 * First lists of 2^32 words, a run of the largest job, the largest day and days of 1 to 96 quarters; then rounds:
 * splitting and opening; calls on accepted and damaged jobs, tables and lists, and on forged states; a host alone that
 * hears words at random from its start to its end; and whole runs of three hosts, whose registers are opened and held
 * to plain arithmetic too. On the way of a run calls are made on copies of a host's state that a run does not make:
 * refused ones, other places, other stored places, other registers, other words. Now and then the same with a day in a
 * job's place (random_day.c), calendars (random_hours.c) and texts of tables (random_load.c). */
#include "random.h"
#include <inttypes.h>
#include <stdio.h>
#include <stdlib.h>
#include <string.h>

static const uint64_t CALLS_DEFAULT = 4000000, SEED_DEFAULT = 1;

static uint64_t runs, values_held[OR_ONE_MORE + 1];

/* A state on the way of another job. */
static lamphiek_state stray;

/* ---- rounds */

static void round_of_readings(void)
{
    for (int i = 0; i < 4; i++) {
        int64_t reading = make_reading(), value;
        uint32_t l1 = draw(), l2 = draw();
        lamphiek_shares s;
        bool refused = both_split(reading, l1, l2, &s);
        if (refused == in_range(reading))
            fail("split, or refused, against plain arithmetic");
        if (!refused && (both_open(&s, &value) || value != reading))
            fail("a reading that was split opens otherwise");
        uint32_t six[6]; /* genuine, or any where the reading was refused; and one word changed, or none */
        if (chance(50)) { /* genuine again, of the whole signed range */
            lamphiek_shares any = {{l1, l2}, {draw(), l1}, {0, l2}};
            any.host2.m = any.host1.m;
            s = any;
        }
        memcpy(six, &s, sizeof six);
        uint32_t change = chance(50) ? 1u << below(32) : draw();
        if (chance(60))
            six[below(6)] ^= change;
        memcpy(&s, six, sizeof six);
        both_open(&s, &value);
    }
}

/* Every call on a job, lists and a state that may be damaged. */
static void round_of_damage(void)
{
    struct lent whole = make_lent(chance(70)), l = chance(50) ? whole : cut_one(whole);
    lamphiek_counts counts;
    lamphiek_masks masks;
    both_check(&l, &counts);
    both_unused(&l);
    for (int i = 0; i < LAMPHIEK_REGISTERS; i++) {
        masks.l1[i] = draw();
        masks.l2[i] = draw();
    }
    both_prepare(&masks, &l);
    struct host h = make_state();
    both_start(&h, make_host(), &l);
    for (int i = 0; i < 4; i++) {
        struct host forged = make_state();
        if (chance(30))
            forged.library = stray;
        if (chance(80))
            forge_place(&forged.library, &l);
        hear_forged(forged, make_host(), &l, false);
    }
}

/* The same with a word or two of the job changed, or its size, and now and then the table. */
static struct lent make_other(const struct lent *l)
{
    uint32_t job[JOB_MOST], table[TABLE_MOST];
    struct lent other = *l;
    memcpy(job, l->job.at, l->job.n * sizeof *job);
    memcpy(table, l->table.at, l->table.n * sizeof *table);
    size_t n = damage_job(job, l->job.n), rows = chance(30) ? damage_table(table, l->table.n) : l->table.n;
    other.job = lend(ROOM_OTHER_JOB, job, n);
    other.table = lend(ROOM_OTHER_TABLE, table, rows);
    return other;
}

/* Other registers behind genuine kept words, in the middle of an order: all but a curve's source, which the model reads
 * again where the library has kept what it needs of it. */
static void forge_registers(struct host *h, const uint32_t *order)
{
    for (uint32_t i = 0; i < LAMPHIEK_REGISTERS; i++)
        if (order[0] != LAMPHIEK_CURVE || i != order[2]) {
            h->library.m[i] = h->model.m[i] = draw();
            h->library.mask[i] = h->model.mask[i] = draw();
        }
}

/* A call on a copy of a state on a run's way that is no call of this run. */
static void astray(struct host h, uint32_t number, const struct lent *l)
{
    struct lent other = *l;
    switch (below(7)) {
    case 0: /* another word is heard */
        both_hear(&h, number, l, draw(), GENUINE);
        break;
    case 1:
        forge_registers(&h, l->job.at + 4 * h.library.order);
        both_hear(&h, number, l, draw(), GENUINE);
        break;
    case 2: /* another place */
        forge_place(&h.library, l);
        hear_forged(h, number, l, false);
        break;
    case 3: /* another job or table, which may be damaged */
        other = make_other(l);
        h.model = h.library;
        if (chance(70))
            hear_forged(h, number, &other, false);
        else
            both_start(&h, number, &other);
        break;
    case 4: /* a list too short, or a host that is none */
        other = cut_one(other);
        number = chance(80) ? number : make_host();
        both_hear(&h, number, &other, draw(), GENUINE);
        break;
    case 5:
        hear_miscounted(h, number, l, false);
        break;
    default: /* starting again */
        both_start(&h, number, l);
    }
}

static bool ended(const struct host *h, const struct lent *l) { return h->library.order == l->job.n / 4; }

/* At the end of a job, which has used what it needs. */
static void past_end(struct host h, uint32_t number, const struct lent *l)
{
    lamphiek_counts need;
    if (both_check(l, &need) || !holds(&h.library, (struct used){need.a, need.b, need.deals}))
        fail("the stored places at the end");
    if (both_hear(&h, number, l, draw(), GENUINE).number != LAMPHIEK_END)
        fail("hearing at the end");
    hear_miscounted(h, number, l, false);
}

static void round_of_one_host(void)
{
    struct lent l = make_lent(false);
    uint32_t number = 1 + below(2);
    struct host h = make_state();
    if (number == 1 && chance(50))
        l.deals = cut(l.deals); /* which host 1 does not look at */
    lamphiek_answer r = both_start(&h, number, &l);
    while (r.number == 0 && !ended(&h, &l)) {
        if (chance(20))
            astray(h, number, &l);
        if (chance(5))
            stray = h.library;
        r = both_hear(&h, number, &l, chance(95) ? draw() : 0, GENUINE);
    }
    if (r.number)
        fail("an accepted job was refused");
    past_end(h, number, &l);
}

/* Lists of 2^32 words and four, which a count cut to 32 bits would make an accepted job, table or too short a list. */
static bool round_of_long_lists(void)
{
    struct words all = long_list();
    lamphiek_counts counts;
    for (int i = 0; i < 40 && all.n; i++) {
        struct lent l = make_lent(false);
        struct words *lists[4] = {&l.job, &l.table, &l.a, &l.b};
        *lists[i % 4] = all;
        both_check(&l, &counts);
        both_unused(&l);
        lamphiek_masks masks = {{draw()}, {0}};
        both_prepare(&masks, &l);
        if (chance(50))
            l.deals = all;
        for (uint32_t number = 1; number <= 2; number++) {
            struct host h = make_state();
            lamphiek_answer r = both_start(&h, number, &l);
            if (r.number == 0 && !ended(&h, &l))
                both_hear(&h, number, &l, draw(), GENUINE);
        }
    }
    if (all.n) {
        round_of_long_days(all);
        round_of_long_text(all);
    }
    return all.n > 0;
}

/* ---- whole runs */

struct run {
    struct lent lent;
    lamphiek_masks masks;
    struct host one, two;
    struct value values[LAMPHIEK_REGISTERS];
};

/* The registers of the three hosts: shares of one value each. */
static void make_run(struct run *r)
{
    r->one = make_state();
    r->two = make_state();
    for (int i = 0; i < LAMPHIEK_REGISTERS; i++) {
        int64_t reading = chance(25) ? make_count(r->lent.table) : make_reading();
        uint32_t l1 = draw(), l2 = draw();
        lamphiek_shares s;
        if (both_split(reading, l1, l2, &s)) { /* a register may hold any word */
            uint32_t m = (uint32_t)reading + l1 + l2;
            s = (lamphiek_shares){{l1, l2}, {m, l1}, {m, l2}};
        }
        r->values[i] = (struct value){THIS, signed_reading(reading), true, signed_reading((int64_t)l1 + l2)};
        r->masks.l1[i] = s.host0.l1;
        r->masks.l2[i] = s.host0.l2;
        r->one.library.m[i] = r->one.model.m[i] = s.host1.m;
        r->one.library.mask[i] = r->one.model.mask[i] = s.host1.l;
        r->two.library.m[i] = r->two.model.m[i] = s.host2.m;
        r->two.library.mask[i] = r->two.model.mask[i] = s.host2.l;
    }
}

/* Prepares, starts, and carries each word to the other host. */
static void run_hosts(struct run *r)
{
    const struct lent *l = &r->lent;
    if (both_prepare(&r->masks, l).number)
        fail("an accepted job was refused");
    lamphiek_answer x = both_start(&r->one, 1, l), y = both_start(&r->two, 2, l);
    while (!x.number && !y.number && !(ended(&r->one, l) && ended(&r->two, l))) {
        uint32_t from_one = x.word, from_two = y.word;
        if (chance(10)) {
            uint32_t number = 1 + below(2);
            astray(number == 1 ? r->one : r->two, chance(90) ? number : 3 - number, l);
        }
        x = both_hear(&r->one, 1, l, from_two, GENUINE);
        y = both_hear(&r->two, 2, l, from_one, GENUINE);
    }
    if (x.number || y.number)
        fail("a run was refused");
    past_end(r->one, 1, l);
    past_end(r->two, 2, l);
}

static void round_of_three_hosts(struct lent lent)
{
    static struct run r;
    uint32_t written = 0;
    r.lent = lent;
    make_run(&r);
    run_hosts(&r);
    plain_job(r.values, r.lent.job, r.lent.table);
    for (size_t i = 1; i < r.lent.job.n; i += 4)
        written |= 1u << r.lent.job.at[i];
    for (int i = 0; i < LAMPHIEK_REGISTERS; i++) {
        const lamphiek_state *one = &r.one.library, *two = &r.two.library;
        lamphiek_shares s = {{r.masks.l1[i], r.masks.l2[i]}, {one->m[i], one->mask[i]}, {two->m[i], two->mask[i]}};
        int64_t opened;
        if (both_open(&s, &opened))
            fail("the hosts' shares of a result disagree");
        const struct value *v = &r.values[i];
        if (v->known != UNKNOWN && opened != v->v && !(v->known == OR_ONE_MORE && opened == v->v + 1))
            fail("a register opens otherwise than by plain arithmetic");
        values_held[v->known] += written >> i & 1;
    }
    runs++;
}

/* Days are longer than jobs, so fewer of them are tried. */
static void round_of_days(void)
{
    uint32_t which = below(100);
    if (which < 50)
        round_of_day_damage();
    else if (which < 90)
        round_of_hops();
    else
        round_of_whole_day(2 + below(7), which < 99 ? 0 : LAMPHIEK_QUARTERS);
}

/* What comes once: the lists of 2^32 words, what needs most, and days of each number of quarters, since each number has
 * its own factor; more of those with few quarters, where it shows less. */
static void first_rounds(void)
{
    if (!round_of_long_lists())
        puts("random: no room for lists of 2^32 words, which were not tried");
    round_of_three_hosts(make_largest());
    round_of_whole_day(LAMPHIEK_TABLE_WORDS / 2, LAMPHIEK_QUARTERS);
    for (uint32_t n = 1; n <= LAMPHIEK_QUARTERS; n++)
        for (uint32_t i = 0; i < 1 + 12 / n; i++)
            round_of_whole_day(2, n);
}

/* Argument i as a number, or `otherwise` where it is not given. */
static uint64_t argument(int argc, char **argv, int i, uint64_t otherwise)
{
    char *end = NULL;
    if (argc <= i)
        return otherwise;
    uint64_t v = strtoull(argv[i], &end, 10);
    if (*argv[i] < '0' || *argv[i] > '9' || *end) {
        fprintf(stderr, "usage: random [CALLS [SEED]]\n");
        exit(2);
    }
    return v;
}

int main(int argc, char **argv)
{
    uint64_t most = argument(argc, argv, 1, CALLS_DEFAULT);
    begin(argument(argc, argv, 2, SEED_DEFAULT));
    first_rounds();
    while (calls_made() < most) {
        if (chance(1))
            round_of_days();
        if (chance(30))
            round_of_texts();
        if (chance(30))
            round_of_hours();
        uint32_t which = below(100);
        if (which < 20)
            round_of_readings();
        else if (which < 80)
            round_of_damage();
        else if (which < 92)
            round_of_one_host();
        else
            round_of_three_hosts(make_lent(false));
    }
    struct days_held days = days_held();
    bool all = numbers_came() && values_held[THIS] && values_held[OR_ONE_MORE] && days.all > 1 && days.some > 1;
    printf("whole runs: %" PRIu64 "; registers that they wrote, opened and as by plain arithmetic: %" PRIu64
           ", or one more: %" PRIu64 ", not known by it: %" PRIu64 "\n",
           runs, values_held[THIS], values_held[OR_ONE_MORE], values_held[UNKNOWN]);
    printf("whole days, opened and as by plain arithmetic: %" PRIu64 ", and with quarters left out: %" PRIu64 "\n",
           days.all, days.some);
    if (!all) {
        puts("random: a number that a call can give never came, or one came that it cannot give, or no value was held");
        return 1;
    }
    printf("random: %" PRIu64 " calls, each as the model\n", calls_made());
    return 0;
}
