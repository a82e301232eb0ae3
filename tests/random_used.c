/* Stored places (R-7): how far the lists are used by plain counting, gate by gate, and states that hold this or not. */
#include "random.h"

/* The gates of each kind that take of the lists, in their order (document 01, "Orders"; R-4): D is a deal, P a product,
 * R a refresh or a product with a known value. */
#define ADDER "DRPPPPPPPPP"
#define NUMBER "DR"
static const char *const GATES[KINDS - 1] = {
    "", "", "", "", "P", "R", "D", "DDR", "D" ADDER NUMBER NUMBER, ADDER NUMBER "P"};

enum { ONE_BIT = 7, EXACT = 8, RELU = 9, CURVE = 10 };
static const uint32_t ALL = UINT32_MAX; /* more exchanges than there are */

/* Goes over gates until so many exchanges (products and refreshes) are passed: how many of them are left. */
static uint32_t pass(struct used *u, const char *gates, uint32_t exchanges)
{
    for (; *gates && exchanges; gates++) {
        u->a += *gates == 'P' ? 2 : 1;
        u->b += *gates != 'D';
        u->deals += *gates != 'R';
        exchanges -= *gates != 'D';
    }
    return exchanges;
}

/* A curve: a ReLU for each row, the truncation, behind a refresh in the one-bit mode, and R-1's sign and product. */
static void pass_order(struct used *u, const uint32_t *order, struct words table, uint32_t exchanges)
{
    if (order[0] < CURVE)
        pass(u, GATES[order[0]], exchanges);
    if (order[0] != CURVE)
        return;
    for (size_t row = 0; row < table.n / 2; row++)
        exchanges = pass(u, GATES[RELU], exchanges);
    exchanges = order[3] ? pass(u, "R", exchanges) : exchanges;
    exchanges = pass(u, GATES[order[3] ? ONE_BIT : EXACT], exchanges);
    pass(u, GATES[RELU], exchanges);
}

struct used plain_used(const struct lent *l, uint32_t order, uint32_t turn)
{
    struct used u = {0, 0, 0};
    for (uint32_t i = 0; i < l->job.n / 4 && i <= order; i++)
        pass_order(&u, l->job.at + 4 * i, l->table, i < order ? ALL : turn + 1);
    return u;
}

/* Which quarters count is the model's word here: random_hours.c holds it to plain arithmetic. */
struct used plain_day_used(const struct lent *l, uint32_t order, uint32_t turn)
{
    static const uint32_t curve[4] = {CURVE, 0, 0, LAMPHIEK_MODE_EXACT}, mean[4] = {EXACT, 0, 0, 16};
    lamphiek_quarters counted = {{0}};
    struct used quarter = {0, 0, 0};
    uint32_t n = 0;
    model_day_quarters(l->calendar.at, l->calendar.n, l->weekday, &counted);
    pass_order(&quarter, curve, l->table, ALL);
    for (uint32_t q = 0; q < LAMPHIEK_QUARTERS && q < order; q++)
        n += counted.bits[q / 32] >> q % 32 & 1;
    struct used u = {n * quarter.a, n * quarter.b, n * quarter.deals};
    if (order < LAMPHIEK_QUARTERS)
        pass_order(&u, curve, l->table, turn + 1);
    else
        pass_order(&u, mean, l->table, order == LAMPHIEK_QUARTERS ? turn + 1 : ALL);
    return u;
}

bool holds(const lamphiek_state *s, struct used u)
{
    return s->used_a == u.a && s->used_b == u.b && s->used_deals == u.deals;
}

void store(struct host *h, struct used u)
{
    h->library.used_a = h->model.used_a = u.a;
    h->library.used_b = h->model.used_b = u.b;
    h->library.used_deals = h->model.used_deals = u.deals;
}

/* ---- forged ones */

/* Others than these: one that is off, a product more, or A's and B's exchanged, which without deals are alike. */
static struct used other_than(struct used u)
{
    uint32_t *each[3] = {&u.a, &u.b, &u.deals}, *one = each[below(3)];
    switch (below(6)) {
    case 0: *one += 1; break;
    case 1: *one -= 1; break;
    case 2: *one ^= 1u << below(32); break;
    case 3: *one ^= draw() | 1; break;
    case 4: u = (struct used){u.a + 2, u.b + 1, u.deals + 1}; break;
    default: u = (struct used){u.b, u.a, u.deals + (u.a == u.b)};
    }
    return u;
}

static struct used right_at(const lamphiek_state *s, const struct lent *l, bool day)
{
    return (day ? plain_day_used : plain_used)(l, s->order, s->turn);
}

void hear_forged(struct host h, uint32_t number, const struct lent *l, bool day)
{
    struct used right = right_at(&h.library, l, day);
    h.model = h.library;
    if (chance(90))
        store(&h, chance(85) ? right : other_than(right));
    (day ? both_day_hear : both_hear)(&h, number, l, draw(), FORGED);
}

void hear_miscounted(struct host h, uint32_t number, const struct lent *l, bool day)
{
    store(&h, other_than(right_at(&h.library, l, day)));
    if ((day ? both_day_hear : both_hear)(&h, number, l, draw(), GENUINE).number != LAMPHIEK_STORED)
        fail("hearing with other stored places than those of the state's place");
}
