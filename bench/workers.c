/* Hosts 1 and 2: a switch over kind and turn, no gate interpreter. Hearing finds its place from (order, turn),
 * conditions 8, 18 and 9, and works its own word out again. */
#include "turns.h"
#include <string.h>

/* What a completed call leaves. */
static inline void keep(struct answer *r, const struct walk *w)
{
    r->state.used = w->used;
    r->spoken = w->used.b;
}

/* Runs from the beginning of an order to the first product or refresh, or to the end. */
static inline void run(struct answer *r, struct walk *w, const struct lent *lent)
{
    struct state *s = &r->state;
    u32 n = lent->job.n / 4;
    s->turn = 0;
    for (; s->order < n; s->order++) {
        const u32 *o = lent->job.at + 4 * s->order;
        u32 d = o[1], c = o[3];
        struct share x = get(s, o[2]);
        switch (o[0]) {
        case 0: put(s, d, add(x, get(s, c))); continue;
        case 1: put(s, d, sub(x, get(s, c))); continue;
        case 2: x.m += c; put(s, d, x); continue;
        case 3: put(s, d, scale(x, c)); continue;
        case 4: to_product(w); r->word = mul_word(w, x, get(s, c)); return;
        case 5: to_refresh(w); r->word = refresh_word(w, x); return;
        case 6: put(s, d, (struct share){(u32)((int32_t)x.m >> c), deal(w)}); continue;
        case 7: one_bit_begin(s, w, x, c); to_refresh(w); r->word = mul_known(w, get(s, BIT)); return;
        case 8: exact_begin(s, w, x, c); break;
        case 9: adder_begin(s, w, x.m); break;
        default: curve_begin(s, w, x, lent->table);
        }
        to_refresh(w);
        r->word = adder_word(s, w, 0);
        return;
    }
    r->word = 0;
}

struct answer start(u32 host, const struct lent *lent, const u32 m[16], const u32 l[16])
{
    struct answer r = {0};
    memcpy(r.state.m, m, 64);
    memcpy(r.state.l, l, 64);
    struct checked c = check_lent(host, lent, 0);
    if (c.number) {
        r.number = c.number;
        r.index = c.index;
        return r;
    }
    struct walk w = {host, lent->masks.at, lent->deals.at, {0, 0, 0}};
    run(&r, &w, lent);
    keep(&r, &w);
    return r;
}

static inline u32 turns(const u32 *o, struct list t)
{
    return o[0] < 10 ? COST[o[0]].b : 12 * (t.n / 2) + (o[3] ? 14 : 24);
}

/* Conditions 8, 18 and 9 behind those before them. */
static inline u32 check_place(const struct state *s, const struct lent *lent, const struct checked *c)
{
    u32 n = lent->job.n / 4;
    if (s->order >= n)
        return s->order > n || s->turn ? 8 : same_used(s->used, c->whole) ? 9 : 18;
    const u32 *o = lent->job.at + 4 * s->order;
    if (s->turn >= turns(o, lent->table))
        return 8;
    u32 more = o[0] < 10 ? MORE_DEALS[o[0]] : more_deals_of_curve(o[3], lent->table.n / 2, s->turn);
    return same_used(s->used, used_at(c->before, s->turn, more)) ? 0 : 18;
}

static inline __attribute__((always_inline)) void hear_in(struct answer *r, u32 host, const struct lent *lent,
                    u32 heard)
{
    struct state *s = &r->state;
    u32 turn = s->turn;
    struct checked c = check_lent(host, lent, s->order);
    r->number = c.number ? c.number : check_place(s, lent, &c);
    r->index = c.index;
    r->spoken = r->word = 0;
    if (r->number)
        return;
    const u32 *o = lent->job.at + 4 * s->order;
    struct walk w = {host, lent->masks.at, lent->deals.at, s->used};
    struct share v;
    int done = 1;
    switch (o[0]) {
    case 4: v = met(&w, mul_word(&w, get(s, o[2]), get(s, o[3])) + heard); break;
    case 5: v = met(&w, refresh_word(&w, get(s, o[2])) + heard); break;
    case 7: done = one_bit_turn(r, &w, o[3], heard, &v); break;
    case 8: done = exact_turn(r, &w, o[3], turn, heard, &v); break;
    case 9: done = sign_turn(r, &w, get(s, o[2]), ONE_LESS_SIGN, turn, heard, &v); break;
    default: done = curve_turn(r, &w, get(s, o[2]), o[3], lent->table, turn, heard, &v);
    }
    if (done) {
        put(s, o[1], v);
        s->order++;
        run(r, &w, lent);
    }
    keep(r, &w);
}

struct answer hear(struct state s, u32 host, const struct lent *lent, u32 heard)
{
    struct answer r;
    r.state = s;
    hear_in(&r, host, lent, heard);
    return r;
}

void hear_at(struct answer *r, u32 host, const struct lent *lent, u32 heard) { hear_in(r, host, lent, heard); }

/* ---- the day: a quarter that counts is an exact curve of its share, the mean a kind 8 of the sum in register 0 */

static inline struct share quarter(const struct day *d, u32 q)
{
    return (struct share){d->shares.at[2 * q], d->shares.at[2 * q + 1]};
}

/* Runs from the beginning of the next order, from this one on, to its first product, or stands at the end. */
static inline void run_day(struct answer *r, struct walk *w, const struct day *d, struct hours h, u32 order)
{
    struct state *s = &r->state;
    s->order = next_order(h.counted, order);
    s->turn = 0;
    r->word = 0;
    if (s->order == DAY_END)
        return;
    if (s->order < MEAN)
        curve_begin(s, w, quarter(d, s->order), d->table);
    else
        exact_begin(s, w, scale(get(s, 0), MEAN_FACTOR[h.n - 1]), MEAN_SHIFT);
    to_refresh(w);
    r->word = adder_word(s, w, 0);
}

struct answer start_day(u32 host, const struct day *d)
{
    struct answer r = {0};
    struct day_checked c = check_lent_day(host, d, 0);
    r.number = c.lent.number;
    if (r.number)
        return r;
    struct walk w = {host, d->masks.at, d->deals.at, {0, 0, 0}};
    run_day(&r, &w, d, c.hours, 0);
    keep(&r, &w);
    return r;
}

/* Conditions 8, 18 and 9; a quarter that is left out has no turns. */
static inline u32 check_day_place(const struct state *s, struct list table, const struct day_checked *c)
{
    u32 rows = table.n / 2, turns = 0, more = more_deals_of_curve(0, rows, s->turn);
    if (s->order > MEAN)
        return s->order > DAY_END || s->turn ? 8 : same_used(s->used, c->lent.whole) ? 9 : 18;
    if (s->order == MEAN) {
        turns = COST[8].b;
        more = MORE_DEALS[8];
    } else if (counts(c->hours.counted, s->order)) {
        turns = exact_curve(rows).b;
    }
    return s->turn >= turns ? 8 : same_used(s->used, used_at(c->lent.before, s->turn, more)) ? 0 : 18;
}

/* A call of its own: taken into hear_day, whose state gcc then spreads over registers, it costs more. */
__attribute__((noinline)) void hear_day_at(struct answer *r, u32 host, const struct day *d, u32 heard)
{
    struct state *s = &r->state;
    u32 order = s->order, turn = s->turn;
    struct day_checked c = check_lent_day(host, d, order);
    r->number = c.lent.number ? c.lent.number : check_day_place(s, d->table, &c);
    r->index = r->spoken = r->word = 0;
    if (r->number)
        return;
    struct walk w = {host, d->masks.at, d->deals.at, s->used};
    struct share v;
    int done = order < MEAN ? curve_turn(r, &w, quarter(d, order), 0, d->table, turn, heard, &v)
                            : exact_turn(r, &w, MEAN_SHIFT, turn, heard, &v);
    if (done) {
        if (order < MEAN) {
            put(s, 1, add(get(s, 1), get(s, FACTOR)));
            v = add(get(s, 0), v);
        }
        put(s, 0, v);
        run_day(r, &w, d, c.hours, order + 1);
    }
    keep(r, &w);
}

struct answer hear_day(struct state s, u32 host, const struct day *d, u32 heard)
{
    struct answer r;
    r.state = s;
    hear_day_at(&r, host, d, heard);
    return r;
}
