/* What every host does first: conditions 1 to 7 of document 01, 12 of R-3, 16 and 17 of R-6, and the counts before a
 * place, with which 18 of R-7 compares the stored ones. Loading a table, 13 to 15 of R-5. The curve's slopes. */
#ifndef CHECKS_H
#define CHECKS_H
#include "hours.h"

enum { MEAN_SHIFT = 16 }; /* a day's mean: floor(factor * sum / 65536) */

/* ---- checking: conditions 2 to 7, 12, 16 and 17 */

static const struct used COST[10] = {{0, 0, 0}, {0, 0, 0}, {0, 0, 0}, {0, 0, 0},    {2, 1, 1},
                                     {1, 1, 0}, {1, 0, 1}, {3, 1, 2}, {25, 12, 13}, {24, 12, 12}};
/* the fourth word: least, and how many values from there (0: any) */
static const u32 LEAST[10] = {0, 0, 0, 0, 0, 0, 1, 1, 1, 0};
static const u32 VALUES[10] = {16, 16, 0, 0, 16, 1, 31, 30, 31, 1};

static inline int keeps_rules(struct list t)
{
    u32 least = 0;
    if (t.n % 2 || t.n < 4 || t.n > 32)
        return 0;
    for (const u32 *row = t.at, *end = row + t.n; row < end; row += 2) {
        if (row[0] < least || row[0] > 4095 || row[1] > 20000)
            return 0;
        least = row[0] + 1;
    }
    return 1;
}

/* ---- loading */

enum { RECORD = 6, MARK_1 = 195, MARK_2 = 90, ROWS_MOST = 16 };

struct loaded { u32 number, words, table[2 * ROWS_MOST]; };

static inline u32 two_bytes(const uint8_t *low) { return low[0] | (u32)low[1] << 8; }

static inline struct loaded load(const uint8_t *text, size_t bytes)
{
    struct loaded r = {0};
    size_t n = bytes / RECORD;
    if (bytes % RECORD)
        return (struct loaded){.number = 13};
    for (size_t i = 0; i < n; i++)
        if (text[RECORD * i] != MARK_1 || text[RECORD * i + 1] != MARK_2)
            return (struct loaded){.number = 13};
    if (n < 2 || n > ROWS_MOST)
        return (struct loaded){.number = 14};
    for (size_t i = 0; i < n; i++) {
        r.table[2 * i] = two_bytes(text + RECORD * i + 2);
        r.table[2 * i + 1] = two_bytes(text + RECORD * i + 4);
    }
    if (!keeps_rules((struct list){r.table, 2 * n}))
        return (struct loaded){.number = 15};
    r.words = 2 * (u32)n;
    return r;
}

/* ---- counts */

/* Of a curve: a kind 9 for each row, and as much once more behind the truncation. */
static inline struct used exact_curve(u32 rows)
{
    return (struct used){24 * rows + 49, 12 * rows + 24, 12 * rows + 25};
}
static inline struct used one_bit_curve(u32 rows)
{
    return (struct used){24 * rows + 28, 12 * rows + 14, 12 * rows + 14};
}

struct checked { u32 number, index; struct used whole, before; };

static inline __attribute__((always_inline)) struct checked check_job(struct list job, struct list table, u32 place)
{
    struct checked r = {0};
    if (job.n == 0 || job.n > 256 || job.n % 4)
        return (struct checked){.number = 2};
    struct used curve[2] = {exact_curve(table.n / 2), one_bit_curve(table.n / 2)};
    u32 a = 0, b = 0, deals = 0, i = 0, ruled = 0, fault;
    for (const u32 *o = job.at, *end = o + job.n; o < end; o += 4, i++) {
        u32 kind = o[0], fourth = o[3];
        const struct used *c;
        fault = 3;
        if (kind > 10)
            goto refused;
        fault = 4;
        if ((o[1] | o[2]) > 15)
            goto refused;
        if (kind == 10) {
            fault = 5;
            if (fourth > 1 || !(ruled || (ruled = (u32)keeps_rules(table))))
                goto refused;
            c = &curve[fourth];
        } else {
            fault = kind <= 4 ? 4 : 5;
            if (VALUES[kind] && fourth - LEAST[kind] >= VALUES[kind])
                goto refused;
            c = &COST[kind];
        }
        if (i == place)
            r.before = (struct used){a, b, deals};
        a += c->a;
        b += c->b;
        deals += c->deals;
    }
    r.whole = (struct used){a, b, deals};
    return r;
refused:
    return (struct checked){.number = fault, .index = i};
}

static inline struct used plus(struct used x, u32 times, struct used y)
{
    return (struct used){x.a + times * y.a, x.b + times * y.b, x.deals + times * y.deals};
}

/* A day is checked in the time of one curve and of its calendar: the counts before a quarter are so many times one
 * quarter's. before: of a place in the day, not of one past the mean. */
struct day_checked { struct checked lent; struct hours hours; };

static inline __attribute__((always_inline)) struct day_checked check_day(struct list table, struct list shares,
                    struct list calendar, u32 weekday, u32 place)
{
    struct day_checked r = {.lent.number = 12};
    if (shares.n != DAY_WORDS)
        return r;
    r.hours = judge_hours(calendar, weekday);
    r.lent.number = r.hours.number ? r.hours.number : keeps_rules(table) ? 0 : 5;
    if (r.lent.number)
        return r;
    struct used quarter = exact_curve(table.n / 2), none = {0, 0, 0};
    r.lent.whole = plus(COST[8], r.hours.n, quarter);
    r.lent.before = plus(none, place <= MEAN ? how_many(r.hours.counted & before(place)) : 0, quarter);
    return r;
}

/* Conditions 6 and 7 of host 1 or 2. */
static inline void check_lists(struct checked *r, u32 host, struct list masks, struct list deals)
{
    if (r->number == 0) {
        if (masks.n < (host == 1 ? r->whole.a : r->whole.b))
            r->number = 6;
        else if (host == 2 && deals.n < r->whole.deals)
            r->number = 7;
    }
}

static inline __attribute__((always_inline)) struct checked check_lent(u32 host, const struct lent *l, u32 place)
{
    if (host != 1 && host != 2)
        return (struct checked){.number = 1};
    struct checked r = check_job(l->job, l->table, place);
    check_lists(&r, host, l->masks, l->deals);
    return r;
}

static inline __attribute__((always_inline)) struct day_checked check_lent_day(u32 host, const struct day *d, u32 place)
{
    struct day_checked r = {.lent.number = 1};
    if (host != 1 && host != 2)
        return r;
    r = check_day(d->table, d->shares, d->calendar, d->weekday, place);
    check_lists(&r.lent, host, d->masks, d->deals);
    return r;
}

/* ---- condition 18 */

/* How many more deals than exchanges an order has used with the exchange of a turn. Of kinds 0 to 9 it is the same at
 * every turn; a curve has one more from its exact truncation on, and one fewer at the refresh before the other. */
static const u32 MORE_DEALS[10] = {0, 0, 0, 0, 0, 0u - 1, 0, 1, 1, 0};

static inline u32 more_deals_of_curve(u32 mode, u32 rows, u32 turn)
{
    return mode ? 0u - (turn == 12 * rows) : turn >= 12 * rows;
}

/* What is used up to and with the exchange of a turn: an exchange takes a word of A and one of B, a deal one of A. */
static inline struct used used_at(struct used before, u32 turn, u32 more_deals)
{
    u32 b = before.b + turn + 1, deals = before.deals + turn + 1 + more_deals;
    return (struct used){b + deals, b, deals};
}

static inline int same_used(struct used x, struct used y)
{
    return ((x.a ^ y.a) | (x.b ^ y.b) | (x.deals ^ y.deals)) == 0;
}

/* ---- the curve's slopes */

static inline int32_t slope(const u32 *row)
{
    int32_t rise = ((int32_t)row[3] - (int32_t)row[1]) * 4096, width = (int32_t)(row[2] - row[0]);
    int32_t q = rise / width;
    return q - (rise % width < 0);
}

/* The change of slope at a row: its ReLU's factor. */
static inline u32 change(struct list t, u32 row)
{
    u32 after = 2 * row + 2 < t.n ? (u32)slope(t.at + 2 * row) : 0;
    u32 before = row ? (u32)slope(t.at + 2 * row - 2) : 0;
    return after - before;
}
#endif
