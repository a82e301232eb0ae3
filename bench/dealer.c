/* Host 0: preparation. */
#include "checks.h"
#include <string.h>

const u32 house[16] = {200, 0, 456, 250, 712, 520, 1224, 1100, 1736, 1720, 2760, 3100, 3272, 3850, 3572, 4250};

struct pair { u32 l1, l2; };

struct dealer { const u32 *a, *b; u32 *d; };

static inline u32 sum(struct pair x) { return x.l1 + x.l2; }
static inline struct pair padd(struct pair x, struct pair y) { return (struct pair){x.l1 + y.l1, x.l2 + y.l2}; }
static inline struct pair psub(struct pair x, struct pair y) { return (struct pair){x.l1 - y.l1, x.l2 - y.l2}; }
static inline struct pair pxor(struct pair x, struct pair y) { return (struct pair){x.l1 ^ y.l1, x.l2 ^ y.l2}; }
static inline struct pair pneg(struct pair x) { return (struct pair){0 - x.l1, 0 - x.l2}; }
static inline struct pair pscale(struct pair x, u32 c) { return (struct pair){x.l1 * c, x.l2 * c}; }
static inline struct pair pup(struct pair x, u32 d) { return (struct pair){x.l1 << d, x.l2 << d}; }
static inline struct pair pbit(struct pair x, u32 i) { return (struct pair){x.l1 >> i & 1, x.l2 >> i & 1}; }

static inline struct pair deal_number(struct dealer *p, u32 v)
{
    struct pair r = {*p->a, 0 - *p->a - v};
    p->a++;
    *p->d++ = r.l2;
    return r;
}

static inline struct pair deal_bits(struct dealer *p, u32 v)
{
    struct pair r = {*p->a, *p->a ^ v};
    p->a++;
    *p->d++ = r.l2;
    return r;
}

static inline struct pair fresh(struct dealer *p) { return (struct pair){*p->a++, *p->b++}; }

static inline struct pair mul(struct dealer *p, struct pair x, struct pair y)
{
    *p->d++ = sum(x) * sum(y) - *p->a++;
    return fresh(p);
}

static inline struct pair and(struct dealer *p, struct pair x, struct pair y)
{
    *p->d++ = ((x.l1 ^ x.l2) & (y.l1 ^ y.l2)) ^ *p->a++;
    return fresh(p);
}

/* A product of a known value with a dealt one: the known one has no masks, so there is nothing to deal. */
static inline struct pair known_product(struct dealer *p) { return fresh(p); }

static inline struct pair adder(struct dealer *p, struct pair x, struct pair *first)
{
    struct pair n = deal_bits(p, 0 - sum(x)), pp = n, g = known_product(p);
    for (u32 d = 1; d <= 16; d *= 2) {
        struct pair t = and(p, pp, pup(g, d));
        if (d < 16)
            pp = and(p, pp, pup(pp, d));
        g = pxor(g, t);
    }
    *first = n;
    return g;
}

static inline struct pair bit_number(struct dealer *p, struct pair q)
{
    struct pair l = deal_number(p, q.l1 ^ q.l2);
    return psub(l, pscale(known_product(p), 2));
}

static inline struct pair sign(struct dealer *p, struct pair x)
{
    struct pair first, g = adder(p, x, &first);
    return bit_number(p, pxor(pbit(first, 31), pbit(g, 30)));
}

static struct pair relu(struct dealer *p, struct pair x) { return mul(p, x, pneg(sign(p, x))); }

static struct pair exact(struct dealer *p, struct pair x, u32 k)
{
    struct pair first, t = deal_number(p, (0 - sum(x)) >> k), g = adder(p, x, &first);
    t = padd(t, bit_number(p, pbit(g, k - 1)));
    return psub(t, pscale(bit_number(p, pbit(g, 31)), 2u << (31 - k)));
}

static struct pair one_bit(struct dealer *p, struct pair x, u32 k)
{
    struct pair r = deal_number(p, (sum(x) >> k) & ((1u << (31 - k)) - 1));
    struct pair top = deal_number(p, sum(x) >> 31);
    struct pair b = psub(top, pscale(known_product(p), 2));
    return psub(pscale(b, 1u << (31 - k)), r);
}

/* a, the sign of last r - x, times the value plus 1 is taken off the value; what is known has no masks. Not
 * inline: in the loop over the orders it would slow the short kinds. */
static __attribute__((noinline)) struct pair curve(struct dealer *p, struct pair x, u32 mode, struct list t,
                                                   struct pair *above)
{
    struct pair y = {0, 0}, v, a;
    for (u32 row = 0; row < t.n / 2; row++)
        y = padd(y, pscale(relu(p, x), change(t, row)));
    v = mode == 0 ? exact(p, y, 12) : one_bit(p, fresh(p), 12);
    *above = a = sign(p, pneg(x));
    return psub(v, mul(p, a, v));
}

/* Conditions 6 and 7 behind what was checked before them. */
static inline u32 check_room(struct checked c, struct list a, struct list b, size_t room)
{
    if (c.number)
        return c.number;
    return a.n < c.whole.a || b.n < c.whole.b ? 6 : room < c.whole.deals ? 7 : 0;
}

struct prepared prepare(struct list job, struct list table, struct list a, struct list b, u32 *deals, size_t room,
                        const u32 l1[16], const u32 l2[16])
{
    struct prepared r = {0};
    memcpy(r.l1, l1, 64);
    memcpy(r.l2, l2, 64);
    struct checked c = check_job(job, table, 0);
    r.number = check_room(c, a, b, room);
    r.index = c.index;
    if (r.number)
        return r;
    struct dealer p = {a.at, b.at, deals};
    for (u32 i = 0; i < job.n / 4; i++) {
        const u32 *o = job.at + 4 * i;
        u32 f = o[3];
        struct pair x = {r.l1[o[2]], r.l2[o[2]]}, y = {r.l1[f & 15], r.l2[f & 15]}, v, above;
        switch (o[0]) {
        case 0: v = padd(x, y); break;
        case 1: v = psub(x, y); break;
        case 2: v = x; break;
        case 3: v = pscale(x, f); break;
        case 4: v = mul(&p, x, y); break;
        case 5: v = fresh(&p); break;
        case 6: v = deal_number(&p, (u32)((int32_t)(0 - sum(x)) >> f)); break;
        case 7: v = one_bit(&p, x, f); break;
        case 8: v = exact(&p, x, f); break;
        case 9: v = relu(&p, x); break;
        default: v = curve(&p, x, f, table, &above);
        }
        r.l1[o[1]] = v.l1;
        r.l2[o[1]] = v.l2;
    }
    r.deals = (u32)(p.d - deals);
    return r;
}

struct prepared prepare_day(struct list table, struct list shares, struct list calendar, u32 weekday, struct list a,
                            struct list b, u32 *deals, size_t room)
{
    struct day_checked c = check_day(table, shares, calendar, weekday, 0);
    struct prepared r = {.number = check_room(c.lent, a, b, room)};
    if (r.number)
        return r;
    struct dealer p = {a.at, b.at, deals};
    struct pair values = {0, 0}, count = {0, 0}, above;
    for (u32 q = next_order(c.hours.counted, 0); q < MEAN; q = next_order(c.hours.counted, q + 1)) {
        struct pair x = {shares.at[2 * q], shares.at[2 * q + 1]};
        values = padd(values, curve(&p, x, 0, table, &above));
        count = padd(count, above);
    }
    struct pair mean = exact(&p, pscale(values, MEAN_FACTOR[c.hours.n - 1]), MEAN_SHIFT);
    r.l1[0] = mean.l1, r.l2[0] = mean.l2;
    r.l1[1] = count.l1, r.l2[1] = count.l2;
    r.deals = (u32)(p.d - deals);
    return r;
}
