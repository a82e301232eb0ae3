/* A turn of a host: what kinds 7 to 10 keep between their products and refreshes, speak, and make of what they hear. A
 * turn finds its words of the lists by the state's stored places, which were checked, and works its own word out
 * again. */
#ifndef TURNS_H
#define TURNS_H
#include "gates.h"

/* kept words: m xor n, P and G of the adder; a bit made a number; the sign's factor, 1 - s of ReLU and a of the curve's
 * end; the truncation's sum; the curve's sum, then what its truncation gives */
enum { FIRST = 16, PP, GG, BIT, FACTOR, SUM, CURVE };

/* the adder's ten products: turns 0 to 9, the first with the known m */

static inline void adder_begin(struct state *s, struct walk *w, u32 m)
{
    struct share p = {m, deal(w)};
    put(s, FIRST, p);
    put(s, PP, p);
}

static inline u32 adder_word(const struct state *s, const struct walk *w, u32 turn)
{
    struct share p = get(s, PP);
    if (turn == 0)
        return and_known(w, p);
    return and_word(w, p, up(turn % 2 ? get(s, GG) : p, 1u << (turn - 1) / 2));
}

static inline void adder_heard(struct state *s, u32 turn, struct share v)
{
    if (turn == 0)
        put(s, GG, v);
    else if (turn % 2)
        put(s, GG, xor(get(s, GG), v));
    else
        put(s, PP, v);
}

static inline struct share number(const struct state *s, struct share product)
{
    return sub(get(s, BIT), scale(product, 2));
}
static inline void bit_begin(struct state *s, struct walk *w, struct share q)
{
    put(s, BIT, (struct share){q.m, deal(w)});
}

/* a sign s made a number, and a product of x with its factor: turns 0 to 11; heard gives 1 where v is the product */

enum factor { ONE_LESS_SIGN, SIGN }; /* ReLU's, and that of the curve's end */

static inline u32 sign_word(const struct state *s, const struct walk *w, struct share x, u32 turn)
{
    if (turn < 10)
        return adder_word(s, w, turn);
    return turn == 10 ? mul_known(w, get(s, BIT)) : mul_word(w, x, get(s, FACTOR));
}

static inline int sign_heard(struct state *s, struct walk *w, enum factor f, u32 turn, struct share v)
{
    if (turn < 10) {
        adder_heard(s, turn, v);
        if (turn == 9)
            bit_begin(s, w, xor(bit(get(s, FIRST), 31), bit(get(s, GG), 30)));
        return 0;
    }
    if (turn == 10) {
        struct share sign = number(s, v);
        put(s, FACTOR, f == SIGN ? sign : (struct share){1 - sign.m, 0 - sign.l});
        return 0;
    }
    return 1;
}

/* exact truncation, turns 0 to 11 */

static inline void exact_begin(struct state *s, struct walk *w, struct share x, u32 k)
{
    u32 m = x.m + 0x80000000;
    put(s, SUM, (struct share){m >> k, deal(w)});
    adder_begin(s, w, m);
}

static inline u32 exact_word(const struct state *s, const struct walk *w, u32 turn)
{
    return turn < 10 ? adder_word(s, w, turn) : mul_known(w, get(s, BIT));
}

static inline int exact_heard(struct state *s, struct walk *w, u32 k, u32 turn, struct share *v)
{
    if (turn < 10) {
        adder_heard(s, turn, *v);
        if (turn == 9)
            bit_begin(s, w, bit(get(s, GG), k - 1));
        return 0;
    }
    struct share b = number(s, *v), sum = get(s, SUM);
    if (turn == 10) {
        put(s, SUM, add(sum, b));
        bit_begin(s, w, bit(get(s, GG), 31));
        return 0;
    }
    *v = sub(sum, scale(b, 2u << (31 - k)));
    v->m -= 1u << (31 - k);
    return 1;
}

/* one-bit truncation, turn 0 */

static inline void one_bit_begin(struct state *s, struct walk *w, struct share x, u32 k)
{
    u32 m = x.m + 0x40000000;
    put(s, SUM, (struct share){(m >> k) & ((1u << (31 - k)) - 1), 0 - deal(w)});
    put(s, BIT, (struct share){m >> 31, deal(w)});
}

static inline struct share one_bit_end(const struct state *s, u32 k, struct share v)
{
    struct share r = add(get(s, SUM), scale(number(s, v), 1u << (31 - k)));
    r.m -= 1u << (30 - k);
    return r;
}

/* the curve of x: a row's ReLU of x - r, the truncation of the sum, and behind it the value less a times the
 * value plus 1, a the sign of last r - x, which stays in FACTOR */

static inline struct share row_source(struct share x, struct list t, u32 row)
{
    x.m -= t.at[2 * row];
    return x;
}

static inline void curve_begin(struct state *s, struct walk *w, struct share x, struct list t)
{
    put(s, CURVE, (struct share){4096 * t.at[1], 0});
    adder_begin(s, w, row_source(x, t, 0).m);
}

/* Whether a turn of kind 9 (a sign and a product), or of kind 8, is a product with a known value: the adder's first,
 * and those that make bits numbers. */
static inline u32 sign_known(u32 turn) { return turn == 0 || turn == 10; }
static inline u32 exact_known(u32 turn) { return turn == 0 || turn >= 10; }

static inline void to_exchange(struct walk *w, u32 known)
{
    if (known)
        to_refresh(w);
    else
        to_product(w);
}

/* An order goes on to its next turn. */
static inline int said(struct answer *r, u32 word)
{
    r->state.turn++;
    r->word = word;
    return 0;
}

/* The same where that is the first turn of an adder. */
static inline int said_first(struct answer *r, struct walk *w)
{
    to_refresh(w);
    return said(r, adder_word(&r->state, w, 0));
}

/* A turn of kind 8 or 9 (of a curve, too): 1 where it was the last one, with the result in v. */
static inline __attribute__((always_inline)) int sign_turn(struct answer *r, struct walk *w, struct share x,
                             enum factor f, u32 turn, u32 heard, struct share *v)
{
    struct state *s = &r->state;
    u32 own = sign_word(s, w, x, turn);
    *v = met(w, turn < 10 ? own ^ heard : own + heard);
    if (sign_heard(s, w, f, turn, *v))
        return 1;
    to_exchange(w, sign_known(turn + 1));
    return said(r, sign_word(s, w, x, turn + 1));
}

static inline __attribute__((always_inline)) int exact_turn(struct answer *r, struct walk *w, u32 k,
                             u32 turn, u32 heard, struct share *v)
{
    struct state *s = &r->state;
    u32 own = exact_word(s, w, turn);
    *v = met(w, turn < 10 ? own ^ heard : own + heard);
    if (exact_heard(s, w, k, turn, v))
        return 1;
    to_exchange(w, exact_known(turn + 1));
    return said(r, exact_word(s, w, turn + 1));
}

static inline int one_bit_turn(const struct answer *r, const struct walk *w, u32 k, u32 heard, struct share *v)
{
    *v = one_bit_end(&r->state, k, met(w, mul_known(w, get(&r->state, BIT)) + heard));
    return 1;
}

/* A turn of the curve's rows; behind the last of them the truncation begins. */
static inline __attribute__((always_inline)) int row_turn(struct answer *r, struct walk *w, struct share x, u32 mode,
                    struct list t, u32 turn, u32 heard)
{
    struct state *s = &r->state;
    struct share v;
    u32 row = turn / 12;
    if (!sign_turn(r, w, row_source(x, t, row), ONE_LESS_SIGN, turn % 12, heard, &v))
        return 0;
    struct share sum = add(get(s, CURVE), scale(v, change(t, row)));
    put(s, CURVE, sum);
    if (2 * ++row < t.n) {
        adder_begin(s, w, row_source(x, t, row).m);
        return said_first(r, w);
    }
    if (mode) {
        to_refresh(w);
        return said(r, refresh_word(w, sum));
    }
    exact_begin(s, w, sum, 12);
    return said_first(r, w);
}

/* A turn of its truncation, or of the refresh before that; behind it the value is kept, and the sign's adder begins. */
static inline __attribute__((always_inline)) int curve_truncation_turn(struct answer *r, struct walk *w,
                    struct share x, u32 mode, struct list t, u32 turn, u32 heard)
{
    struct state *s = &r->state;
    struct share v;
    if (mode == 0) {
        if (!exact_turn(r, w, 12, turn, heard, &v))
            return 0;
    } else if (turn == 0) {
        v = met(w, refresh_word(w, get(s, CURVE)) + heard);
        one_bit_begin(s, w, v, 12);
        to_refresh(w);
        return said(r, mul_known(w, get(s, BIT)));
    } else {
        one_bit_turn(r, w, 12, heard, &v);
    }
    put(s, CURVE, v);
    adder_begin(s, w, t.at[t.n - 2] - x.m);
    return said_first(r, w);
}

/* A turn of a curve: 1 where it was the last one, with the result in v. */
static inline __attribute__((always_inline)) int curve_turn(struct answer *r, struct walk *w, struct share x, u32 mode,
                    struct list t, u32 turn, u32 heard, struct share *v)
{
    u32 rows = t.n / 2;
    if (turn < 12 * rows)
        return row_turn(r, w, x, mode, t, turn, heard);
    turn -= 12 * rows;
    u32 truncated = mode ? 2 : 12;
    if (turn < truncated)
        return curve_truncation_turn(r, w, x, mode, t, turn, heard);
    struct share value = get(&r->state, CURVE), over = {value.m + 1, value.l};
    if (!sign_turn(r, w, over, SIGN, turn - truncated, heard, v))
        return 0;
    *v = sub(value, *v);
    return 1;
}
#endif
