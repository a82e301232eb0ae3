/* Hosts 1 and 2 at a gate: shares, a host with its lists, and the word that it speaks. */
#ifndef GATES_H
#define GATES_H
#include "checks.h"

struct share { u32 m, l; };

static inline struct share get(const struct state *s, u32 i) { return (struct share){s->m[i], s->l[i]}; }
static inline void put(struct state *s, u32 i, struct share v) { s->m[i] = v.m; s->l[i] = v.l; }
static inline struct share add(struct share x, struct share y) { return (struct share){x.m + y.m, x.l + y.l}; }
static inline struct share sub(struct share x, struct share y) { return (struct share){x.m - y.m, x.l - y.l}; }
static inline struct share xor(struct share x, struct share y) { return (struct share){x.m ^ y.m, x.l ^ y.l}; }
static inline struct share scale(struct share x, u32 c) { return (struct share){x.m * c, x.l * c}; }
static inline struct share up(struct share x, u32 d) { return (struct share){x.m << d, x.l << d}; }
static inline struct share bit(struct share x, u32 i) { return (struct share){x.m >> i & 1, x.l >> i & 1}; }

/* A host with its lists, and how much of them it has used, with the gate at hand: the walk's places. */
struct walk { u32 host; const u32 *masks, *deals; struct used used; };

static inline u32 deal(struct walk *w)
{
    u32 i = w->used.a++, j = w->used.deals++;
    return w->host == 1 ? w->masks[i] : w->deals[j];
}

/* A product takes its g1 or g2 and then a mask. One with a known value has no g1 and g2, and takes of the lists
 * what a refresh takes. */
static inline void to_product(struct walk *w) { w->used.a += 2; w->used.b++; w->used.deals++; }
static inline void to_refresh(struct walk *w) { w->used.a++; w->used.b++; }
static inline u32 part(const struct walk *w)
{
    return w->host == 1 ? w->masks[w->used.a - 2] : w->deals[w->used.deals - 1];
}
static inline u32 mask(const struct walk *w) { return w->masks[(w->host == 1 ? w->used.a : w->used.b) - 1]; }

static inline u32 mul_word(const struct walk *w, struct share x, struct share y)
{
    u32 own = part(w) + mask(w) - x.m * y.l - y.m * x.l;
    return w->host == 1 ? own + x.m * y.m : own;
}

static inline u32 and_word(const struct walk *w, struct share x, struct share y)
{
    u32 own = part(w) ^ mask(w) ^ (x.m & y.l) ^ (y.m & x.l);
    return w->host == 1 ? own ^ (x.m & y.m) : own;
}

/* A known value times a dealt one, both kept in one share. */
static inline u32 mul_known(const struct walk *w, struct share q) { return mask(w) - q.m * q.l; }
static inline u32 and_known(const struct walk *w, struct share q) { return mask(w) ^ (q.m & q.l); }

static inline u32 refresh_word(const struct walk *w, struct share x)
{
    u32 own = mask(w) - x.l;
    return w->host == 1 ? own + x.m : own;
}

/* The new share of a product or a refresh, of the two words' sum. */
static inline struct share met(const struct walk *w, u32 sum) { return (struct share){sum, mask(w)}; }
#endif
