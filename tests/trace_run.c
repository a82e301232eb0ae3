/* Whole runs of the three hosts, of a job or of the day, on lists as long as it needs. */
#include "trace.h"
#include <stdlib.h>
#include <string.h>

/* What a run leaves: the words that each host spoke, and what they hold at the end. */
struct end {
    uint32_t *one, *two;
    lamphiek_masks masks;
    lamphiek_state first, second;
};

/* What a day needs: an exact curve for each quarter that counts, and one exact truncation. Where the calendar is
 * refused, the preparation says so. */
static lamphiek_counts day_needs(void)
{
    static const uint32_t curve[4] = {LAMPHIEK_CURVE, 0, 0, LAMPHIEK_MODE_EXACT}, mean[4] = {LAMPHIEK_EXACT, 0, 0, 16};
    lamphiek_counts quarter = {0}, last = {0};
    lamphiek_check(curve, 4, set.table, set.table_words, &quarter);
    lamphiek_check(mean, 4, set.table, set.table_words, &last);
    lamphiek_quarters counted = {{0}};
    const uint32_t n = lamphiek_day_quarters(set.calendar, LAMPHIEK_CALENDAR_WORDS, set.weekday, &counted).count;
    return (lamphiek_counts){n * quarter.deals + last.deals, n * quarter.words + last.words, n * quarter.a + last.a,
                             n * quarter.b + last.b};
}

/* Whether the stored places are at the end. */
static bool all_used(const lamphiek_state *s, const struct work *w)
{
    return s->used_a == w->a_words && s->used_b == w->b_words && s->used_deals == w->deals_words;
}

/* Both hosts start and carry their words to each other up to the end, which is this order. */
static void talk_to(const struct work *w, uint32_t last, uint32_t words, struct end *e)
{
    lamphiek_answer from1 = work_start(w, 1, &e->first), from2 = work_start(w, 2, &e->second);
    size_t n = 0;
    while (from1.number == 0 && from2.number == 0 && e->first.order < last) {
        must(n < w->b_words && from1.count == n + 1 && from2.count == n + 1, "words are miscounted");
        e->one[n] = from1.word;
        e->two[n] = from2.word;
        from1 = work_hear(w, 1, &e->first, e->two[n]);
        from2 = work_hear(w, 2, &e->second, e->one[n]);
        n++;
    }
    must(from1.number == 0 && from2.number == 0, "what was accepted is not run");
    must(from1.count + from2.count == words && from1.word == 0 && from2.word == 0, "a host ends early");
    must(all_used(&e->first, w) && all_used(&e->second, w), "the lists' use is miscounted");
}

static void put_open(const struct end *e)
{
    uint32_t open[LAMPHIEK_REGISTERS];
    for (int i = 0; i < LAMPHIEK_REGISTERS; i++) {
        lamphiek_shares s = {{e->masks.l1[i], e->masks.l2[i]},
                             {e->first.m[i], e->first.mask[i]},
                             {e->second.m[i], e->second.mask[i]}};
        int64_t value = 0;
        must(lamphiek_open(&s, &value) == 0, "the shares disagree");
        open[i] = (uint32_t)value;
    }
    put("open", open, LAMPHIEK_REGISTERS);
}

/* The words of a list, or of a day's list how many and their fold. */
static void put_list(const struct work *w, const char *name, const uint32_t *words, size_t n)
{
    if (w->day)
        put(name, (const uint32_t[]){(uint32_t)n, fold(0, words, n)}, 2);
    else
        put(name, words, n);
}

static void run_to(struct work *w, lamphiek_counts needs, uint32_t last)
{
    struct end e = {.one = list_of(needs.b), .two = list_of(needs.b)};
    w->a_words = needs.a, w->b_words = needs.b, w->deals_words = needs.deals;
    w->deals = list_of(needs.deals);
    make_masks(w);
    lamphiek_answer p = work_prepare(w, &e.masks);
    must(p.number != LAMPHIEK_SHORT_MASKS && p.number != LAMPHIEK_SHORT_DEALS, "the needs are miscounted");
    if (p.number) {
        put_refusal(p);
    } else {
        must(p.count == needs.deals, "deals are miscounted");
        talk_to(w, last, needs.words, &e);
        put_list(w, "deals", w->deals, needs.deals);
        put_list(w, "one", e.one, needs.b);
        put_list(w, "two", e.two, needs.b);
        put_open(&e);
    }
    free_masks(w);
    free(w->deals), free(e.one), free(e.two);
}

int do_run(const uint32_t *words, size_t n)
{
    struct work w = {.job = words, .job_words = n};
    lamphiek_counts needs = {0};
    lamphiek_answer c = lamphiek_check(words, n, set.table, set.table_words, &needs);
    if (c.number)
        put_refusal(c);
    else
        run_to(&w, needs, (uint32_t)(n / LAMPHIEK_ORDER_WORDS));
    return 1;
}

int do_day(const uint32_t *words, size_t n)
{
    struct work w = {.day = true};
    (void)words, (void)n;
    run_to(&w, day_needs(), LAMPHIEK_QUARTERS + 1);
    return 1;
}
