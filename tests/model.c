/* The fourteen calls over bench/: preparation, starting and hearing, of a job and of a day, its quarters, and loading
 * are its engine's, the others are written here from document 01. Nothing here calls the library. */
#include "model.h"
#include "checks.h"
#include <string.h>

uint32_t model_split(int64_t reading, uint32_t l1, uint32_t l2, lamphiek_shares *shares)
{
    const int64_t bound = (int64_t)1 << 30;
    if (reading < -bound || reading >= bound)
        return 11;
    u32 m = (u32)reading + l1 + l2;
    *shares = (lamphiek_shares){{l1, l2}, {m, l1}, {m, l2}};
    return 0;
}

uint32_t model_open(const lamphiek_shares *shares, int64_t *value)
{
    const lamphiek_dealer_share *masks = &shares->host0;
    if (shares->host1.l != masks->l1 || shares->host2.l != masks->l2 || shares->host1.m != shares->host2.m)
        return 10;
    int64_t word = (u32)(shares->host1.m - masks->l1 - masks->l2);
    *value = word < (int64_t)1 << 31 ? word : word - ((int64_t)1 << 32);
    return 0;
}

/* ---- checking */

lamphiek_answer model_check(const uint32_t *job, size_t job_words, const uint32_t *table, size_t table_words,
                            lamphiek_counts *counts)
{
    struct checked c = check_job((struct list){job, job_words}, (struct list){table, table_words}, 0);
    if (c.number == 0)
        *counts = (lamphiek_counts){c.whole.deals, 2 * c.whole.b, c.whole.a, c.whole.b};
    return (lamphiek_answer){c.number, c.index, 0, 0};
}

/* What a checked job leaves of a list of so many words, of which it needs so many. */
static size_t unused(struct checked c, u32 need, size_t words, uint32_t *number)
{
    *number = c.number ? c.number : words < need ? 6 : 0;
    return *number ? words : words - need;
}

size_t model_unused_a(const uint32_t *job, size_t job_words, const uint32_t *table, size_t table_words,
                      const uint32_t *a, size_t a_words, uint32_t *number)
{
    struct checked c = check_job((struct list){job, job_words}, (struct list){table, table_words}, 0);
    (void)a;
    return unused(c, c.whole.a, a_words, number);
}

size_t model_unused_b(const uint32_t *job, size_t job_words, const uint32_t *table, size_t table_words,
                      const uint32_t *b, size_t b_words, uint32_t *number)
{
    struct checked c = check_job((struct list){job, job_words}, (struct list){table, table_words}, 0);
    (void)b;
    return unused(c, c.whole.b, b_words, number);
}

void model_house(uint32_t table[LAMPHIEK_HOUSE_WORDS]) { memcpy(table, house, sizeof house); }

lamphiek_answer model_load(const uint8_t *text, size_t text_bytes, uint32_t table[LAMPHIEK_TABLE_WORDS])
{
    struct loaded r = load(text, text_bytes);
    if (r.number == 0)
        memcpy(table, r.table, sizeof r.table);
    return (lamphiek_answer){r.number, 0, r.words, 0};
}

/* ---- the hosts */

/* Writes the masks back, if the call was not refused. */
static lamphiek_answer prepared(lamphiek_masks *masks, const struct prepared *p)
{
    if (p->number == 0) {
        memcpy(masks->l1, p->l1, sizeof p->l1);
        memcpy(masks->l2, p->l2, sizeof p->l2);
    }
    return (lamphiek_answer){p->number, p->index, p->deals, 0};
}

lamphiek_answer model_prepare(lamphiek_masks *masks, const uint32_t *job, size_t job_words, const uint32_t *table,
                              size_t table_words, const uint32_t *a, size_t a_words, const uint32_t *b,
                              size_t b_words, uint32_t *deals, size_t deals_words)
{
    struct prepared p = prepare((struct list){job, job_words}, (struct list){table, table_words},
                                (struct list){a, a_words}, (struct list){b, b_words}, deals, deals_words,
                                masks->l1, masks->l2);
    return prepared(masks, &p);
}

/* What a hearing begins with. */
static struct answer held(const lamphiek_state *state)
{
    struct answer r = {.state = {.order = state->order,
                                 .turn = state->turn,
                                 .used = {state->used_a, state->used_b, state->used_deals}}};
    memcpy(r.state.m, state->m, sizeof state->m);
    memcpy(r.state.l, state->mask, sizeof state->mask);
    return r;
}

/* Writes the state back, if the call was not refused. */
static lamphiek_answer told(lamphiek_state *state, const struct answer *r)
{
    if (r->number == 0) {
        memcpy(state->m, r->state.m, sizeof state->m);
        memcpy(state->mask, r->state.l, sizeof state->mask);
        state->order = r->state.order;
        state->turn = r->state.turn;
        state->used_a = r->state.used.a;
        state->used_b = r->state.used.b;
        state->used_deals = r->state.used.deals;
    }
    return (lamphiek_answer){r->number, r->index, r->spoken, r->word};
}

lamphiek_answer model_start(lamphiek_state *state, uint32_t host, const uint32_t *job, size_t job_words,
                            const uint32_t *table, size_t table_words, const uint32_t *masks, size_t masks_words,
                            const uint32_t *deals, size_t deals_words)
{
    struct lent lent = {{job, job_words}, {table, table_words}, {masks, masks_words}, {deals, deals_words}};
    struct answer r = start(host, &lent, state->m, state->mask);
    return told(state, &r);
}

lamphiek_answer model_hear(lamphiek_state *state, uint32_t host, const uint32_t *job, size_t job_words,
                           const uint32_t *table, size_t table_words, const uint32_t *masks, size_t masks_words,
                           const uint32_t *deals, size_t deals_words, uint32_t heard)
{
    struct lent lent = {{job, job_words}, {table, table_words}, {masks, masks_words}, {deals, deals_words}};
    struct answer r = held(state);
    hear_at(&r, host, &lent, heard);
    return told(state, &r);
}

/* ---- a day */

lamphiek_answer model_day_quarters(const uint32_t *calendar, size_t calendar_words, uint32_t weekday,
                                   lamphiek_quarters *quarters)
{
    struct hours h = judge_hours((struct list){calendar, calendar_words}, weekday);
    if (h.number == 0)
        *quarters = (lamphiek_quarters){{(u32)h.counted, (u32)(h.counted >> 32), (u32)(h.counted >> 64)}};
    return (lamphiek_answer){h.number, 0, h.n, 0};
}

lamphiek_answer model_day_prepare(lamphiek_masks *masks, const uint32_t *table, size_t table_words,
                                  const uint32_t *shares, size_t shares_words, const uint32_t *calendar,
                                  size_t calendar_words, uint32_t weekday, const uint32_t *a, size_t a_words,
                                  const uint32_t *b, size_t b_words, uint32_t *deals, size_t deals_words)
{
    struct prepared p = prepare_day((struct list){table, table_words}, (struct list){shares, shares_words},
                                    (struct list){calendar, calendar_words}, weekday, (struct list){a, a_words},
                                    (struct list){b, b_words}, deals, deals_words);
    return prepared(masks, &p);
}

lamphiek_answer model_day_start(lamphiek_state *state, uint32_t host, const uint32_t *table, size_t table_words,
                                const uint32_t *shares, size_t shares_words, const uint32_t *calendar,
                                size_t calendar_words, uint32_t weekday, const uint32_t *masks, size_t masks_words,
                                const uint32_t *deals, size_t deals_words)
{
    struct day day = {{table, table_words}, {shares, shares_words}, {calendar, calendar_words},
                      weekday,              {masks, masks_words},   {deals, deals_words}};
    struct answer r = start_day(host, &day);
    return told(state, &r);
}

lamphiek_answer model_day_hear(lamphiek_state *state, uint32_t host, const uint32_t *table, size_t table_words,
                               const uint32_t *shares, size_t shares_words, const uint32_t *calendar,
                               size_t calendar_words, uint32_t weekday, const uint32_t *masks, size_t masks_words,
                               const uint32_t *deals, size_t deals_words, uint32_t heard)
{
    struct day day = {{table, table_words}, {shares, shares_words}, {calendar, calendar_words},
                      weekday,              {masks, masks_words},   {deals, deals_words}};
    struct answer r = held(state);
    hear_day_at(&r, host, &day, heard);
    return told(state, &r);
}
