/* What a job or the day is lent, the calls on it, and what is written of them. */
#include "trace.h"
#include <stdio.h>
#include <stdlib.h>
#include <string.h>

struct settings set;

void must(bool holds, const char *what)
{
    if (!holds) {
        fprintf(stderr, "trace: %s\n", what);
        exit(1);
    }
}

void put(const char *name, const uint32_t *words, size_t n)
{
    fputs(name, stdout);
    for (size_t i = 0; i < n; i++)
        printf(" %u", words[i]);
    putchar('\n');
}

void put_refusal(lamphiek_answer r)
{
    put("refused", (const uint32_t[]){r.number, r.index}, 2);
}

uint32_t fold(uint32_t f, const uint32_t *words, size_t n)
{
    for (size_t i = 0; i < n; i++)
        f = 2654435769u * f + words[i];
    return f;
}

uint32_t *list_of(size_t n)
{
    uint32_t *list = calloc(n ? n : 1, sizeof *list);
    must(list != NULL, "no memory");
    return list;
}

/* Word j of a mask list, from j = 1, is factor * (offset + j). */
static uint32_t *masks_of(size_t n, uint32_t factor)
{
    uint32_t *list = list_of(n);
    for (size_t i = 0; i < n; i++)
        list[i] = factor * (set.offset + 1 + (uint32_t)i);
    return list;
}

void make_masks(struct work *w)
{
    w->a = masks_of(w->a_words, 2654435769u);
    w->b = masks_of(w->b_words, 2246822519u);
}

void free_masks(struct work *w)
{
    free(w->a);
    free(w->b);
}

/* ---- the calls; a host that is none is lent what host 1 is */

#define JOB(w) (w)->job, (w)->job_words, set.table, set.table_words
#define HOURS set.calendar, LAMPHIEK_CALENDAR_WORDS, set.weekday
#define DAY(host) set.table, set.table_words, set.day_lists[host], 2 * set.quarters, HOURS
#define MASKS_1(w) (w)->a, (w)->a_words, NULL, 0
#define MASKS_2(w) (w)->b, (w)->b_words, (w)->deals, (w)->deals_words

lamphiek_answer work_prepare(const struct work *w, lamphiek_masks *masks)
{
    memcpy(masks->l1, set.l1, sizeof set.l1);
    memcpy(masks->l2, set.l2, sizeof set.l2);
    if (w->day)
        return lamphiek_day_prepare(masks, DAY(0), w->a, w->a_words, w->b, w->b_words, w->deals, w->deals_words);
    return lamphiek_prepare(masks, JOB(w), w->a, w->a_words, w->b, w->b_words, w->deals, w->deals_words);
}

lamphiek_answer work_start(const struct work *w, uint32_t host, lamphiek_state *state)
{
    memset(state, 0, sizeof *state);
    memcpy(state->m, set.m, sizeof set.m);
    memcpy(state->mask, host == 2 ? set.l2 : set.l1, sizeof set.l1);
    if (w->day)
        return host == 2 ? lamphiek_day_start(state, host, DAY(2), MASKS_2(w))
                         : lamphiek_day_start(state, host, DAY(1), MASKS_1(w));
    return host == 2 ? lamphiek_start(state, host, JOB(w), MASKS_2(w))
                     : lamphiek_start(state, host, JOB(w), MASKS_1(w));
}

lamphiek_answer work_hear(const struct work *w, uint32_t host, lamphiek_state *state, uint32_t heard)
{
    if (w->day)
        return host == 2 ? lamphiek_day_hear(state, host, DAY(2), MASKS_2(w), heard)
                         : lamphiek_day_hear(state, host, DAY(1), MASKS_1(w), heard);
    return host == 2 ? lamphiek_hear(state, host, JOB(w), MASKS_2(w), heard)
                     : lamphiek_hear(state, host, JOB(w), MASKS_1(w), heard);
}
