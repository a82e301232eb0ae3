/* Calls one by one, on the states and the deals that the program holds. */
#include "trace.h"
#include <string.h>

enum { LIST_MOST = 65536, LENT_FIRST = 4096 };

/* What the calls take: a job, of no words at first, or the day; and how many words of the lists they are lent. */
static uint32_t job_words[LINE_WORDS], deals[LIST_MOST];
static struct work now = {.job = job_words,
                          .deals = deals,
                          .a_words = LENT_FIRST,
                          .b_words = LENT_FIRST,
                          .deals_words = LENT_FIRST};

/* What each host holds, and the word that it spoke last: hosts 1 and 2, by their number. */
static lamphiek_state held[3];
static uint32_t spoken[3];

static bool is_host(uint32_t host) { return host == 1 || host == 2; }

/* ---- settings */

int do_job(const uint32_t *words, size_t n)
{
    memcpy(job_words, words, n * sizeof *words);
    now.job_words = n;
    now.day = false;
    return 1;
}

int do_sheet(const uint32_t *words, size_t n)
{
    (void)words, (void)n;
    now.day = true;
    return 1;
}

int do_lend(const uint32_t *words, size_t n)
{
    for (size_t i = 0; i < n; i++)
        if (words[i] > LIST_MOST)
            return 0;
    now.a_words = words[0];
    now.b_words = words[1];
    now.deals_words = words[2];
    return 1;
}

int do_place(const uint32_t *words, size_t n)
{
    (void)n;
    if (!is_host(words[0]))
        return 0;
    held[words[0]].order = words[1];
    held[words[0]].turn = words[2];
    return 1;
}

int do_mark(const uint32_t *words, size_t n)
{
    (void)n;
    if (!is_host(words[0]))
        return 0;
    held[words[0]].used_a = words[1];
    held[words[0]].used_b = words[2];
    held[words[0]].used_deals = words[3];
    return 1;
}

/* ---- calls */

/* Words in front, and two of each register behind them. */
static void put_registers(const char *name, uint32_t x, uint32_t y, const uint32_t *left, const uint32_t *right)
{
    uint32_t words[2 + 2 * LAMPHIEK_REGISTERS] = {x, y};
    for (int i = 0; i < LAMPHIEK_REGISTERS; i++) {
        words[2 + 2 * i] = left[i];
        words[3 + 2 * i] = right[i];
    }
    put(name, words, 2 + 2 * LAMPHIEK_REGISTERS);
}

int do_prepare(const uint32_t *words, size_t n)
{
    lamphiek_masks masks;
    (void)words, (void)n;
    make_masks(&now);
    lamphiek_answer p = work_prepare(&now, &masks);
    free_masks(&now);
    if (p.number)
        put_refusal(p);
    else
        put_registers("prepared", p.count, fold(0, deals, now.deals_words), masks.l1, masks.l2);
    return 1;
}

static void put_word(lamphiek_answer r, const lamphiek_state *s)
{
    if (r.number)
        put_refusal(r);
    else
        put("word", (const uint32_t[]){r.word, r.count, s->order, s->turn}, 4);
}

/* What a completed call leaves with its host. */
static void keep(uint32_t host, lamphiek_answer r, const lamphiek_state *s)
{
    if (r.number == 0 && is_host(host)) {
        held[host] = *s;
        spoken[host] = r.word;
    }
}

int do_start(const uint32_t *words, size_t n)
{
    lamphiek_state s;
    (void)n;
    make_masks(&now);
    lamphiek_answer r = work_start(&now, words[0], &s);
    free_masks(&now);
    keep(words[0], r, &s);
    put_word(r, &s);
    return 1;
}

int do_hear(const uint32_t *words, size_t n)
{
    lamphiek_state s = held[words[0] == 2 ? 2 : 1], before = s;
    (void)n;
    make_masks(&now);
    lamphiek_answer r = work_hear(&now, words[0], &s, words[1]);
    free_masks(&now);
    must(r.number == 0 || !memcmp(&s, &before, sizeof s), "a refused hearing writes the state");
    keep(words[0], r, &s);
    put_word(r, &s);
    return 1;
}

int do_talk(const uint32_t *words, size_t n)
{
    uint32_t rounds = 0, folds[3] = {0};
    lamphiek_answer r = {0};
    (void)n;
    make_masks(&now);
    while (r.number == 0 && rounds < words[0]) {
        uint32_t heard[3] = {0, spoken[2], spoken[1]}; /* what was spoken before the round */
        for (uint32_t host = 1; host <= 2 && r.number == 0; host++) {
            r = work_hear(&now, host, &held[host], heard[host]);
            keep(host, r, &held[host]);
            folds[host] = r.number ? folds[host] : fold(folds[host], &r.word, 1);
        }
        rounds += r.number == 0;
    }
    free_masks(&now);
    put("talk", (const uint32_t[]){rounds, folds[1], folds[2]}, 3);
    if (r.number)
        put_refusal(r);
    return 1;
}

int do_state(const uint32_t *words, size_t n)
{
    (void)n;
    if (!is_host(words[0]))
        return 0;
    const lamphiek_state *s = &held[words[0]];
    put_registers("state", s->order, s->turn, s->m, s->mask);
    return 1;
}

int do_used(const uint32_t *words, size_t n)
{
    (void)n;
    if (!is_host(words[0]))
        return 0;
    const lamphiek_state *s = &held[words[0]];
    put("used", (const uint32_t[]){s->used_a, s->used_b, s->used_deals}, 3);
    return 1;
}

int do_unused(const uint32_t *words, size_t n)
{
    uint32_t number = 0;
    size_t left;
    (void)n;
    if (now.day || words[0] > 1)
        return 0;
    make_masks(&now);
    const uint32_t *list = words[0] ? now.b : now.a;
    size_t all = words[0] ? now.b_words : now.a_words;
    left = (words[0] ? lamphiek_unused_b : lamphiek_unused_a)(now.job, now.job_words, set.table, set.table_words, list,
                                                              all, &number);
    must(left <= all, "more is unused than was lent");
    put("unused", (const uint32_t[]){number, (uint32_t)left, fold(0, list + (all - left), left)}, 3);
    free_masks(&now);
    return 1;
}
