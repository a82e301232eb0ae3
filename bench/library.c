/* Workloads of bench.c over include/lamphiek.h: what the border to C costs. library W S N: workload W on a job of S
 * orders, N times, and the sum that bench.c and the crate workloads print. */
#include "lamphiek.h"
#include "engine.h"
#include <stdio.h>
#include <stdlib.h>
#include <string.h>

struct job { const uint32_t *words; size_t n; };

static uint32_t A[MOST_A], B[MOST_B], D[MOST_DEALS], curves[256], sums[256], table[LAMPHIEK_HOUSE_WORDS];
static uint32_t shares[3][DAY_WORDS], all_open[CALENDAR_WORDS], half_open[CALENDAR_WORDS];
static uint8_t text[TEXT_BYTES];

#define JOB(job) (job).words, (job).n, table, LAMPHIEK_HOUSE_WORDS
#define LENT_1(job) 1, JOB(job), A, MOST_A, NULL, 0
#define LENT_2(job) 2, JOB(job), B, MOST_B, D, MOST_DEALS

static lamphiek_answer prepare_job(struct job job, lamphiek_masks *k)
{
    return lamphiek_prepare(k, JOB(job), A, MOST_A, B, MOST_B, D, MOST_DEALS);
}

static uint32_t preparing(struct job job, uint32_t v)
{
    lamphiek_masks k = {{v}, {v + 7}};
    lamphiek_answer p = prepare_job(job, &k);
    return p.count + k.l1[0] + k.l2[0];
}

static uint32_t starting(uint32_t host, struct job job, uint32_t v)
{
    lamphiek_state s = {.m = {v + 202}, .mask = {v}};
    lamphiek_answer r = host == 1 ? lamphiek_start(&s, LENT_1(job)) : lamphiek_start(&s, LENT_2(job));
    return r.word + r.count + s.m[0] + s.mask[1];
}

static uint32_t running(struct job job, uint32_t v)
{
    lamphiek_masks k = {{v}, {v + 7}};
    lamphiek_state s = {.m = {v + v + 209}, .mask = {v}}, t = {.m = {v + v + 209}, .mask = {v + 7}};
    lamphiek_answer p = prepare_job(job, &k);
    lamphiek_answer one = lamphiek_start(&s, LENT_1(job)), two = lamphiek_start(&t, LENT_2(job));
    while (s.order < job.n / LAMPHIEK_ORDER_WORDS) {
        uint32_t w1 = one.word, w2 = two.word;
        one = lamphiek_hear(&s, LENT_1(job), w2);
        two = lamphiek_hear(&t, LENT_2(job), w1);
    }
    return s.m[0] + two.count + k.l1[0] + p.count;
}

#define DAY(host) table, LAMPHIEK_HOUSE_WORDS, shares[host], DAY_WORDS, calendar, CALENDAR_WORDS, 0
#define DAY_1 1, DAY(1), A, MOST_A, NULL, 0
#define DAY_2 2, DAY(2), B, MOST_B, D, MOST_DEALS

static uint32_t running_day(const uint32_t *calendar)
{
    static lamphiek_masks k;
    static lamphiek_state s, t;
    lamphiek_answer p = lamphiek_day_prepare(&k, DAY(0), A, MOST_A, B, MOST_B, D, MOST_DEALS);
    lamphiek_answer one = lamphiek_day_start(&s, DAY_1), two = lamphiek_day_start(&t, DAY_2);
    while (s.order < DAY_END) {
        uint32_t w1 = one.word, w2 = two.word;
        one = lamphiek_day_hear(&s, DAY_1, w2);
        two = lamphiek_day_hear(&t, DAY_2, w1);
    }
    return s.m[0] + s.m[1] + two.count + k.l1[0] + p.count;
}

static uint32_t hearing_in_curve(uint32_t quarter, uint32_t v)
{
    struct job curve = {curves, LAMPHIEK_ORDER_WORDS};
    const uint32_t *calendar = all_open;
    const uint32_t order = quarter == JOB_HEARING ? 0 : quarter;
    const struct used used = used_in_curve(order);
    lamphiek_state s = {
        .order = order, .turn = DAY_TURN, .used_a = used.a, .used_b = used.b, .used_deals = used.deals};
    for (int j = 0; j < LAMPHIEK_LANE; j++)
        s.m[j] = v, s.mask[j] = 7;
    lamphiek_answer r = quarter == JOB_HEARING ? lamphiek_hear(&s, LENT_1(curve), 5) : lamphiek_day_hear(&s, DAY_1, 5);
    return r.number * 65537 + r.count * 257 + s.order * 31 + s.turn + s.m[0];
}

static uint32_t loading(size_t rows, uint32_t v)
{
    uint32_t loaded[LAMPHIEK_TABLE_WORDS] = {0};
    text[4] = (uint8_t)v;
    lamphiek_answer r = lamphiek_load(text, LAMPHIEK_RECORD_BYTES * rows, loaded);
    return r.number + r.count + loaded[1] + loaded[2 * rows - 1];
}

static uint32_t of_a_day(uint32_t s, uint32_t x)
{
    return s == WHOLE_DAY ? running_day(all_open) : s == HALF_DAY ? running_day(half_open) : hearing_in_curve(s, x);
}

static uint32_t once(int w, size_t orders, uint32_t x)
{
    struct job curve = {curves, LAMPHIEK_ORDER_WORDS * orders}, sum = {sums, LAMPHIEK_ORDER_WORDS * orders};
    switch (w) {
    case 1: return preparing(curve, x);
    case 2: return starting(1, curve, x);
    case 3: return starting(2, curve, x);
    case 4: return running(curve, x);
    case 5: return preparing(sum, x);
    case 6: return starting(1, sum, x);
    case 7: return starting(2, sum, x);
    case 9: return of_a_day((uint32_t)orders, x);
    case 10: return loading(orders, x);
    }
    return 0;
}

int main(int argc, char **argv)
{
    lamphiek_house(table);
    for (uint32_t j = 0; j < MOST_A; j++)
        A[j] = FACTOR_A * (j + 2);
    for (uint32_t j = 0; j < MOST_B; j++)
        B[j] = FACTOR_B * (j + 2);
    for (uint32_t i = 0; i < 64; i++) {
        memcpy(curves + 4 * i, (const uint32_t[4]){LAMPHIEK_CURVE, 0, 0, LAMPHIEK_MODE_EXACT}, 16);
        memcpy(sums + 4 * i, (const uint32_t[4]){i % 2 ? LAMPHIEK_SUBTRACT : LAMPHIEK_ADD, (i + i / 8) % 16, i % 16,
                                                 (14 * i + 2) % 16}, 16);
    }
    sample_day(shares);
    sample_calendar(all_open, ALL_FROM, ALL_TO);
    sample_calendar(half_open, HALF_FROM, HALF_TO);
    sample_text(text);
    if (argc != 4)
        return 2;
    uint32_t sum = 0;
    int w = atoi(argv[1]);
    size_t orders = (size_t)atol(argv[2]);
    for (long i = 0, n = atol(argv[3]); i < n; i++)
        sum += once(w, orders, sum + (uint32_t)i);
    printf("%u\n", sum);
}
