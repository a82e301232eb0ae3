/* Workloads over the engine in C. bench [-p] W S N: workload W on a job of S orders, N times, and a sum over what came
 * out, which the crate workloads prints too. bench [-p] rehearsal: the rehearsal program, lines of standard input.
 * Workload 10 loads a table of S rows. -p: hears in place. Status 3: a job of theirs, or the day, is refused. */
#include "checks.h"
#include <stdio.h>
#include <stdlib.h>
#include <string.h>
#include <unistd.h>

static uint32_t A[MOST_A], B[MOST_B], D[MOST_DEALS], curves[256], sums[256], shares[3][DAY_WORDS];
static uint32_t all_open[CALENDAR_WORDS], half_open[CALENDAR_WORDS];
static uint8_t text[TEXT_BYTES];
static const struct list table = {house, 16};
#define NONE {NULL, 0} /* of the deals, for host 1 */
static int in_place;

struct end { struct prepared p; struct answer one, two; };

static void run(struct end *e, struct list job, struct list a, struct list b, uint32_t *deals, size_t room,
                uint32_t m0, uint32_t l1, uint32_t l2)
{
    uint32_t m[16] = {m0}, x[16] = {l1}, y[16] = {l2};
    e->p = prepare(job, table, a, b, deals, room, x, y);
    struct lent h1 = {job, table, a, NONE}, h2 = {job, table, b, {deals, room}};
    e->one = start(1, &h1, m, x);
    e->two = start(2, &h2, m, y);
    while (e->one.state.order < job.n / 4) {
        uint32_t w1 = e->one.word, w2 = e->two.word;
        if (in_place) {
            hear_at(&e->one, 1, &h1, w2);
            hear_at(&e->two, 2, &h2, w1);
        } else {
            e->one = hear(e->one.state, 1, &h1, w2);
            e->two = hear(e->two.state, 2, &h2, w1);
        }
    }
}

static uint32_t preparing(struct list job, uint32_t v)
{
    uint32_t x[16] = {v}, y[16] = {v + 7};
    struct prepared p = prepare(job, table, (struct list){A, MOST_A}, (struct list){B, MOST_B}, D, MOST_DEALS, x, y);
    return p.deals + p.l1[0] + p.l2[0];
}

/* ---- the day: what hosts 1 and 2 are lent. Kept out of main, where gcc copies states by rep movs */

#define DAY(host, calendar)                                                                                            \
    {table, {shares[host], DAY_WORDS}, {calendar, CALENDAR_WORDS}, 0,                                                  \
     {host == 1 ? A : B, host == 1 ? MOST_A : MOST_B}, {host == 1 ? NULL : D, host == 1 ? 0 : MOST_DEALS}}
static const struct day whole_day[2] = {DAY(1, all_open), DAY(2, all_open)};
static const struct day half_day[2] = {DAY(1, half_open), DAY(2, half_open)};

static void hear_in_day(struct answer *r, uint32_t host, const struct day *day, uint32_t heard)
{
    if (in_place)
        hear_day_at(r, host, day, heard);
    else
        *r = hear_day(r->state, host, day, heard);
}

static __attribute__((noinline)) uint32_t running_day(const struct day day[2])
{
    struct list a = {A, MOST_A}, b = {B, MOST_B}, own = {shares[0], DAY_WORDS};
    struct prepared p = prepare_day(table, own, day->calendar, day->weekday, a, b, D, MOST_DEALS);
    struct answer one = start_day(1, day), two = start_day(2, day + 1);
    while (one.state.order < DAY_END) {
        uint32_t w1 = one.word, w2 = two.word;
        hear_in_day(&one, 1, day, w2);
        hear_in_day(&two, 2, day + 1, w1);
    }
    return one.state.m[0] + one.state.m[1] + two.spoken + p.l1[0] + p.deals;
}

static void hear_in_job(struct answer *r, uint32_t heard)
{
    static const struct lent job = {{curves, 4}, table, {A, MOST_A}, NONE};
    if (in_place)
        hear_at(r, 1, &job, heard);
    else
        *r = hear(r->state, 1, &job, heard);
}

/* host 1, in the middle of a curve: what does not hang on kept words, which the engines keep each in its own way */
static __attribute__((noinline)) uint32_t hearing_in_curve(uint32_t quarter, uint32_t v)
{
    uint32_t order = quarter == JOB_HEARING ? 0 : quarter;
    struct answer r = {.state = {.order = order, .turn = DAY_TURN, .used = used_in_curve(order)}};
    for (int j = 0; j < 24; j++)
        r.state.m[j] = v, r.state.l[j] = 7;
    if (quarter == JOB_HEARING)
        hear_in_job(&r, 5);
    else
        hear_in_day(&r, 1, whole_day, 5);
    return r.number * 65537 + r.spoken * 257 + r.state.order * 31 + r.state.turn + r.state.m[0];
}

/* the job is accepted, so that its work is what is measured; starting writes no list */
static int accepted(const uint32_t *words)
{
    uint32_t zeros[16] = {0};
    struct list job = {words, 256};
    struct lent one = {job, table, {A, MOST_A}, NONE}, two = {job, table, {B, MOST_B}, {D, MOST_DEALS}};
    return !start(1, &one, zeros, zeros).number && !start(2, &two, zeros, zeros).number;
}

static int day_accepted(const struct day day[2]) { return !start_day(1, day).number && !start_day(2, day + 1).number; }

static uint32_t starting(uint32_t host, struct list job, uint32_t v)
{
    uint32_t m[16] = {v + 202}, x[16] = {v};
    static const struct list lists[2][2] = {{{A, MOST_A}, NONE}, {{B, MOST_B}, {D, MOST_DEALS}}}; /* masks, deals */
    struct lent h = {job, table, lists[host - 1][0], lists[host - 1][1]};
    struct answer r = start(host, &h, m, x);
    return r.word + r.spoken + r.state.m[0] + r.state.l[1];
}

static uint32_t running(struct list job, uint32_t v)
{
    struct end e;
    run(&e, job, (struct list){A, MOST_A}, (struct list){B, MOST_B}, D, MOST_DEALS, v + v + 209, v, v + 7);
    return e.one.state.m[0] + e.two.spoken + e.p.l1[0] + e.p.deals;
}

/* the stored places at a place of the job below, by what its orders use; wrong ones at the refresh of its curve, and
 * elsewhere now and then one of the three */
static struct used probed(uint32_t order, uint32_t turn, uint32_t i)
{
    static const uint32_t b[10] = {1, 111, 112, 112, 124, 125, 126, 138, 137, 137};
    static const uint32_t deals[10] = {1, 111, 111, 113, 124, 126, 127, 138, 139, 139};
    struct used r = {b[order] + deals[order] + 2 * turn, b[order] + turn, deals[order] + turn};
    uint32_t off = i / 7 % 16;
    r.a += off == 0;
    r.b += off == 1;
    r.deals += off == 2;
    return r;
}

/* hearing at any place, named by a number: its number, index, spoken words, place and stored places */
static uint32_t probing(uint32_t i)
{
    static const uint32_t job[32] = {10, 1, 0, 1, 4, 2, 0, 1, 0, 3, 1, 2, 8, 4, 2, 5,
                                     5, 1, 2, 0, 7, 1, 2, 3, 9, 1, 1, 0, 6, 2, 2, 4};
    struct state s;
    for (int j = 0; j < 24; j++)
        s.m[j] = i, s.l[j] = 7;
    s.order = i / 4 % 10;
    s.turn = i / 40 % 260;
    s.used = probed(s.order, s.turn, i);
    struct lent h = {{job, 32}, table, {A, i / 1000 % 330}, {D, i / 1300 % 200}};
    struct answer r = {.state = s};
    if (in_place)
        hear_at(&r, i % 4, &h, 5);
    else
        r = hear(s, i % 4, &h, 5);
    uint32_t used = r.state.used.a + r.state.used.b * 3 + r.state.used.deals * 5;
    return (r.number + r.index * 1000) * 65537 + r.spoken * 257 + r.state.order * 31 + r.state.turn + used * 8191;
}

static __attribute__((noinline)) uint32_t loading(size_t rows, uint32_t v)
{
    text[4] = (uint8_t)v;
    struct loaded r = load(text, RECORD * rows);
    return r.number + r.words + r.table[1] + r.table[2 * rows - 1];
}

static uint32_t of_a_day(uint32_t s, uint32_t x)
{
    return s == WHOLE_DAY ? running_day(whole_day) : s == HALF_DAY ? running_day(half_day) : hearing_in_curve(s, x);
}

/* of curves 1 preparation, 2 and 3 starting hosts 1 and 2, 4 a run; of sums 5, 6, 7 likewise; 8 probing; 9 a day; 10
 * loading */
static uint32_t once(int w, size_t orders, uint32_t x)
{
    struct list curve = {curves, 4 * orders}, sum = {sums, 4 * orders};
    switch (w) {
    case 1: return preparing(curve, x);
    case 2: return starting(1, curve, x);
    case 3: return starting(2, curve, x);
    case 4: return running(curve, x);
    case 5: return preparing(sum, x);
    case 6: return starting(1, sum, x);
    case 7: return starting(2, sum, x);
    case 8: return probing(x);
    case 9: return of_a_day((uint32_t)orders, x);
    case 10: return loading(orders, x);
    }
    return 0;
}

/* ---- the rehearsal */

enum { LINE_A = 241, LINE_B = 120, LINE_DEALS = 121 }; /* an exact curve on the house table */

static char out[1 << 16];
static size_t out_n;

static void flush(void)
{
    for (size_t i = 0; i < out_n;) {
        ssize_t k = write(1, out + i, out_n - i);
        if (k <= 0)
            exit(1);
        i += (size_t)k;
    }
    out_n = 0;
}

static void number(int64_t z)
{
    char t[24];
    int n = 0;
    uint64_t u = z < 0 ? 0 - (uint64_t)z : (uint64_t)z;
    do
        t[n++] = (char)('0' + u % 10);
    while (u /= 10);
    if (z < 0)
        t[n++] = '-';
    out[out_n++] = ' ';
    while (n)
        out[out_n++] = t[--n];
}

static void refuse(int n)
{
    memcpy(out + out_n, "refused", 7);
    out_n += 7;
    number(n);
    out[out_n++] = '\n';
}

/* Whether a line has the form that is due, and its reading. */
static int formed(const char *s, size_t n, int64_t *v)
{
    if (n > 64 || n < 3 || (s[0] != 'E' && s[0] != 'S') || s[1] != ' ')
        return 0;
    int minus = s[2] == '-';
    size_t i = 2 + (size_t)minus;
    if (n == i || n - i > 10)
        return 0;
    for (*v = 0; i < n; i++) {
        if (s[i] < '0' || s[i] > '9')
            return 0;
        *v = *v * 10 + (s[i] - '0');
    }
    if (minus)
        *v = -*v;
    return 1;
}

static void line(const char *s, size_t n)
{
    int64_t v;
    if (!formed(s, n, &v)) {
        refuse(0);
        return;
    }
    if (v < -1073741824 || v > 1073741823) {
        refuse(11);
        return;
    }
    uint32_t a[LINE_A], b[LINE_B], d[LINE_DEALS], l1 = FACTOR_A, l2 = FACTOR_B, job[4] = {10, 0, 0, s[0] == 'S'};
    for (uint32_t j = 0; j < LINE_A; j++)
        a[j] = FACTOR_A * (j + 2);
    for (uint32_t j = 0; j < LINE_B; j++)
        b[j] = FACTOR_B * (j + 2);
    struct end e;
    run(&e, (struct list){job, 4}, (struct list){a, LINE_A}, (struct list){b, LINE_B}, d, LINE_DEALS,
        (uint32_t)v + l1 + l2, l1, l2);
    if (e.one.state.m[0] != e.two.state.m[0] || e.one.state.l[0] != e.p.l1[0] || e.two.state.l[0] != e.p.l2[0]) {
        refuse(10);
        return;
    }
    out[out_n++] = s[0];
    number(v);
    number((int32_t)(e.one.state.m[0] - e.p.l1[0] - e.p.l2[0]));
    number(e.p.deals);
    number(e.one.spoken + e.two.spoken);
    out[out_n++] = '\n';
}

static void rehearsal(void)
{
    static char in[1 << 16];
    char s[65];
    size_t n = 0;
    for (ssize_t k; (k = read(0, in, sizeof in)) > 0;)
        for (ssize_t i = 0; i < k; i++) {
            if (in[i] == '\n') {
                line(s, n);
                flush(); /* a line, a write: as the Rattle program does */
                n = 0;
            } else if (n < 65)
                s[n++] = in[i];
        }
    if (n)
        line(s, n);
    flush();
}

int main(int argc, char **argv)
{
    if (argc > 1 && !strcmp(argv[1], "-p")) {
        in_place = 1;
        argc--, argv++;
    }
    for (uint32_t j = 0; j < MOST_A; j++)
        A[j] = FACTOR_A * (j + 2);
    for (uint32_t j = 0; j < MOST_B; j++)
        B[j] = FACTOR_B * (j + 2);
    for (uint32_t i = 0; i < 64; i++) {
        memcpy(curves + 4 * i, (const uint32_t[4]){10}, 16);
        memcpy(sums + 4 * i, (const uint32_t[4]){i % 2, (i + i / 8) % 16, i % 16, (14 * i + 2) % 16}, 16);
    }
    if (argc == 2 && !strcmp(argv[1], "rehearsal")) {
        rehearsal();
        return 0;
    }
    if (argc != 4)
        return 2;
    sample_day(shares);
    sample_calendar(all_open, ALL_FROM, ALL_TO);
    sample_calendar(half_open, HALF_FROM, HALF_TO);
    sample_text(text);
    if (!accepted(curves) || !accepted(sums) || !day_accepted(whole_day) || !day_accepted(half_day))
        return 3;
    uint32_t sum = 0;
    int w = atoi(argv[1]);
    size_t orders = (size_t)atol(argv[2]);
    for (long i = 0, n = atol(argv[3]); i < n; i++)
        sum = w == 8 ? sum * 31 + once(w, orders, (uint32_t)i) : sum + once(w, orders, sum + (uint32_t)i);
    printf("%u\n", sum);
}
