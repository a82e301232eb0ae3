/* The three hosts in one process: one_process E|S READING
 *
 * Puts a reading through the house table (E: exact mode, S: one-bit mode) and prints mode, reading, value, deals, and
 * words spoken by both workers, as ./rehearse does: "E 202 1 121 240"; or "refused 11". */
#include <inttypes.h>
#include <stdio.h>
#include <stdlib.h>
#include <string.h>

#include "lamphiek.h"

/* Mask lists that anybody can work out, for trials alone: word j, from j = 1, is FACTOR * j. The first word of each
 * splits the reading, and the job's lists begin at the second. Real lists are drawn at random, and never used twice. */
static const uint32_t FACTOR_A = 2654435769u, FACTOR_B = 2246822519u;

struct run {
    uint32_t job[LAMPHIEK_ORDER_WORDS], table[LAMPHIEK_HOUSE_WORDS];
    lamphiek_counts counts;
    uint32_t *a, *b, *deals;
    uint32_t dealt, spoken;
    int all_used;           /* by both workers, at the end */
    lamphiek_shares shares; /* of register 0: the reading, at the end the value */
};

static uint32_t *room_or_exit(size_t words)
{
    uint32_t *room = calloc(words + 1, sizeof *room); /* + 1: a job may need none */
    if (!room) {
        fputs("one_process: no room for a list\n", stderr);
        exit(1);
    }
    return room;
}

static uint32_t *sample_list(uint32_t words, uint32_t factor)
{
    uint32_t *list = room_or_exit(words);
    for (uint32_t i = 0; i < words; i++)
        list[i] = factor * (i + 2);
    return list;
}

/* Whether a worker's stored places say that all was used that the job needs. */
static int all_used(const lamphiek_state *s, const lamphiek_counts *need)
{
    return s->used_a == need->a && s->used_b == need->b && s->used_deals == need->deals;
}

/* Hosts 1 and 2, each hearing what the other spoke, until the end. Gives the first number that is not 0. */
static uint32_t work(struct run *r)
{
    lamphiek_state one = {0}, two = {0};
    one.m[0] = r->shares.host1.m;
    one.mask[0] = r->shares.host1.l;
    two.m[0] = r->shares.host2.m;
    two.mask[0] = r->shares.host2.l;
    lamphiek_answer from1 = lamphiek_start(&one, 1, r->job, LAMPHIEK_ORDER_WORDS, r->table, LAMPHIEK_HOUSE_WORDS, r->a,
                                           r->counts.a, NULL, 0);
    lamphiek_answer from2 = lamphiek_start(&two, 2, r->job, LAMPHIEK_ORDER_WORDS, r->table, LAMPHIEK_HOUSE_WORDS, r->b,
                                           r->counts.b, r->deals, r->dealt);
    while (!from1.number && !from2.number && one.order < 1) { /* the end: one order is done */
        uint32_t word1 = from1.word, word2 = from2.word;
        from1 = lamphiek_hear(&one, 1, r->job, LAMPHIEK_ORDER_WORDS, r->table, LAMPHIEK_HOUSE_WORDS, r->a, r->counts.a,
                              NULL, 0, word2);
        from2 = lamphiek_hear(&two, 2, r->job, LAMPHIEK_ORDER_WORDS, r->table, LAMPHIEK_HOUSE_WORDS, r->b, r->counts.b,
                              r->deals, r->dealt, word1);
    }
    r->spoken = from1.count + from2.count;
    r->all_used = all_used(&one, &r->counts) && all_used(&two, &r->counts);
    r->shares.host1 = (lamphiek_worker_share){one.m[0], one.mask[0]};
    r->shares.host2 = (lamphiek_worker_share){two.m[0], two.mask[0]};
    return from1.number ? from1.number : from2.number;
}

/* Host 0, then the workers, then the plant room. Gives the first number that is not 0. */
static uint32_t run(struct run *r, int64_t *value)
{
    lamphiek_masks masks = {0};
    masks.l1[0] = r->shares.host0.l1;
    masks.l2[0] = r->shares.host0.l2;
    lamphiek_answer prepared = lamphiek_prepare(&masks, r->job, LAMPHIEK_ORDER_WORDS, r->table, LAMPHIEK_HOUSE_WORDS,
                                                r->a, r->counts.a, r->b, r->counts.b, r->deals, r->counts.deals);
    if (prepared.number)
        return prepared.number;
    r->dealt = prepared.count;
    r->shares.host0 = (lamphiek_dealer_share){masks.l1[0], masks.l2[0]};
    uint32_t number = work(r);
    return number ? number : lamphiek_open(&r->shares, value);
}

/* A reading out of range is an answer like others; any other number is a fault of this program. */
static int refused(uint32_t number)
{
    printf("refused %" PRIu32 "\n", number);
    return number == LAMPHIEK_RANGE ? 0 : 3;
}

static int curve(const char *mode, int64_t reading)
{
    struct run r = {.job = {LAMPHIEK_CURVE, 0, 0, *mode == 'S' ? LAMPHIEK_MODE_ONE_BIT : LAMPHIEK_MODE_EXACT}};
    int64_t value = 0;
    lamphiek_house(r.table);
    uint32_t number = lamphiek_split(reading, FACTOR_A, FACTOR_B, &r.shares);
    if (!number)
        number = lamphiek_check(r.job, LAMPHIEK_ORDER_WORDS, r.table, LAMPHIEK_HOUSE_WORDS, &r.counts).number;
    if (number)
        return refused(number);
    r.a = sample_list(r.counts.a, FACTOR_A);
    r.b = sample_list(r.counts.b, FACTOR_B);
    r.deals = room_or_exit(r.counts.deals);
    number = run(&r, &value);
    free(r.a);
    free(r.b);
    free(r.deals);
    if (number)
        return refused(number);
    if (r.dealt != r.counts.deals || r.spoken != r.counts.words || !r.all_used) {
        fputs("one_process: the counts disagree\n", stderr);
        return 1;
    }
    printf("%s %" PRId64 " %" PRId64 " %" PRIu32 " %" PRIu32 "\n", mode, reading, value, r.dealt, r.spoken);
    return 0;
}

/* One too long for int64_t becomes its largest or smallest, and is refused as that. */
static int read_number(const char *text, int64_t *number)
{
    char *end;
    *number = strtoll(text, &end, 10);
    return end != text && *end == 0;
}

int main(int argc, char **argv)
{
    int64_t reading;
    if (argc != 3 || (strcmp(argv[1], "E") && strcmp(argv[1], "S")) || !read_number(argv[2], &reading)) {
        fputs("usage: one_process E|S READING\n", stderr);
        return 2;
    }
    int status = curve(argv[1], reading);
    return fflush(stdout) || ferror(stdout) ? 1 : status;
}
