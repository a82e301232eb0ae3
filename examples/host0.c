/* Host 0, the dealer: host0 LIST_A LIST_B PORT_FILE HOST2_PORT
 *
 * Takes a job and its masks of register 0 from the hotel, prepares the job on the house table, sends host 2 the deals
 * and answers the hotel. What is said, and what the exit status means: wire.h. */
#include <inttypes.h>
#include <stdio.h>
#include <stdlib.h>

#include "lamphiek.h"
#include "wire.h"

static const lamphiek_answer BROKEN = {.number = WIRE_BROKEN};

struct dealer {
    struct word_list a, b;
    struct wire hotel, host2;
    lamphiek_masks masks;
    uint32_t job[LAMPHIEK_JOB_WORDS], job_words, table[LAMPHIEK_HOUSE_WORDS];
};

/* Prepares into a buffer of just the job's size, and sends the deals. */
static lamphiek_answer deal(struct dealer *d)
{
    lamphiek_counts counts = {0};
    lamphiek_answer answer = lamphiek_check(d->job, d->job_words, d->table, LAMPHIEK_HOUSE_WORDS, &counts);
    if (answer.number)
        return answer;
    uint32_t *deals = calloc(counts.deals + 1, sizeof *deals); /* + 1: some jobs have none */
    if (!deals) {
        fputs("host 0: no room for the deals\n", stderr);
        return BROKEN;
    }
    answer = lamphiek_prepare(&d->masks, d->job, d->job_words, d->table, LAMPHIEK_HOUSE_WORDS, d->a.at, d->a.words,
                              d->b.at, d->b.words, deals, counts.deals);
    if (!answer.number) {
        printf("dealt host 2 %" PRIu32 " words:", answer.count);
        for (uint32_t i = 0; i < answer.count && i < 3; i++)
            printf(" %" PRIu32, deals[i]);
        puts(answer.count > 3 ? " .." : "");
        if (wire_send_list(&d->host2, deals, answer.count))
            answer = BROKEN;
    }
    free(deals);
    return answer;
}

/* Everything from the hotel's message to the answer. */
static lamphiek_answer serve(struct dealer *d)
{
    uint32_t share[2], number_a = 0, number_b = 0;
    if (wire_receive_list(&d->hotel, d->job, LAMPHIEK_JOB_WORDS, &d->job_words) || wire_receive(&d->hotel, share, 2))
        return BROKEN;
    printf("got masks L1 %" PRIu32 " and L2 %" PRIu32 "\n", share[0], share[1]);
    d->masks.l1[0] = share[0];
    d->masks.l2[0] = share[1];
    lamphiek_house(d->table);
    lamphiek_answer answer = deal(d);
    if (answer.number) {
        printf("stopped with number %" PRIu32 "\n", answer.number);
        return answer;
    }
    printf("sends the plant room L1 %" PRIu32 " and L2 %" PRIu32 "\n", d->masks.l1[0], d->masks.l2[0]);
    size_t a = lamphiek_unused_a(d->job, d->job_words, d->table, LAMPHIEK_HOUSE_WORDS, d->a.at, d->a.words, &number_a);
    size_t b = lamphiek_unused_b(d->job, d->job_words, d->table, LAMPHIEK_HOUSE_WORDS, d->b.at, d->b.words, &number_b);
    if (!number_a && !number_b) /* else nothing is known to be unused */
        printf("has %zu words of list A and %zu of list B left for the next job\n", a, b);
    return answer;
}

int main(int argc, char **argv)
{
    uint16_t port = argc == 5 ? wire_port(argv[4]) : 0;
    if (!port) {
        fputs("usage: host0 LIST_A LIST_B PORT_FILE HOST2_PORT\n", stderr);
        return WIRE_USAGE;
    }
    struct dealer d = {.hotel = {.who = WIRE_HOTEL, .socket = -1}, .host2 = {.socket = -1}};
    int status = WIRE_TROUBLE, door = -1;
    wire_begin(WIRE_HOST0);
    if (!wire_load(argv[1], &d.a) && !wire_load(argv[2], &d.b) && (door = wire_listen(argv[3])) >= 0 &&
        !wire_accept(door, &d.hotel, 1)) {
        lamphiek_answer answer = wire_connect(&d.host2, WIRE_HOST2, port) ? BROKEN : serve(&d);
        fflush(stdout); /* all is said before the hotel hears of it */
        uint32_t words[4] = {answer.number, answer.index, d.masks.l1[0], d.masks.l2[0]};
        status = wire_answer(&d.hotel, words, 4);
    }
    wire_close(&d.hotel);
    wire_close(&d.host2);
    free(d.a.at);
    free(d.b.at);
    return status;
}
