/* Hosts 1 and 2, the workers: worker 1 LIST_A PORT_FILE HOST2_PORT, or worker 2 LIST_B PORT_FILE
 *
 * Takes a job and its share of register 0 from the hotel (host 2: and the deals from host 0), starts on the house
 * table, speaks a word and hears the other's until the job's end, and answers the hotel. What is said, and what the
 * exit status means: wire.h. */
#include <inttypes.h>
#include <stdio.h>
#include <stdlib.h>
#include <string.h>

#include "lamphiek.h"
#include "wire.h"

static const lamphiek_answer BROKEN = {.number = WIRE_BROKEN};

enum { HOTEL, OTHER, DEALER, PEERS }; /* the other worker; the dealer calls host 2 alone */

struct worker {
    uint32_t host; /* 1 or 2 */
    struct wire peer[PEERS];
    struct word_list masks, deals;
    lamphiek_state state;
    uint32_t job[LAMPHIEK_JOB_WORDS], job_words, table[LAMPHIEK_HOUSE_WORDS];
};

/* Host 2: as many deals as the job has, and no more, are taken from host 0. */
static lamphiek_answer take_deals(struct worker *w)
{
    lamphiek_counts counts = {0};
    uint32_t dealt;
    lamphiek_answer answer = lamphiek_check(w->job, w->job_words, w->table, LAMPHIEK_HOUSE_WORDS, &counts);
    if (answer.number)
        return answer;
    w->deals.at = calloc(counts.deals + 1, sizeof *w->deals.at); /* + 1: some jobs have none */
    if (!w->deals.at) {
        fputs("host 2: no room for the deals\n", stderr);
        return BROKEN;
    }
    if (wire_receive_list(&w->peer[DEALER], w->deals.at, counts.deals, &dealt))
        return BROKEN;
    w->deals.words = dealt;
    printf("got %" PRIu32 " deals from host 0\n", dealt);
    return answer;
}

/* How much of the lists the job has used, which the state tells at any moment, of what it needs in all. Where a
 * peer was lost, all that it needs is used up all the same. */
static void print_used(const struct worker *w)
{
    lamphiek_counts need = {0};
    if (!lamphiek_check(w->job, w->job_words, w->table, LAMPHIEK_HOUSE_WORDS, &need).number)
        printf("used %" PRIu32 " of %" PRIu32 " words of list A, %" PRIu32 " of %" PRIu32 " of list B, %" PRIu32
               " of %" PRIu32 " deals\n",
               w->state.used_a, need.a, w->state.used_b, need.b, w->state.used_deals, need.deals);
}

/* Each worker sends its word first and then takes the other's, so neither waits for the other to begin. */
static lamphiek_answer talk(struct worker *w)
{
    lamphiek_answer my = lamphiek_start(&w->state, w->host, w->job, w->job_words, w->table, LAMPHIEK_HOUSE_WORDS,
                                        w->masks.at, w->masks.words, w->deals.at, w->deals.words);
    uint32_t count = 0, spoken = 0, heard = 0, first = my.word, first_heard = 0;
    while (!my.number && w->state.order < w->job_words / LAMPHIEK_ORDER_WORDS) {
        spoken = my.word;
        if (wire_send(&w->peer[OTHER], &spoken, 1) || wire_receive(&w->peer[OTHER], &heard, 1))
            return BROKEN;
        if (count++ == 0)
            first_heard = heard;
        my = lamphiek_hear(&w->state, w->host, w->job, w->job_words, w->table, LAMPHIEK_HOUSE_WORDS, w->masks.at,
                           w->masks.words, w->deals.at, w->deals.words, heard);
    }
    if (!my.number && count > 0) {
        printf("spoke %" PRIu32 " words, the first %" PRIu32 ", the last %" PRIu32 "\n", my.count, first, spoken);
        printf("heard %" PRIu32 " words, the first %" PRIu32 ", the last %" PRIu32 "\n", count, first_heard, heard);
    }
    return my;
}

/* Everything from the hotel's message to the answer. */
static lamphiek_answer serve(struct worker *w)
{
    uint32_t share[2], number = 0;
    if (wire_receive_list(&w->peer[HOTEL], w->job, LAMPHIEK_JOB_WORDS, &w->job_words) ||
        wire_receive(&w->peer[HOTEL], share, 2))
        return BROKEN;
    printf("got m %" PRIu32 " and mask L%" PRIu32 " %" PRIu32 "\n", share[0], w->host, share[1]);
    w->state.m[0] = share[0];
    w->state.mask[0] = share[1];
    lamphiek_house(w->table);
    lamphiek_answer answer = {0};
    if (w->host == 2)
        answer = take_deals(w);
    if (!answer.number) {
        answer = talk(w);
        print_used(w);
    }
    if (answer.number) {
        printf("stopped with number %" PRIu32 "\n", answer.number);
        return answer;
    }
    printf("sends the plant room m %" PRIu32 " and L%" PRIu32 " %" PRIu32 "\n", w->state.m[0], w->host,
           w->state.mask[0]);
    size_t left = (w->host == 1 ? lamphiek_unused_a : lamphiek_unused_b)(
        w->job, w->job_words, w->table, LAMPHIEK_HOUSE_WORDS, w->masks.at, w->masks.words, &number);
    if (!number) /* else nothing is known to be unused */
        printf("has %zu words of list %c left for the next job\n", left, w->host == 1 ? 'A' : 'B');
    return answer;
}

int main(int argc, char **argv)
{
    uint16_t port = argc == 5 ? wire_port(argv[4]) : 0;
    int one = port && !strcmp(argv[1], "1"), two = argc == 4 && !strcmp(argv[1], "2");
    if (!one && !two) {
        fputs("usage: worker 1 LIST_A PORT_FILE HOST2_PORT, or worker 2 LIST_B PORT_FILE\n", stderr);
        return WIRE_USAGE;
    }
    struct worker w = {.host = one ? 1 : 2,
                       .peer = {[HOTEL] = {.who = WIRE_HOTEL, .socket = -1},
                                [OTHER] = {.who = one ? WIRE_HOST2 : WIRE_HOST1, .socket = -1},
                                [DEALER] = {.who = WIRE_HOST0, .socket = -1}}};
    int status = WIRE_TROUBLE, door = -1;
    wire_begin(w.host);
    if (!wire_load(argv[2], &w.masks) && (door = wire_listen(argv[3])) >= 0) {
        int alone = wire_accept(door, w.peer, one ? 1 : PEERS) != WIRE_OK;
        if (one && !alone)
            alone = wire_connect(&w.peer[OTHER], WIRE_HOST2, port) != WIRE_OK;
        lamphiek_answer answer = alone ? BROKEN : serve(&w);
        fflush(stdout); /* all is said before the hotel hears of it */
        uint32_t words[5] = {answer.number, answer.index, w.state.m[0], w.state.mask[0], answer.count};
        status = wire_answer(&w.peer[HOTEL], words, 5);
    }
    for (int i = 0; i < PEERS; i++)
        wire_close(&w.peer[i]);
    free(w.masks.at);
    free(w.deals.at);
    return status;
}
