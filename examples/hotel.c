/* The hotel, controller and plant room: hotel E|S READING PORT0 PORT1 PORT2
 *
 * Splits the reading under two fresh mask words, sends each host the job and its share, waits for the three answers and
 * opens them: "opened 1"; on the house table -1 is no reading, the probe being above the last row. E is the exact
 * mode, S the one-bit mode. What is said, what the exit status means, and what a real deployment must have that this
 * has not: wire.h. */
#include <inttypes.h>
#include <stdio.h>
#include <stdlib.h>
#include <string.h>

#include "lamphiek.h"
#include "wire.h"

/* Two mask words that nobody can guess. */
static int draw(uint32_t masks[2])
{
    FILE *source = fopen("/dev/urandom", "rb");
    size_t got = source ? fread(masks, sizeof *masks, 2, source) : 0;
    if (source)
        fclose(source);
    return got == 2;
}

static int send_all(struct wire host[3], const uint16_t port[3], const uint32_t *job, const lamphiek_shares *s)
{
    const uint32_t share[3][2] = {{s->host0.l1, s->host0.l2}, {s->host1.m, s->host1.l}, {s->host2.m, s->host2.l}};
    for (uint32_t i = 0; i < 3; i++)
        if (wire_connect(&host[i], i, port[i]) || wire_send_list(&host[i], job, LAMPHIEK_ORDER_WORDS) ||
            wire_send(&host[i], share[i], 2))
            return WIRE_TROUBLE;
    return WIRE_DONE;
}

/* Host i's two words of register 0; a worker's third, how many words it spoke, is not needed for opening. */
static int take_answer(struct wire *host, uint32_t i, uint32_t share[3])
{
    uint32_t head[2]; /* number, index */
    host->wait_ms *= 4; /* a host may itself be waiting: for callers, for deals, for a word */
    if (wire_receive(host, head, 2) || (!head[0] && wire_receive(host, share, i == 0 ? 2 : 3)))
        return WIRE_TROUBLE;
    if (head[0] == WIRE_BROKEN) {
        printf("opened nothing: host %" PRIu32 " lost a peer (%" PRIu32 ")\n", i, head[0]);
        return WIRE_TROUBLE;
    }
    if (head[0]) {
        printf("opened nothing: host %" PRIu32 " was refused with %" PRIu32, i, head[0]);
        if (head[0] >= LAMPHIEK_KIND && head[0] <= LAMPHIEK_FOURTH)
            printf(" at order %" PRIu32, head[1]);
        puts("");
        return WIRE_REFUSED;
    }
    return WIRE_DONE;
}

/* One too long for int64_t becomes its largest or smallest, and is refused as that. */
static int read_number(const char *text, int64_t *number)
{
    char *end;
    *number = strtoll(text, &end, 10);
    return end != text && *end == 0;
}

static int refused(uint32_t number)
{
    printf("refused %" PRIu32 "\n", number);
    return WIRE_REFUSED;
}

static int measure(struct wire host[3], const uint16_t port[3], uint32_t mode, int64_t reading)
{
    const uint32_t job[LAMPHIEK_ORDER_WORDS] = {LAMPHIEK_CURVE, 0, 0, mode};
    uint32_t masks[2], share[3][3], number;
    lamphiek_shares shares = {0};
    if (!draw(masks)) {
        fputs("the hotel: no mask words from /dev/urandom\n", stderr);
        return WIRE_TROUBLE;
    }
    if ((number = lamphiek_split(reading, masks[0], masks[1], &shares)))
        return refused(number);
    if (send_all(host, port, job, &shares))
        return WIRE_TROUBLE;
    int worst = WIRE_DONE;
    for (uint32_t i = 0; i < 3; i++) {
        int status = take_answer(&host[i], i, share[i]);
        worst = status > worst ? status : worst;
    }
    if (worst)
        return worst;
    int64_t value = 0;
    shares = (lamphiek_shares){{share[0][0], share[0][1]}, {share[1][0], share[1][1]}, {share[2][0], share[2][1]}};
    if ((number = lamphiek_open(&shares, &value)))
        return refused(number);
    printf("opened %" PRId64 "\n", value);
    return WIRE_DONE;
}

int main(int argc, char **argv)
{
    struct wire host[3] = {{.socket = -1}, {.socket = -1}, {.socket = -1}};
    uint16_t port[3] = {0};
    int64_t reading;
    for (int i = 0; i < 3 && argc == 6; i++)
        port[i] = wire_port(argv[3 + i]);
    if (!port[0] || !port[1] || !port[2] || (strcmp(argv[1], "E") && strcmp(argv[1], "S")) ||
        !read_number(argv[2], &reading)) {
        fputs("usage: hotel E|S READING PORT0 PORT1 PORT2\n", stderr);
        return WIRE_USAGE;
    }
    wire_begin(WIRE_HOTEL);
    int status = measure(host, port, *argv[1] == 'S' ? LAMPHIEK_MODE_ONE_BIT : LAMPHIEK_MODE_EXACT, reading);
    for (int i = 0; i < 3; i++)
        wire_close(&host[i]);
    return fflush(stdout) || ferror(stdout) ? WIRE_TROUBLE : status; /* a value that nobody read sets no pump */
}
