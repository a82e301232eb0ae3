/* Document 01's engine, with, written by hand in C: the same calls and obligations as the proved
 * engine. */
#ifndef ENGINE_H
#define ENGINE_H
#include <stddef.h>
#include <stdint.h>

/* What the longest job needs: 64 exact curves on 16 rows. A day on the house table needs less. */
enum { MOST_A = 27712, MOST_B = 13824, MOST_DEALS = 13888 };

enum { QUARTERS = 96, MEAN = QUARTERS, DAY_END, DAY_WORDS = 2 * QUARTERS }; /* a day's orders, and its list */
enum { WEEKDAYS = 7, WEEKDAY_WORDS = 26, CALENDAR_WORDS = WEEKDAYS * WEEKDAY_WORDS };

/* Word j of the sample lists, from j = 1, is a multiple of these. */
#define FACTOR_A 2654435769u
#define FACTOR_B 2246822519u

struct list { const uint32_t *at; size_t n; };

/* What a host is lent at a call, afresh each time; host 1 no deals, which host 2 alone may see. */
struct lent { struct list job, table, masks, deals; };
struct day { struct list table, shares, calendar; uint32_t weekday; struct list masks, deals; };

/* How much of the lists is used: words of A, words of B, deals. */
struct used { uint32_t a, b, deals; };

/* Registers 0 to 15, kept words behind them, the place, and its stored places. */
struct state { uint32_t m[24], l[24], order, turn; struct used used; };

struct answer { uint32_t number, index, spoken, word; struct state state; };

struct prepared { uint32_t number, index, deals, l1[16], l2[16]; };

struct prepared prepare(struct list job, struct list table, struct list a, struct list b,
                        uint32_t *deals, size_t room, const uint32_t l1[16], const uint32_t l2[16]);
struct prepared prepare_day(struct list table, struct list shares, struct list calendar, uint32_t weekday,
                            struct list a, struct list b, uint32_t *deals, size_t room);

/* By value, as document 01 has it ("passed by value"). */
struct answer start(uint32_t host, const struct lent *lent, const uint32_t m[16], const uint32_t l[16]);
struct answer hear(struct state s, uint32_t host, const struct lent *lent, uint32_t heard);
struct answer start_day(uint32_t host, const struct day *day);
struct answer hear_day(struct state s, uint32_t host, const struct day *day, uint32_t heard);

/* The same on an answer that stays where it is: its state goes in and comes out. */
void hear_at(struct answer *r, uint32_t host, const struct lent *lent, uint32_t heard);
void hear_day_at(struct answer *r, uint32_t host, const struct day *day, uint32_t heard);

extern const uint32_t house[16];

/* Workload 9 of bench.c, library.c and the crate workloads: by S a whole day, the hearing of a job of one curve, a day
 * that is half closed, or else one hearing in quarter S; both hearings at this turn. */
enum { WHOLE_DAY = DAY_END, JOB_HEARING, HALF_DAY, DAY_TURN = 60 };

/* Their stored places: a house curve uses 241 words of A, 120 of B and 121 deals, each turn of its rows 2, 1 and 1. */
static inline struct used used_in_curve(uint32_t quarter)
{
    uint32_t n = DAY_TURN + 1;
    return (struct used){241 * quarter + 2 * n, 120 * quarter + n, 121 * quarter + n};
}

/* Its day, as each host's list: 40 times the quarter, so that the last ones are above the house table's last row. */
static inline void sample_day(uint32_t shares[3][DAY_WORDS])
{
    for (uint32_t q = 0; q < QUARTERS; q++) {
        uint32_t l1 = 3 * q + 1, l2 = 5 * q + 2, m = 40 * q + l1 + l2;
        const uint32_t of[3][2] = {{l1, l2}, {m, l1}, {m, l2}};
        for (int host = 0; host < 3; host++)
            shares[host][2 * q] = of[host][0], shares[host][2 * q + 1] = of[host][1];
    }
}

/* Its calendars: on each weekday one open window. The weekday is 0. */
enum { ALL_FROM = 0, ALL_TO = 1440, HALF_FROM = 480, HALF_TO = 1200 };

static inline void sample_calendar(uint32_t calendar[CALENDAR_WORDS], uint32_t from, uint32_t to)
{
    for (uint32_t d = 0; d < WEEKDAYS; d++) {
        uint32_t *day = calendar + WEEKDAY_WORDS * d;
        day[0] = 1, day[1] = 0;
        day[2] = from, day[3] = to;
    }
}

/* Workload 10 loads the first S rows of this text. */
enum { TEXT_BYTES = 16 * 6 };

static inline void sample_text(uint8_t text[TEXT_BYTES])
{
    for (uint32_t i = 0; i < 16; i++) {
        const uint32_t r = 255 * i, c = 1250 * i;
        const uint8_t record[6] = {195, 90, r % 256, r / 256, c % 256, c / 256};
        for (uint32_t j = 0; j < 6; j++)
            text[6 * i + j] = record[j];
    }
}
#endif
