/* The parts of the border test: what calls are lent and how their answers are judged, jobs (border.c), days
 * (border_day.c), opening hours (border_hours.c), loading (border_load.c) and stored places (border_used.c). */
#ifndef BORDER_H
#define BORDER_H
#include "lamphiek.h"

enum { A_WORDS = 241, B_WORDS = 120, DEALS = 121 };                   /* an exact curve on the house table */
enum { DAY_A_WORDS = 23161, DAY_B_WORDS = 11532, DAY_DEALS = 11629 }; /* a day on it */
enum { PLACES = 8, DAY_PLACES = 11, LEFT_OUT_PLACES = 9 };
enum call {
    SPLIT, OPEN, CHECK, UNUSED_A, UNUSED_B, LOAD, PREPARE, START, HEAR, DAY_QUARTERS, DAY_PREPARE, DAY_START, DAY_HEAR,
    CALLS
};

/* What refused calls are lent to write: read only. */
struct sealed {
    lamphiek_shares shares;
    int64_t value;
    lamphiek_counts counts;
    lamphiek_masks masks;
    lamphiek_quarters quarters;
    lamphiek_state state, end, elsewhere[PLACES], day_end, day_elsewhere[DAY_PLACES], left_out[LEFT_OUT_PLACES],
        scattered_end;
    uint32_t deals[DAY_DEALS], table[LAMPHIEK_TABLE_WORDS];
};
extern const struct sealed *sealed;

#define WRITABLE(type, place) ((type *)(uintptr_t)&sealed->place)

struct list { const uint32_t *at; size_t n; };

/* What calls are lent to read: a job's calls the job, a day's calls the shares, the calendar and the weekday. */
struct given { struct list job, shares, calendar, table, a, b, deals; uint32_t weekday; };

#define LIST(l) (l).at, (l).n
#define LISTS(g, host) LIST((host) == 1 ? (g).a : (g).b), LIST((g).deals)
#define TASK(g) LIST((g).job), LIST((g).table)
#define HOST(g, host) host, TASK(g), LISTS(g, host)
#define DAY(g) LIST((g).table), LIST((g).shares), LIST((g).calendar), (g).weekday
#define DAY_HOST(g, host) host, DAY(g), LISTS(g, host)

void expect(int holds, const char *file, int line, const char *what);
#define EXPECT(test) expect(test, __FILE__, __LINE__, #test)

/* The call answered with this number and index, and nothing else. */
void is(enum call call, lamphiek_answer r, uint32_t number, uint32_t index, const char *file, int line);
#define IS(call, answer, number, index) is(call, answer, number, index, __FILE__, __LINE__)
#define BARE(number) ((lamphiek_answer){number, 0, 0, 0})

/* Pages that end with these n words, or zeros, and cannot be written, behind which nothing can be read. */
struct list fenced(const uint32_t *words, size_t n);
/* The same without its first word; and no list. */
struct list shorter(struct list l);
static const struct list NONE = {NULL, 0};

/* Puts these stored places into a state. */
static inline void use(lamphiek_state *s, uint32_t a, uint32_t b, uint32_t deals)
{
    s->used_a = a;
    s->used_b = b;
    s->used_deals = deals;
}

/* ---- border_day.c */
void seal_days(struct sealed *s);
/* A day on this table with every quarter open, and lists as long as it needs. */
struct given a_day(struct list table);
/* By each of the three calls, hearing at the first place and at the end. */
void refuse_day(struct given g, size_t room, uint32_t number);
void refuse_days(struct list table);
void complete_day(struct list table);

/* ---- border_hours.c */
/* A calendar of which every weekday has one open window, 0 to 1440. */
void open_always(uint32_t calendar[LAMPHIEK_CALENDAR_WORDS]);
void seal_left_out(struct sealed *s);
/* A day of quarters 0, 40, 41 and 95, and lists as long as it needs. */
struct given a_scattered_day(struct list table);
void refuse_hours(struct list table);
void complete_hours(struct list table);

/* ---- border_load.c */
void refuse_loads(void);
void complete_loads(void);

/* ---- border_used.c */
void stored_places(struct list table);
#endif
