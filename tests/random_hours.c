/* Opening hours at random: calendars, damaged or not, and which quarters count. */
#include "random.h"
#include <string.h>

enum { DAY = LAMPHIEK_WEEKDAY_WORDS, MINUTES = LAMPHIEK_MINUTES };

/* ---- calendars */

/* Most begin where a quarter does, or a minute beside; many are short. */
static void make_window(uint32_t *w)
{
    uint32_t first = 15 * below(LAMPHIEK_QUARTERS), near = first + below(3), any = below(MINUTES);
    uint32_t length = 1 + below(chance(60) ? 31 : 400);
    w[0] = chance(60) ? near - (near > 0) : any;
    w[1] = chance(10) || w[0] + length > MINUTES ? MINUTES : w[0] + length;
}

/* Room behind the windows holds anything. */
static void make_weekday(uint32_t *day)
{
    for (int i = 0; i < DAY; i++)
        day[i] = draw();
    day[LAMPHIEK_OPEN_COUNT] = below(chance(50) ? 3 : LAMPHIEK_OPEN_MOST + 1);
    day[LAMPHIEK_CLEANING_COUNT] = below(LAMPHIEK_CLEANING_MOST + 1);
    for (uint32_t i = 0; i < day[LAMPHIEK_OPEN_COUNT]; i++)
        make_window(day + LAMPHIEK_OPEN_WINDOWS + 2 * i);
    for (uint32_t i = 0; i < day[LAMPHIEK_CLEANING_COUNT]; i++)
        make_window(day + LAMPHIEK_CLEANING_WINDOWS + 2 * i);
}

static void make_week(uint32_t *calendar)
{
    for (int d = 0; d < LAMPHIEK_WEEKDAYS; d++)
        make_weekday(calendar + DAY * d);
}

/* One window that begins in the quarter before the first, behind its first minute, or with the first, and ends in the
 * last. */
void lend_so_many(struct lent *l, uint32_t n)
{
    uint32_t calendar[LAMPHIEK_CALENDAR_WORDS], first = below(LAMPHIEK_QUARTERS - n + 1);
    make_week(calendar);
    l->weekday = below(LAMPHIEK_WEEKDAYS);
    uint32_t *day = calendar + DAY * l->weekday;
    day[LAMPHIEK_OPEN_COUNT] = 1;
    day[LAMPHIEK_OPEN_WINDOWS] = 15 * first - (first > 0 ? below(15) : 0);
    day[LAMPHIEK_OPEN_WINDOWS + 1] = 15 * (first + n) - below(15);
    l->calendar = lend(ROOM_CALENDAR, calendar, LAMPHIEK_CALENDAR_WORDS);
}

void lend_hours(struct lent *l)
{
    uint32_t calendar[LAMPHIEK_CALENDAR_WORDS];
    bool counts[LAMPHIEK_QUARTERS];
    make_week(calendar);
    l->weekday = below(LAMPHIEK_WEEKDAYS);
    while (plain_hours((struct words){calendar, LAMPHIEK_CALENDAR_WORDS}, l->weekday, counts))
        make_weekday(calendar + DAY * l->weekday);
    l->calendar = lend(ROOM_CALENDAR, calendar, LAMPHIEK_CALENDAR_WORDS);
}

/* ---- damage */

/* One open or cleaning window of a weekday at an edge of what it may be, or past it. */
static void damage_window(uint32_t *day)
{
    uint32_t m = below(MINUTES + 1), any = draw();
    const uint32_t faults[][2] = {{m, m}, {m + 1, m}, {m, MINUTES + 1}, {m, UINT32_MAX}, {UINT32_MAX, m},
                                  {MINUTES, MINUTES}, {MINUTES - 1, MINUTES}, {0, MINUTES}, {m, any}};
    bool open = chance(50);
    uint32_t *count = day + (open ? LAMPHIEK_OPEN_COUNT : LAMPHIEK_CLEANING_COUNT);
    uint32_t *room = day + (open ? LAMPHIEK_OPEN_WINDOWS : LAMPHIEK_CLEANING_WINDOWS);
    if (*count == 0)
        *count = 1;
    uint32_t which = below(sizeof faults / sizeof *faults); /* each draw by itself: every compiler then draws alike */
    memcpy(room + 2 * below(*count), faults[which], sizeof *faults);
}

/* No quarter of the weekday counts: there is no open window, or one between two quarters' first minutes. */
static void close_weekday(uint32_t *day)
{
    uint32_t first = 15 * below(LAMPHIEK_QUARTERS);
    day[LAMPHIEK_OPEN_COUNT] = below(2);
    day[LAMPHIEK_OPEN_WINDOWS] = first + 1 + below(7);
    day[LAMPHIEK_OPEN_WINDOWS + 1] = first + 8 + below(8);
}

struct lent damage_hours(struct lent l)
{
    static const uint32_t weekdays[] = {6, 7, 8, 32, 1u << 31, UINT32_MAX};
    static const uint32_t counts[] = {5, 8, 9, 16, 1u << 31, UINT32_MAX};
    static const uint32_t lengths[] = {0, 1, DAY, LAMPHIEK_CALENDAR_WORDS - DAY, 181, 183, 208, CALENDAR_MOST};
    uint32_t calendar[CALENDAR_MOST] = {0}, n = LAMPHIEK_CALENDAR_WORDS;
    memcpy(calendar, l.calendar.at, n * sizeof *calendar);
    uint32_t *own = calendar + DAY * l.weekday, *day = chance(50) ? own : calendar + DAY * below(LAMPHIEK_WEEKDAYS);
    uint32_t *count = day + (chance(50) ? LAMPHIEK_OPEN_COUNT : LAMPHIEK_CLEANING_COUNT);
    if (chance(15)) /* which comes behind every other fault */
        close_weekday(own);
    switch (below(6)) {
    case 0: l.weekday = one_of(weekdays, sizeof weekdays / sizeof *weekdays); break;
    case 1: n = one_of(lengths, sizeof lengths / sizeof *lengths); break;
    case 2: *count = one_of(counts, sizeof counts / sizeof *counts); break;
    case 3: damage_window(day); break;
    case 4: close_weekday(own); break;
    default: l.weekday = below(LAMPHIEK_WEEKDAYS); /* another one, which may be closed */
    }
    l.calendar = lend(ROOM_OTHER_CALENDAR, calendar, n);
    return l;
}

/* The open windows in the other direction, one of them twice where there is room; all else is drawn anew. */
struct lent same_hours(struct lent l)
{
    uint32_t calendar[LAMPHIEK_CALENDAR_WORDS];
    const uint32_t *from = l.calendar.at + DAY * l.weekday;
    uint32_t n = from[LAMPHIEK_OPEN_COUNT], all = n < LAMPHIEK_OPEN_MOST ? n + 1 : n;
    make_week(calendar);
    l.weekday = below(LAMPHIEK_WEEKDAYS);
    uint32_t *day = calendar + DAY * l.weekday;
    day[LAMPHIEK_OPEN_COUNT] = all;
    for (uint32_t i = 0; i < all; i++)
        memcpy(day + LAMPHIEK_OPEN_WINDOWS + 2 * i, from + LAMPHIEK_OPEN_WINDOWS + 2 * ((n + n - 1 - i) % n),
               2 * sizeof *day);
    l.calendar = lend(ROOM_OTHER_CALENDAR, calendar, LAMPHIEK_CALENDAR_WORDS);
    return l;
}

/* ---- the round */

void round_of_hours(void)
{
    struct lent l = {.job = {NULL, 0}};
    bool counts[LAMPHIEK_QUARTERS];
    lamphiek_quarters said;
    uint32_t n = 0;
    lend_hours(&l);
    if (chance(60))
        l = damage_hours(l);
    lamphiek_answer r = both_day_quarters(&l, &said);
    if (r.number != plain_hours(l.calendar, l.weekday, counts))
        fail("the hours' number is otherwise than by plain arithmetic");
    for (uint32_t q = 0; r.number == 0 && q < LAMPHIEK_QUARTERS; q++) {
        if ((said.bits[q / 32] >> q % 32 & 1) != counts[q])
            fail("a quarter counts, or not, otherwise than by plain arithmetic");
        n += counts[q];
    }
    if (r.count != n)
        fail("the counted quarters are so many otherwise");
}
