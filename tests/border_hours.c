/* Opening hours: 16, then 17, by every call that is lent a calendar, directly after 12 and before 5; which
 * quarters count; and days with quarters left out. */
#include "border.h"
#include <string.h>

enum { MEAN = LAMPHIEK_QUARTERS, MEAN_A = 25, MEAN_B = 12, MEAN_DEALS = 13 }; /* and what an exact truncation uses */

static uint32_t *weekday_of(uint32_t *calendar, uint32_t d) { return calendar + LAMPHIEK_WEEKDAY_WORDS * d; }

/* One open window on a weekday, and nothing else. */
static void open_once(uint32_t *day, uint32_t from, uint32_t to)
{
    memset(day, 0, LAMPHIEK_WEEKDAY_WORDS * sizeof *day);
    day[LAMPHIEK_OPEN_COUNT] = 1;
    day[LAMPHIEK_OPEN_WINDOWS] = from;
    day[LAMPHIEK_OPEN_WINDOWS + 1] = to;
}

void open_always(uint32_t calendar[LAMPHIEK_CALENDAR_WORDS])
{
    for (uint32_t d = 0; d < LAMPHIEK_WEEKDAYS; d++)
        open_once(weekday_of(calendar, d), 0, LAMPHIEK_MINUTES);
}

/* ---- refused calendars */

/* Also where the table and the lists, which come later, are none. */
static void refuse_calendar(struct given g, const uint32_t *calendar, size_t words, uint32_t number)
{
    lamphiek_quarters *quarters = WRITABLE(lamphiek_quarters, quarters);
    g.calendar = fenced(calendar, words);
    struct given poor = {.shares = g.shares, .calendar = g.calendar, .weekday = g.weekday};
    IS(DAY_QUARTERS, lamphiek_day_quarters(LIST(g.calendar), g.weekday, quarters), number, 0);
    refuse_day(g, DAY_DEALS, number);
    refuse_day(poor, 0, number);
}

/* A weekday that is none, on a sound calendar; a calendar of another length, on weekdays 0 to 7. */
static void refuse_weekdays_and_lengths(struct given g)
{
    static const uint32_t weekdays[] = {7, 8, 32, 1u << 31, UINT32_MAX};
    static const size_t lengths[] = {0, 1, 26, 156, 181, 183, 208, 364};
    uint32_t calendar[364] = {0};
    open_always(calendar);
    open_always(calendar + LAMPHIEK_CALENDAR_WORDS);
    for (size_t i = 0; i < sizeof weekdays / sizeof *weekdays; i++) {
        g.weekday = weekdays[i];
        refuse_calendar(g, calendar, LAMPHIEK_CALENDAR_WORDS, LAMPHIEK_CALENDAR);
    }
    for (size_t i = 0; i < sizeof lengths / sizeof *lengths; i++) {
        g.weekday = (uint32_t)i;
        refuse_calendar(g, calendar, lengths[i], LAMPHIEK_CALENDAR);
    }
}

/* All room holds sound windows, and so do the counts, read as one: what lies behind a room does not betray a count that
 * is too high. Every weekday is open, or closed (which is 17, and later). */
static void fill_rooms(uint32_t calendar[LAMPHIEK_CALENDAR_WORDS], int closed)
{
    for (uint32_t d = 0; d < LAMPHIEK_WEEKDAYS; d++) {
        uint32_t *day = weekday_of(calendar, d);
        day[LAMPHIEK_OPEN_COUNT] = closed ? 0 : 1;
        day[LAMPHIEK_CLEANING_COUNT] = 2;
        for (uint32_t i = LAMPHIEK_OPEN_WINDOWS; i < LAMPHIEK_WEEKDAY_WORDS; i += 2)
            day[i] = 50 * i - 100, day[i + 1] = 50 * i - 99;
    }
}

/* One fault on weekday d, of the windows whose count, room and most are given: too many, or a first or last one that
 * does not end after its start or ends above 1440. */
static void refuse_windows(struct given g, uint32_t d, int closed, size_t count, size_t room, uint32_t most)
{
    static const uint32_t faults[][2] = {{8, 8}, {9, 8}, {0, 0}, {1439, 1441}, {1440, 1440}, {1440, 1441},
                                         {0, UINT32_MAX}, {UINT32_MAX, 1440}, {UINT32_MAX, UINT32_MAX}};
    const uint32_t too_many[] = {most + 1, 16, 1u << 31, UINT32_MAX};
    uint32_t calendar[LAMPHIEK_CALENDAR_WORDS], *day = weekday_of(calendar, d);
    fill_rooms(calendar, closed);
    for (size_t i = 0; i < sizeof too_many / sizeof *too_many; i++) {
        day[count] = too_many[i];
        refuse_calendar(g, calendar, LAMPHIEK_CALENDAR_WORDS, LAMPHIEK_CALENDAR);
    }
    day[count] = most;
    for (size_t i = 0; i < sizeof faults / sizeof *faults; i++)
        for (uint32_t at = 0; at < most; at += most - 1) {
            uint32_t *window = day + room + 2 * at, kept[2] = {window[0], window[1]};
            memcpy(window, faults[i], sizeof kept);
            refuse_calendar(g, calendar, LAMPHIEK_CALENDAR_WORDS, LAMPHIEK_CALENDAR);
            memcpy(window, kept, sizeof kept);
        }
}

/* On the day's weekday nothing is open, or no quarter begins in what is; cleaning opens nothing. */
static void refuse_closed(struct given g)
{
    static const uint32_t between[][2] = {{1, 15}, {14, 15}, {1426, 1440}, {1439, 1440}, {601, 615}};
    uint32_t calendar[LAMPHIEK_CALENDAR_WORDS] = {0};
    struct given late = g;
    open_always(calendar);
    for (g.weekday = 0; g.weekday < LAMPHIEK_WEEKDAYS; g.weekday++) {
        uint32_t *day = weekday_of(calendar, g.weekday);
        day[LAMPHIEK_OPEN_COUNT] = 0; /* its window stands behind the count */
        refuse_calendar(g, calendar, LAMPHIEK_CALENDAR_WORDS, LAMPHIEK_CLOSED);
        day[LAMPHIEK_CLEANING_COUNT] = 1;
        day[LAMPHIEK_CLEANING_WINDOWS + 1] = LAMPHIEK_MINUTES;
        refuse_calendar(g, calendar, LAMPHIEK_CALENDAR_WORDS, LAMPHIEK_CLOSED);
        for (size_t i = 0; i < sizeof between / sizeof *between; i++) {
            open_once(day, between[i][0], between[i][1]);
            refuse_calendar(g, calendar, LAMPHIEK_CALENDAR_WORDS, LAMPHIEK_CLOSED);
        }
        late = g;
        late.shares = shorter(g.shares);
        late.calendar = fenced(calendar, LAMPHIEK_CALENDAR_WORDS);
        refuse_day(late, 0, LAMPHIEK_DAY_LIST);
        open_once(day, 0, LAMPHIEK_MINUTES);
    }
}

/* ---- which quarters count, by plain arithmetic */

static int in_open_window(const uint32_t *day, uint32_t minute)
{
    const uint32_t *window = day + LAMPHIEK_OPEN_WINDOWS;
    int in = 0;
    for (uint32_t i = 0; i < day[LAMPHIEK_OPEN_COUNT]; i++)
        in |= window[2 * i] <= minute && minute < window[2 * i + 1];
    return in;
}

static void right_quarters(uint32_t *calendar, uint32_t d)
{
    struct { uint32_t before; lamphiek_quarters of; uint32_t behind; } said;
    struct list lent = fenced(calendar, LAMPHIEK_CALENDAR_WORDS);
    uint32_t n = 0, wrong = 0;
    memset(&said, 0xA5, sizeof said);
    lamphiek_answer r = lamphiek_day_quarters(LIST(lent), d, &said.of);
    for (uint32_t q = 0; q < LAMPHIEK_QUARTERS; q++) {
        uint32_t counts = (uint32_t)in_open_window(weekday_of(calendar, d), 15 * q);
        n += counts;
        wrong |= counts ^ (said.of.bits[q / 32] >> q % 32 & 1);
    }
    EXPECT(r.number == 0 && r.index == 0 && r.count == n && r.word == 0 && n > 0 && !wrong);
    EXPECT(said.before == 0xA5A5A5A5u && said.behind == 0xA5A5A5A5u);
}

/* Windows at the borders of quarters and of the day, one alone; then eight and four with overlaps, in no order. Behind
 * the counts, and on other weekdays behind theirs, stands what would be refused. */
static void complete_quarters(void)
{
    static const uint32_t alone[][2] = {{0, 1}, {0, 15}, {0, 16}, {14, 16}, {15, 16}, {1, 16}, {1425, 1426},
                                        {1411, 1426}, {1410, 1425}, {0, 1440}, {479, 481}, {480, 960}, {495, 976}};
    static const uint32_t many[LAMPHIEK_WEEKDAY_WORDS] = {8,   4,   1400, 1440, 0,   1,   15,  16,   700,
                                                          760, 30,  31,   720,  900, 480, 481, 1,    500,
                                                          700, 900, 1200, 1440, 0,   15,  705, 706};
    uint32_t calendar[LAMPHIEK_CALENDAR_WORDS];
    for (uint32_t d = 0; d < LAMPHIEK_WEEKDAYS; d++) {
        memset(calendar, 0xFF, sizeof calendar);
        for (uint32_t other = 0; other < LAMPHIEK_WEEKDAYS; other++)
            weekday_of(calendar, other)[0] = weekday_of(calendar, other)[1] = 0;
        uint32_t *day = weekday_of(calendar, d);
        day[LAMPHIEK_OPEN_COUNT] = 1;
        for (size_t i = 0; i < sizeof alone / sizeof *alone; i++) {
            memcpy(day + LAMPHIEK_OPEN_WINDOWS, alone[i], sizeof alone[i]);
            right_quarters(calendar, d);
        }
        memcpy(day, many, sizeof many);
        right_quarters(calendar, d);
    }
}

/* ---- days with quarters left out */

/* Of these four count, the first and the last among them. */
static const uint32_t COUNTED[] = {0, 40, 41, 95};
enum { N = 4, SCATTERED_DAY = 5 };

static void scatter(uint32_t calendar[LAMPHIEK_CALENDAR_WORDS])
{
    static const uint32_t day[] = {3, 1, 1425, 1440, 0, 1, 586, 630, [LAMPHIEK_CLEANING_WINDOWS] = 0, 1440};
    open_always(calendar);
    memcpy(weekday_of(calendar, SCATTERED_DAY), day, sizeof day);
}

void seal_left_out(struct sealed *s)
{
    static const uint32_t places[LEFT_OUT_PLACES][2] = {{1, 0},  {1, B_WORDS - 1},  {39, 0},          {39, 60}, {42, 0},
                                                        {94, 0}, {94, B_WORDS - 1}, {94, UINT32_MAX}, {2, 1}};
    for (int i = 0; i < LEFT_OUT_PLACES; i++) {
        s->left_out[i].order = places[i][0];
        s->left_out[i].turn = places[i][1];
    }
    s->scattered_end.order = MEAN + 1;
    use(&s->scattered_end, N * A_WORDS + MEAN_A, N * B_WORDS + MEAN_B, N * DEALS + MEAN_DEALS);
}

struct given a_scattered_day(struct list table)
{
    uint32_t calendar[LAMPHIEK_CALENDAR_WORDS] = {0};
    struct given g = a_day(table);
    scatter(calendar);
    g.weekday = SCATTERED_DAY;
    g.calendar = fenced(calendar, LAMPHIEK_CALENDAR_WORDS);
    g.a = fenced(NULL, N * A_WORDS + MEAN_A);
    g.b = fenced(NULL, N * B_WORDS + MEAN_B);
    g.deals = fenced(NULL, N * DEALS + MEAN_DEALS);
    return g;
}

/* 8 in quarters that are left out; 6 and 7 by what the counted ones need. */
static void refuse_left_out(struct list table)
{
    struct given g = a_scattered_day(table), less = g, fewer = g;
    size_t room = g.deals.n;
    less.a = shorter(g.a);
    less.b = shorter(g.b);
    fewer.deals = shorter(g.deals);
    refuse_day(less, room, LAMPHIEK_SHORT_MASKS);
    lamphiek_masks *k = WRITABLE(lamphiek_masks, masks);
    uint32_t *d = WRITABLE(uint32_t, deals);
    IS(DAY_PREPARE, lamphiek_day_prepare(k, DAY(g), LIST(g.a), LIST(g.b), d, room - 1), LAMPHIEK_SHORT_DEALS, 0);
    IS(DAY_START, lamphiek_day_start(WRITABLE(lamphiek_state, state), DAY_HOST(fewer, 2)), LAMPHIEK_SHORT_DEALS, 0);
    IS(DAY_HEAR, lamphiek_day_hear(WRITABLE(lamphiek_state, state), DAY_HOST(fewer, 2), 7), LAMPHIEK_SHORT_DEALS, 0);
    for (uint32_t host = 1; host <= 2; host++) {
        for (size_t i = 0; i < LEFT_OUT_PLACES; i++)
            IS(DAY_HEAR, lamphiek_day_hear(WRITABLE(lamphiek_state, left_out[i]), DAY_HOST(g, host), 7), LAMPHIEK_PLACE,
               0);
        IS(DAY_HEAR, lamphiek_day_hear(WRITABLE(lamphiek_state, scattered_end), DAY_HOST(g, host), 7), LAMPHIEK_END, 0);
        IS(DAY_HEAR, lamphiek_day_hear(WRITABLE(lamphiek_state, day_end), DAY_HOST(g, host), 7), LAMPHIEK_STORED, 0);
    }
}

void refuse_hours(struct list table)
{
    struct given g = a_day(table);
    refuse_weekdays_and_lengths(g);
    for (uint32_t d = 0; d < LAMPHIEK_WEEKDAYS; d++) {
        g.weekday = (3 * d + 3) % LAMPHIEK_WEEKDAYS; /* on weekday 2 the day's own */
        refuse_windows(g, d, d % 2 == 0, LAMPHIEK_OPEN_COUNT, LAMPHIEK_OPEN_WINDOWS, LAMPHIEK_OPEN_MOST);
        refuse_windows(g, d, d % 2, LAMPHIEK_CLEANING_COUNT, LAMPHIEK_CLEANING_WINDOWS, LAMPHIEK_CLEANING_MOST);
    }
    g.weekday = 0;
    refuse_closed(g);
    refuse_left_out(table);
}

/* On lists that are just long enough: the last turn of each counted quarter goes to the next one that counts, that of
 * the last to the mean. */
void complete_hours(struct list table)
{
    static uint32_t buffer[N * DEALS + MEAN_DEALS + 2];
    struct given g = a_scattered_day(table);
    lamphiek_masks k = {{0}, {0}};
    lamphiek_state s;
    complete_quarters();
    memset(buffer, 0xA5, sizeof buffer);
    lamphiek_answer r = lamphiek_day_prepare(&k, DAY(g), LIST(g.a), LIST(g.b), buffer + 1, g.deals.n);
    EXPECT(r.number == 0 && r.index == 0 && r.count == g.deals.n && r.word == 0);
    EXPECT(buffer[0] == 0xA5A5A5A5u && buffer[g.deals.n + 1] == 0xA5A5A5A5u);
    for (uint32_t host = 1; host <= 2; host++) {
        memset(&s, 0xA5, sizeof s);
        r = lamphiek_day_start(&s, DAY_HOST(g, host));
        EXPECT(r.number == 0 && r.count == 1 && s.order == COUNTED[0] && s.turn == 0);
        for (uint32_t i = 0; i < N; i++) {
            uint32_t next = i + 1 < N ? COUNTED[i + 1] : MEAN;
            EXPECT(s.order == COUNTED[i]);
            s.turn = B_WORDS - 1;
            use(&s, (i + 1) * A_WORDS, (i + 1) * B_WORDS, (i + 1) * DEALS);
            r = lamphiek_day_hear(&s, DAY_HOST(g, host), 7);
            EXPECT(r.number == 0 && r.count == (i + 1) * B_WORDS + 1 && s.order == next && s.turn == 0);
        }
        s.turn = MEAN_B - 1;
        use(&s, (uint32_t)g.a.n, (uint32_t)g.b.n, (uint32_t)g.deals.n);
        r = lamphiek_day_hear(&s, DAY_HOST(g, host), 7);
        EXPECT(r.number == 0 && r.count == g.b.n && r.word == 0 && s.order == MEAN + 1 && s.turn == 0);
    }
}
