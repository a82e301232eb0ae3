/* Opening hours: which quarters of a day count, conditions 16 and 17, and the mean's factor. */
#ifndef HOURS_H
#define HOURS_H
#include "engine.h"

typedef uint32_t u32;
/* Quarters of a day: bit q for quarter q. */
__extension__ typedef unsigned __int128 quarters_set;

enum { OPEN_AT = 2, OPEN_MOST = 8, CLEANING_AT = 18, CLEANING_MOST = 4, MINUTES = 1440, QUARTER_MINUTES = 15 };

/* Of n counted quarters, from n = 1 on: floor(65536 / n). */
static const u32 MEAN_FACTOR[QUARTERS] = {
    65536, 32768, 21845, 16384, 13107, 10922, 9362, 8192, 7281, 6553, 5957, 5461, 5041, 4681, 4369, 4096, 3855, 3640,
    3449, 3276, 3120, 2978, 2849, 2730, 2621, 2520, 2427, 2340, 2259, 2184, 2114, 2048, 1985, 1927, 1872, 1820, 1771,
    1724, 1680, 1638, 1598, 1560, 1524, 1489, 1456, 1424, 1394, 1365, 1337, 1310, 1285, 1260, 1236, 1213, 1191, 1170,
    1149, 1129, 1110, 1092, 1074, 1057, 1040, 1024, 1008, 992, 978, 963, 949, 936, 923, 910, 897, 885, 873, 862, 851,
    840, 829, 819, 809, 799, 789, 780, 771, 762, 753, 744, 736, 728, 720, 712, 704, 697, 689, 682};

struct hours { u32 number, n; quarters_set counted; };

/* The quarters before one, or all before the mean. */
static inline quarters_set before(u32 q) { return ((quarters_set)1 << q) - 1; }

static inline u32 how_many(quarters_set s)
{
    return (u32)(__builtin_popcountll((uint64_t)s) + __builtin_popcountll((uint64_t)(s >> 64)));
}

static inline int counts(quarters_set counted, u32 q) { return (int)(counted >> q & 1); }

/* The first quarter that begins at this minute or later. */
static inline u32 quarter_from(u32 minute) { return (minute + QUARTER_MINUTES - 1) / QUARTER_MINUTES; }

static inline int sound_windows(const u32 *window, u32 n, u32 most)
{
    if (n > most)
        return 0;
    for (const u32 *end = window + 2 * n; window < end; window += 2)
        if (window[1] <= window[0] || window[1] > MINUTES)
            return 0;
    return 1;
}

static inline int sound_calendar(struct list calendar)
{
    if (calendar.n != CALENDAR_WORDS)
        return 0;
    for (const u32 *day = calendar.at, *end = day + CALENDAR_WORDS; day < end; day += WEEKDAY_WORDS)
        if (!sound_windows(day + OPEN_AT, day[0], OPEN_MOST) ||
            !sound_windows(day + CLEANING_AT, day[1], CLEANING_MOST))
            return 0;
    return 1;
}

/* A cleaning window takes no quarter out of an open one, and what is in none is left out: the open ones say it all. */
static inline struct hours judge_hours(struct list calendar, u32 weekday)
{
    struct hours r = {0, 0, 0};
    if (weekday >= WEEKDAYS || !sound_calendar(calendar))
        return (struct hours){.number = 16};
    const u32 *day = calendar.at + WEEKDAY_WORDS * weekday;
    for (const u32 *window = day + OPEN_AT, *end = window + 2 * day[0]; window < end; window += 2)
        r.counted |= before(quarter_from(window[1])) & ~before(quarter_from(window[0]));
    r.n = how_many(r.counted);
    r.number = r.n ? 0 : 17;
    return r;
}

/* The first counted quarter from q on, or the mean. */
static inline u32 next_order(quarters_set counted, u32 q)
{
    while (q < MEAN && !counts(counted, q))
        q++;
    return q;
}
#endif
