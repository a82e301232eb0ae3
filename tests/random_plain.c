/* What the registers of a run open, by 64-bit arithmetic (document 01, "Orders" and "The curve"; ): no
 * shares, no gates.
 * Of the masks only their sum L is followed, and only through kinds 0 to 3 and 6, since the truncations of kinds 6 and
 * 7 depend on it; elsewhere it is not known, and then neither is what depends on it. */
#include "random.h"

static const int64_t WORDS = (int64_t)1 << 32, BOUND = (int64_t)1 << 30;

static int64_t floored(int64_t x, int64_t by)
{
    int64_t rest = x % by;
    return x / by - (rest < 0);
}

int64_t signed_reading(int64_t v)
{
    v -= floored(v, WORDS) * WORDS;
    return v < WORDS / 2 ? v : v - WORDS;
}

static int64_t relu(int64_t x) { return x > 0 ? x : 0; }

static int64_t scaled_sum(struct words table, int64_t x)
{
    int64_t y = 4096 * (int64_t)table.at[1];
    for (size_t i = 0; i + 3 < table.n; i += 2) {
        int64_t r = table.at[i], c = table.at[i + 1], next_r = table.at[i + 2], next_c = table.at[i + 3];
        y += floored((next_c - c) * 4096, next_r - r) * (relu(x - r) - relu(x - next_r));
    }
    return y;
}

/* A value under new masks. */
static struct value plainly(int64_t v) { return (struct value){THIS, v, false, 0}; }

bool in_range(int64_t x) { return x >= -BOUND && x < BOUND; }

/* Kind 6: what it deals of -L, whose masks then are -L's share, and what is known of m. */
static struct value slack(struct value x, uint32_t k)
{
    int64_t by = (int64_t)1 << k, dealt = floored(signed_reading(-x.masks), by);
    if (x.known != THIS || !x.masked)
        return (struct value){UNKNOWN, 0, x.masked, -dealt};
    int64_t m = signed_reading(x.v + x.masks);
    return (struct value){THIS, signed_reading(dealt + floored(m, by)), true, -dealt};
}

/* Kind 7: one more exactly where the low bits of x and L carry. */
static struct value one_bit(struct value x, uint32_t k)
{
    int64_t by = (int64_t)1 << k, quotient = floored(x.v, by);
    if (x.known != THIS || !in_range(x.v))
        return (struct value){UNKNOWN, 0, false, 0};
    if (!x.masked)
        return (struct value){OR_ONE_MORE, quotient, false, 0};
    int64_t low = x.v - quotient * by, masks_low = x.masks - floored(x.masks, by) * by;
    return (struct value){THIS, quotient + (low + masks_low >= by), false, 0};
}

/* R-1: -1 above the last row's count, and where the difference wraps far below, which no reading that can be split
 * reaches; elsewhere no row's difference wraps. The refresh before the one-bit truncation takes new masks. */
static struct value curve(struct value x, uint32_t mode, struct words table)
{
    if (x.known != THIS)
        return (struct value){UNKNOWN, 0, false, 0};
    if (signed_reading(table.at[table.n - 2] - x.v) < 0)
        return plainly(-1);
    int64_t y = scaled_sum(table, x.v);
    return mode ? one_bit(plainly(y), 12) : plainly(floored(y, 4096));
}

/* Kinds 0 to 3, which do the same to values and masks: x times one factor and y times another, and a constant. */
static struct value linear(struct value x, int64_t by, struct value y, int64_t and_by, int64_t constant)
{
    bool known = x.known == THIS && (y.known == THIS || and_by == 0), masked = x.masked && (y.masked || and_by == 0);
    return (struct value){known ? THIS : UNKNOWN, signed_reading(x.v * by + y.v * and_by + constant), masked,
                          signed_reading(x.masks * by + y.masks * and_by)};
}

static struct value plain_order(const struct value r[LAMPHIEK_REGISTERS], const uint32_t *o, struct words table)
{
    struct value x = r[o[2]], y = r[o[3] & 15], none = {UNKNOWN, 0, false, 0};
    switch (o[0]) {
    case 0: return linear(x, 1, y, 1, 0);
    case 1: return linear(x, 1, y, -1, 0);
    case 2: return linear(x, 1, none, 0, signed_reading(o[3]));
    case 3: return linear(x, signed_reading(o[3]), none, 0, 0);
    case 4: return y.known == THIS && x.known == THIS ? plainly(signed_reading(x.v * y.v)) : none;
    case 5: return (struct value){x.known, x.v, false, 0};
    case 6: return slack(x, o[3]);
    case 7: return one_bit(x, o[3]);
    case 8: return x.known == THIS ? plainly(floored(x.v, (int64_t)1 << o[3])) : none;
    case 9: return x.known == THIS ? plainly(relu(x.v)) : none;
    default: return curve(x, o[3], table);
    }
}

/* ---- days */

static bool are_windows(const uint32_t *w, uint32_t n, uint32_t most)
{
    bool all = n <= most;
    for (uint32_t i = 0; all && i < n; i++)
        all = w[2 * i] < w[2 * i + 1] && w[2 * i + 1] <= LAMPHIEK_MINUTES;
    return all;
}

/* R-6, minute by minute. */
uint32_t plain_hours(struct words calendar, uint32_t weekday, bool counts[LAMPHIEK_QUARTERS])
{
    bool open[LAMPHIEK_MINUTES] = {false}, any = false;
    if (calendar.n != LAMPHIEK_CALENDAR_WORDS || weekday > 6)
        return LAMPHIEK_CALENDAR;
    for (uint32_t d = 0; d < LAMPHIEK_WEEKDAYS; d++) {
        const uint32_t *day = calendar.at + LAMPHIEK_WEEKDAY_WORDS * d, *w = day + LAMPHIEK_OPEN_WINDOWS;
        if (!are_windows(w, day[LAMPHIEK_OPEN_COUNT], LAMPHIEK_OPEN_MOST) ||
            !are_windows(day + LAMPHIEK_CLEANING_WINDOWS, day[LAMPHIEK_CLEANING_COUNT], LAMPHIEK_CLEANING_MOST))
            return LAMPHIEK_CALENDAR;
        for (uint32_t i = 0; d == weekday && i < day[LAMPHIEK_OPEN_COUNT]; i++)
            for (uint32_t minute = w[2 * i]; minute < w[2 * i + 1]; minute++)
                open[minute] = true;
    }
    for (int q = 0; q < LAMPHIEK_QUARTERS; q++) {
        counts[q] = open[15 * q];
        any = any || counts[q];
    }
    return any ? 0 : LAMPHIEK_CLOSED;
}

/* of the n quarters that count, the values that the curve gives alone, added, and how many are those above
 * the last row's count. */
void plain_day(const int64_t x[LAMPHIEK_QUARTERS], const bool counts[LAMPHIEK_QUARTERS], struct words table,
               int64_t *mean, int64_t *above)
{
    int64_t sum = 0, n = 0;
    *above = 0;
    for (int i = 0; i < LAMPHIEK_QUARTERS; i++)
        if (counts[i]) {
            n++;
            sum += curve(plainly(x[i]), LAMPHIEK_MODE_EXACT, table).v;
            *above += signed_reading(table.at[table.n - 2] - x[i]) < 0;
        }
    *mean = floored(65536 / n * sum, 65536);
}

void plain_job(struct value r[LAMPHIEK_REGISTERS], struct words job, struct words table)
{
    for (size_t i = 0; i < job.n; i += 4)
        r[job.at[i + 1]] = plain_order(r, job.at + i, table);
}
