/* Days to try, and what they open by 64-bit arithmetic (document 01, "The curve"; ): no shares, no gates.
 * And tables to try, as bytes.
 *
 *   days make K              writes the 96 readings of day K, from 0, a line each; status 1 where there is no such day
 *   days sheet [R C R C ..]  reads 96 readings and writes what examples/daysheet.c must print, on these rows or, where
 *                            none are given, on the house table
 *   days hours CALENDAR WEEKDAY [R C R C ..]
 *                            the same with the opening hours of this file, whose lines are all windows
 *   days text R C R C ..     writes the text of these rows */
#include <inttypes.h>
#include <stdio.h>
#include <stdlib.h>
#include <string.h>

enum { HOUSE_ROWS = 8, ROWS_MOST = 20, QUARTERS = 96, MINUTES = 1440 };

static const int64_t HOUSE[HOUSE_ROWS][2] = {{200, 0},     {456, 250},   {712, 520},   {1224, 1100},
                                             {1736, 1720}, {2760, 3100}, {3272, 3850}, {3572, 4250}};
static const int64_t LEAST = -1073741824, MOST = 1073741823, LAST = 3572;

static int64_t floored(int64_t x, int64_t by)
{
    return x / by - (x % by < 0);
}

static int64_t over(int64_t x, int64_t r)
{
    return x > r ? x - r : 0;
}

static int64_t value(const int64_t (*row)[2], int rows, int64_t x)
{
    int64_t y = 4096 * row[0][1];
    for (int i = 0; i + 1 < rows; i++) {
        int64_t width = row[i + 1][0] - row[i][0], rise = row[i + 1][1] - row[i][1];
        y += floored(rise * 4096, width) * (over(x, row[i][0]) - over(x, row[i + 1][0]));
    }
    return x > row[rows - 1][0] ? -1 : floored(y, 4096);
}

/* ---- opening hours, minute by minute */

static char is_open[MINUTES + 1]; /* and 1 at the end, where the last stretch that is left out ends */

static int read_hours(const char *name, int weekday)
{
    FILE *file = fopen(name, "r");
    char kind[9];
    int day, h[2], m[2], n = 0;
    memset(is_open, 0, MINUTES);
    while (file && (n = fscanf(file, "%8s %d %d:%d %d:%d", kind, &day, &h[0], &m[0], &h[1], &m[1])) == 6)
        for (int at = 60 * h[0] + m[0]; at < 60 * h[1] + m[1] && at < MINUTES; at++)
            is_open[at] |= day == weekday && !strcmp(kind, "open");
    return file && n == EOF && !fclose(file);
}

static int counts(int quarter) { return is_open[15 * quarter]; }

static void print_left_out(int n)
{
    printf("left out %d of %d quarters%s", QUARTERS - n, QUARTERS, n < QUARTERS ? ":" : "");
    for (int i = 0; i < QUARTERS; i++) {
        if (!counts(i) && (i == 0 || counts(i - 1)))
            printf(" %02d:%02d", 15 * i / 60, 15 * i % 60);
        if (!counts(i) && counts(i + 1))
            printf("-%02d:%02d", 15 * (i + 1) / 60, 15 * (i + 1) % 60);
    }
    puts("");
}

static int sheet(const int64_t (*row)[2], int rows, int with_hours)
{
    int64_t sum = 0, above = 0, x;
    int n = 0;
    for (int i = 0; i < QUARTERS; i++) {
        if (scanf("%" SCNd64, &x) != 1)
            return 2;
        n += counts(i);
        sum += counts(i) ? value(row, rows, x) : 0;
        above += counts(i) && x > row[rows - 1][0];
    }
    if (n == 0)
        return 2;
    printf("mean %" PRId64 "\nabove the last row %" PRId64 " of %d quarters\n", floored(65536 / n * sum, 65536), above,
           n);
    if (with_hours)
        print_left_out(n);
    /* the costs of an exact curve with R-1 and of kind 8, with R-4's deals: a row more or fewer is a kind 9 */
    int deals = 12 * rows + 13 + 12, words = 24 * rows + 24 + 24;
    printf("deals %d\nwords %d\n", n * deals + 13, n * words + 24);
    return 0;
}

/* ---- days and tables to try */

/* Any reading, most often one of the table's counts; the same ones at every time. */
static int64_t any(uint64_t day, uint64_t quarter)
{
    uint64_t z = (day * QUARTERS + quarter + 1) * 0x9e3779b97f4a7c15u;
    z = (z ^ z >> 30) * 0xbf58476d1ce4e5b9u;
    z ^= z >> 27;
    switch (z >> 8 & 7) {
    case 0: return LEAST + (int64_t)(z >> 33);
    case 1: return LAST + (int64_t)(z >> 32) % 3 - 1;
    case 2: return 0 - (int64_t)((z >> 32) % 5000);
    default: return (int64_t)((z >> 32) % 4096);
    }
}

static int make(int day)
{
    for (int i = 0; i < QUARTERS; i++) {
        int64_t x;
        switch (day) {
        case 0: x = LEAST; break;
        case 1: x = LAST; break;
        case 2: x = LAST + 1; break;                        /* the sum is -96 */
        case 3: x = MOST; break;
        case 4: x = i == 40 ? LAST + 1 : 200; break;        /* the sum is -1 */
        case 5: x = i < 95 ? MOST : 202; break;             /* the sum is -94 */
        case 6: x = i < 48 ? LAST + i % 2 : 300 + 34 * i; break;
        case 7: x = HOUSE[i / 3 % HOUSE_ROWS][0] + i % 3 - 1; break; /* each count, one below, one above */
        case 8: x = 3572 - 37 * i; break;
        default:
            if (day >= 20)
                return 1;
            x = any((uint64_t)day, (uint64_t)i);
        }
        printf("%" PRId64 "\n", x);
    }
    return 0;
}

static int text(const int64_t (*row)[2], int rows)
{
    for (int i = 0; i < rows; i++) {
        int r = (int)row[i][0], c = (int)row[i][1];
        const int bytes[6] = {195, 90, r % 256, r / 256, c % 256, c / 256};
        for (int j = 0; j < 6; j++)
            putchar(bytes[j]);
    }
    return 0;
}

int main(int argc, char **argv)
{
    int64_t row[ROWS_MOST][2];
    int hours = argc > 3 && !strcmp(argv[1], "hours"), first = hours ? 4 : 2, rows = (argc - first) / 2;
    if (argc == 3 && !strcmp(argv[1], "make"))
        return make(atoi(argv[2]));
    if (argc < 2 || argc % 2 || rows > ROWS_MOST)
        return 2;
    for (int i = 0; i < 2 * rows; i++)
        row[i / 2][i % 2] = atoi(argv[first + i]);
    memset(is_open, 1, sizeof is_open);
    if (hours && !read_hours(argv[2], atoi(argv[3])))
        return 2;
    if (hours || !strcmp(argv[1], "sheet"))
        return rows ? sheet((const int64_t(*)[2])row, rows, hours) : sheet(HOUSE, HOUSE_ROWS, hours);
    return !strcmp(argv[1], "text") ? text((const int64_t(*)[2])row, rows) : 2;
}
