/* A day on the house table or a hotel's own, the three hosts in one process:
 *     daysheet [TABLE] [CALENDAR WEEKDAY] <READINGS
 *
 * TABLE is a file with a table's text: six bytes for each row, 195 and 90, then its count and its micrograms per
 * litre, each in two bytes, low byte first. Where none is given it is the house table.
 *
 * CALENDAR is a file with the opening hours, and WEEKDAY, from 0 to 6, says which of its days this is. A line for
 * each window: open or cleaning, the weekday, from when, until when. At most eight open windows and four cleaning
 * windows on a weekday, in any order; they end at 24:00 at the latest. Empty lines, and those that begin with #, say
 * nothing. A weekday without an open window is closed.
 *
 *     open 0 08:00 20:00
 *     cleaning 0 12:30 13:00
 *
 * Where none is given it is open all day. A quarter counts if an open window has its first minute, be it cleaned then
 * or not; what is left out enters neither the mean nor any count.
 *
 * Reads the 96 quarter-hour readings of a day from standard input, one to a line (an optional minus and 1 to 10 digits;
 * the last line may lack its newline), also of quarters that are left out, and prints what the plant room opens, and
 * what the day used; the third line where a calendar is given:
 *
 *     mean 1089
 *     above the last row 0 of 48 quarters
 *     left out 48 of 96 quarters: 00:00-08:00 20:00-24:00
 *     deals 5821
 *     words 11544
 *
 * A quarter above the table's last count is no reading; it enters the mean as -1. A line that is no reading, or is out
 * of the range that can be split (11), is named on standard error, and so is one that is missing or too many, a line of
 * the calendar that is none, and a table (13 to 15) or a calendar (16, 17) that is refused: then nothing is run and
 * nothing printed. Exit status: 0, or 1 where that or something else went wrong. */
#include <inttypes.h>
#include <stdio.h>
#include <stdlib.h>
#include <string.h>

#include "lamphiek.h"

/* Mask lists that anybody can work out, for trials alone: word j, from j = 1, is FACTOR * j. The first 96 words of each
 * split the readings, and the day's lists begin behind them. Real lists are drawn at random, and never used twice. */
static const uint32_t FACTOR_A = 2654435769u, FACTOR_B = 2246822519u;

enum { LINE_BYTES = 64 }; /* at most */
enum { END = LAMPHIEK_QUARTERS + 1 }; /* the order of the end: the quarters and the mean are done */

struct day {
    uint32_t table[LAMPHIEK_TABLE_WORDS];
    size_t table_words;
    uint32_t calendar[LAMPHIEK_CALENDAR_WORDS], weekday;
    lamphiek_quarters quarters; /* that count */
    uint32_t counted;           /* so many */
    uint32_t shares[3][LAMPHIEK_DAY_WORDS]; /* what hosts 0, 1 and 2 got of the readings */
    uint32_t *a, *b, *deals;
    lamphiek_counts counts;
    lamphiek_masks masks;
    lamphiek_state one, two;
    uint32_t dealt, spoken;
};

static void stop(const char *why)
{
    fprintf(stderr, "daysheet: %s\n", why);
    exit(1);
}

static void stop_if(uint32_t number, const char *what)
{
    if (number) {
        fprintf(stderr, "daysheet: %s is refused with %" PRIu32 "\n", what, number);
        exit(1);
    }
}

static void stop_at(const char *what, int line, const char *why)
{
    fprintf(stderr, "daysheet: %s %d: %s\n", what, line, why);
    exit(1);
}

/* ---- the table */

/* A file's bytes, in room that was taken for them. */
static uint8_t *read_file(const char *name, size_t *bytes)
{
    FILE *file = fopen(name, "rb");
    uint8_t *text = NULL;
    size_t room = 0, n = 0;
    while (file && !feof(file) && !ferror(file)) {
        if (n == room) {
            room = 2 * room + 256;
            text = realloc(text, room);
            if (!text)
                stop("no room for a file's text");
        }
        n += fread(text + n, 1, room - n, file);
    }
    if (!file || ferror(file)) {
        fprintf(stderr, "daysheet: %s cannot be read\n", name);
        exit(1);
    }
    fclose(file);
    *bytes = n;
    return text;
}

/* Loads the table of a file, or takes the house table. */
static void take_table(struct day *d, const char *name)
{
    size_t n = 0;
    if (!name) {
        lamphiek_house(d->table);
        d->table_words = LAMPHIEK_HOUSE_WORDS;
        return;
    }
    uint8_t *text = read_file(name, &n);
    lamphiek_answer r = lamphiek_load(text, n, d->table);
    free(text);
    if (r.number == LAMPHIEK_RECORD)
        stop("the table is refused with 13, a record is cut short or its mark is wrong");
    if (r.number == LAMPHIEK_RECORD_COUNT)
        stop("the table is refused with 14, it has fewer than 2 or more than 16 records");
    if (r.number == LAMPHIEK_ROW)
        stop("the table is refused with 15, a row's range or rise is broken");
    d->table_words = r.count;
}

/* ---- the calendar */

/* One window more on a weekday; those past the room are counted alone, since their number is refused. */
static void add_window(uint32_t *day, int cleaning, uint32_t from, uint32_t until)
{
    uint32_t *room = day + (cleaning ? LAMPHIEK_CLEANING_WINDOWS : LAMPHIEK_OPEN_WINDOWS);
    uint32_t i = day[cleaning ? LAMPHIEK_CLEANING_COUNT : LAMPHIEK_OPEN_COUNT]++;
    if (i < (uint32_t)(cleaning ? LAMPHIEK_CLEANING_MOST : LAMPHIEK_OPEN_MOST)) {
        room[2 * i] = from;
        room[2 * i + 1] = until;
    }
}

/* A line of the calendar: 1 where it has its form. */
static int take_window(uint32_t *calendar, const char *line)
{
    char kind[9], weekday[2], hour[2][3], minute[2][3];
    int end = 0;
    if (sscanf(line, " %8[a-z]%*[ \t]%1[0-6]%*[ \t]%2[0-9]:%2[0-9]%*[ \t]%2[0-9]:%2[0-9] %n", kind, weekday, hour[0],
               minute[0], hour[1], minute[1], &end) != 6 || line[end])
        return 0;
    int cleaning = !strcmp(kind, "cleaning");
    if (!cleaning && strcmp(kind, "open"))
        return 0;
    if (!minute[0][1] || minute[0][0] > '5' || !minute[1][1] || minute[1][0] > '5')
        return 0;
    add_window(calendar + LAMPHIEK_WEEKDAY_WORDS * (weekday[0] - '0'), cleaning,
               (uint32_t)(60 * atoi(hour[0]) + atoi(minute[0])), (uint32_t)(60 * atoi(hour[1]) + atoi(minute[1])));
    return 1;
}

static void read_calendar(uint32_t *calendar, const char *name)
{
    size_t n = 0, length;
    char line[LINE_BYTES + 1];
    uint8_t *text = read_file(name, &n), *at = text, *end;
    for (int i = 1; at < text + n; i++, at += length + 1) {
        end = memchr(at, '\n', n - (size_t)(at - text));
        length = end ? (size_t)(end - at) : n - (size_t)(at - text);
        if (*at == '#')
            continue;
        if (length > LINE_BYTES)
            stop_at("calendar line", i, "longer than 64 bytes");
        memcpy(line, at, length);
        line[length] = 0;
        if (strlen(line) != length || (line[strspn(line, " \t\r")] && !take_window(calendar, line)))
            stop_at("calendar line", i, "not a window (such as open 0 08:00 20:00; weekdays are 0 to 6)");
    }
    free(text);
}

/* A number of 1 to 10 digits; one above 32 bits is no weekday in any case. */
static uint32_t read_weekday(const char *digits)
{
    size_t n = strlen(digits);
    if (n == 0 || n > 10 || strspn(digits, "0123456789") != n)
        stop("the weekday is no number (usage: daysheet [TABLE] [CALENDAR WEEKDAY] <READINGS)");
    unsigned long long v = strtoull(digits, NULL, 10);
    return v < UINT32_MAX ? (uint32_t)v : UINT32_MAX;
}

/* Takes the calendar of a file and the weekday, or opens all day; and which quarters count by it. */
static void take_hours(struct day *d, char **given)
{
    if (given) {
        d->weekday = read_weekday(given[1]);
        read_calendar(d->calendar, given[0]);
    } else {
        add_window(d->calendar, 0, 0, LAMPHIEK_MINUTES);
    }
    lamphiek_answer r = lamphiek_day_quarters(d->calendar, LAMPHIEK_CALENDAR_WORDS, d->weekday, &d->quarters);
    if (r.number == LAMPHIEK_CALENDAR)
        stop("the calendar is refused with 16, the weekday is above 6, or a weekday has more than 8 open or 4 cleaning "
             "windows, or one that does not end after its start or ends after 24:00");
    if (r.number == LAMPHIEK_CLOSED)
        stop("the calendar is refused with 17, no quarter of this weekday counts");
    d->counted = r.count;
}

/* ---- controller */

/* The next line without its newline: how many bytes, or -1 where the input ends. A longer one is cut behind one byte
 * more than it may have. */
static int next_line(char line[LINE_BYTES + 1])
{
    int n = 0, c = getchar(), ended = c == EOF;
    for (; c != EOF && c != '\n'; c = getchar())
        if (n <= LINE_BYTES)
            line[n++] = (char)c;
    if (ferror(stdin))
        stop("the input cannot be read");
    return ended ? -1 : n;
}

static int is_reading(const char *line, int n, int64_t *reading)
{
    int minus = n > 0 && line[0] == '-';
    *reading = 0;
    for (int i = minus; i < n; i++) {
        if (line[i] < '0' || line[i] > '9' || i - minus == 10)
            return 0;
        *reading = 10 * *reading + (line[i] - '0');
    }
    *reading = minus ? -*reading : *reading;
    return n > minus;
}

/* Splits a quarter's reading, and gives each host its share. */
static uint32_t split(struct day *d, uint32_t quarter, int64_t reading)
{
    lamphiek_shares s = {{0, 0}, {0, 0}, {0, 0}};
    uint32_t number = lamphiek_split(reading, FACTOR_A * (quarter + 1), FACTOR_B * (quarter + 1), &s);
    uint32_t *first[3] = {d->shares[0] + 2 * quarter, d->shares[1] + 2 * quarter, d->shares[2] + 2 * quarter};
    first[0][0] = s.host0.l1, first[0][1] = s.host0.l2;
    first[1][0] = s.host1.m, first[1][1] = s.host1.l;
    first[2][0] = s.host2.m, first[2][1] = s.host2.l;
    return number;
}

static void read_day(struct day *d)
{
    char line[LINE_BYTES + 1];
    int64_t reading;
    for (int i = 1; i <= LAMPHIEK_QUARTERS; i++) {
        int n = next_line(line);
        if (n < 0)
            stop_at("line", i, "missing, a day has 96 readings");
        if (n > LINE_BYTES)
            stop_at("line", i, "longer than 64 bytes");
        if (!is_reading(line, n, &reading))
            stop_at("line", i, "not a reading (an optional minus and 1 to 10 digits)");
        if (split(d, (uint32_t)i - 1, reading))
            stop_at("line", i, "refused with 11, the reading is outside -1073741824 to 1073741823");
    }
    if (next_line(line) >= 0)
        stop_at("line", LAMPHIEK_QUARTERS + 1, "too many, a day has 96 readings");
}

/* ---- hosts */

static uint32_t *room_or_stop(size_t words)
{
    uint32_t *room = calloc(words, sizeof *room);
    if (!room)
        stop("no room for a list");
    return room;
}

static uint32_t *sample_list(uint32_t words, uint32_t factor)
{
    uint32_t *list = room_or_stop(words);
    for (uint32_t i = 0; i < words; i++)
        list[i] = factor * (LAMPHIEK_QUARTERS + 1 + i);
    return list;
}

/* What a day uses: an exact curve for each quarter that counts, and the mean's exact truncation. */
static void count(struct day *d)
{
    static const uint32_t curve[LAMPHIEK_ORDER_WORDS] = {LAMPHIEK_CURVE, 0, 0, LAMPHIEK_MODE_EXACT};
    static const uint32_t mean[LAMPHIEK_ORDER_WORDS] = {LAMPHIEK_EXACT, 0, 0, 16};
    const uint32_t n = d->counted;
    lamphiek_counts q = {0, 0, 0, 0}, m = {0, 0, 0, 0};
    stop_if(lamphiek_check(curve, LAMPHIEK_ORDER_WORDS, d->table, d->table_words, &q).number, "the table");
    stop_if(lamphiek_check(mean, LAMPHIEK_ORDER_WORDS, d->table, d->table_words, &m).number, "the mean");
    d->counts = (lamphiek_counts){n * q.deals + m.deals, n * q.words + m.words, n * q.a + m.a, n * q.b + m.b};
}

/* What every call of a host is lent. */
#define DAY(d, host)                                                                                                   \
    (d)->table, (d)->table_words, (d)->shares[host], LAMPHIEK_DAY_WORDS, (d)->calendar, LAMPHIEK_CALENDAR_WORDS,       \
        (d)->weekday
#define HOST_1(d) 1, DAY(d, 1), (d)->a, (d)->counts.a, NULL, 0
#define HOST_2(d) 2, DAY(d, 2), (d)->b, (d)->counts.b, (d)->deals, (d)->dealt

static void prepare(struct day *d)
{
    lamphiek_answer p = lamphiek_day_prepare(&d->masks, DAY(d, 0), d->a, d->counts.a, d->b, d->counts.b, d->deals,
                                             d->counts.deals);
    stop_if(p.number, "the preparation");
    d->dealt = p.count;
}

/* Hosts 1 and 2, each hearing what the other spoke, until the end. */
static void work(struct day *d)
{
    lamphiek_answer from1 = lamphiek_day_start(&d->one, HOST_1(d)), from2 = lamphiek_day_start(&d->two, HOST_2(d));
    while (!from1.number && !from2.number && d->one.order < END) {
        uint32_t word1 = from1.word, word2 = from2.word;
        from1 = lamphiek_day_hear(&d->one, HOST_1(d), word2);
        from2 = lamphiek_day_hear(&d->two, HOST_2(d), word1);
    }
    stop_if(from1.number, "host 1");
    stop_if(from2.number, "host 2");
    d->spoken = from1.count + from2.count;
}

/* Whether a worker's stored places say that all was used that the day needs. */
static int all_used(const lamphiek_state *s, const lamphiek_counts *need)
{
    return s->used_a == need->a && s->used_b == need->b && s->used_deals == need->deals;
}

/* ---- plant room */

static int64_t opened(const struct day *d, int i)
{
    lamphiek_shares s = {
        {d->masks.l1[i], d->masks.l2[i]}, {d->one.m[i], d->one.mask[i]}, {d->two.m[i], d->two.mask[i]}};
    int64_t value = 0;
    stop_if(lamphiek_open(&s, &value), "the opening");
    return value;
}

static int counts(const struct day *d, int q) { return d->quarters.bits[q / 32] >> q % 32 & 1; }

/* From when until when quarters were left out. */
static void print_left_out(const struct day *d)
{
    printf("left out %" PRIu32 " of %d quarters%s", LAMPHIEK_QUARTERS - d->counted, LAMPHIEK_QUARTERS,
           d->counted < LAMPHIEK_QUARTERS ? ":" : "");
    for (int q = 0, from; q < LAMPHIEK_QUARTERS; q++) {
        for (from = q; q < LAMPHIEK_QUARTERS && !counts(d, q);)
            q++;
        if (from < q)
            printf(" %02d:%02d-%02d:%02d", from / 4, from % 4 * 15, q / 4, q % 4 * 15);
    }
    puts("");
}

int main(int argc, char **argv)
{
    static struct day d;
    int hours = argc > 2; /* a calendar and a weekday come last */
    if (argc > 4)
        stop("usage: daysheet [TABLE] [CALENDAR WEEKDAY] <READINGS");
    take_table(&d, argc % 2 ? NULL : argv[1]);
    take_hours(&d, hours ? argv + argc - 2 : NULL);
    read_day(&d);
    count(&d);
    d.a = sample_list(d.counts.a, FACTOR_A);
    d.b = sample_list(d.counts.b, FACTOR_B);
    d.deals = room_or_stop(d.counts.deals);
    prepare(&d);
    work(&d);
    free(d.a);
    free(d.b);
    free(d.deals);
    if (d.dealt != d.counts.deals || d.spoken != d.counts.words || !all_used(&d.one, &d.counts) ||
        !all_used(&d.two, &d.counts))
        stop("the counts disagree");
    int64_t mean = opened(&d, 0), above = opened(&d, 1);
    printf("mean %" PRId64 "\nabove the last row %" PRId64 " of %" PRIu32 " quarters\n", mean, above, d.counted);
    if (hours)
        print_left_out(&d);
    printf("deals %" PRIu32 "\nwords %" PRIu32 "\n", d.dealt, d.spoken);
    return fflush(stdout) || ferror(stdout) ? 1 : 0;
}
