/* The trace protocol (docs/trace.md) over lamphiek.h: each line of standard input is a command, and every word that the
 * three hosts deal, speak and open is written. */
#include "trace.h"
#include <stdio.h>
#include <string.h>

/* ---- settings */

static int set_table(const uint32_t *words, size_t n)
{
    memcpy(set.table, words, n * sizeof *words);
    set.table_words = n;
    return 1;
}

/* A refused text leaves the table. */
static int load_table(const uint32_t *words, size_t n)
{
    static uint8_t text[LINE_WORDS];
    uint32_t table[LAMPHIEK_TABLE_WORDS], before[LAMPHIEK_TABLE_WORDS];
    memset(table, 0xA5, sizeof table);
    memcpy(before, table, sizeof before);
    for (size_t i = 0; i < n; i++) {
        if (words[i] > UINT8_MAX)
            return 0;
        text[i] = (uint8_t)words[i];
    }
    lamphiek_answer r = lamphiek_load(text, n, table);
    if (r.number) {
        must(!memcmp(table, before, sizeof table) && r.count == 0, "a refused loading gives a table");
        put_refusal(r);
    } else {
        set_table(table, r.count);
        put("table", table, r.count);
    }
    return 1;
}

static int set_offset(const uint32_t *words, size_t n)
{
    (void)n;
    set.offset = words[0];
    return 1;
}

static int set_register(const uint32_t *words, size_t n)
{
    (void)n;
    if (words[0] >= LAMPHIEK_REGISTERS)
        return 0;
    set.m[words[0]] = words[1];
    set.l1[words[0]] = words[2];
    set.l2[words[0]] = words[3];
    return 1;
}

static int set_quarter(const uint32_t *words, size_t n)
{
    (void)n;
    if (words[0] >= LAMPHIEK_QUARTERS)
        return 0;
    const uint32_t shares[3][2] = {{words[2], words[3]}, {words[1], words[2]}, {words[1], words[3]}};
    for (int host = 0; host < 3; host++)
        memcpy(set.day_lists[host] + 2 * words[0], shares[host], sizeof shares[host]);
    return 1;
}

static int set_quarters(const uint32_t *words, size_t n)
{
    (void)n;
    if (words[0] > QUARTERS_MOST)
        return 0;
    set.quarters = words[0];
    return 1;
}

/* Windows of a weekday, how many and where: those past the room are counted alone, since the count is refused. */
static int set_windows(const uint32_t *words, size_t n, size_t count_at, size_t windows_at, size_t most)
{
    if (words[0] >= LAMPHIEK_WEEKDAYS || n % 2 == 0)
        return 0;
    uint32_t *day = set.calendar + LAMPHIEK_WEEKDAY_WORDS * words[0];
    size_t windows = n / 2, room = windows < most ? windows : most;
    day[count_at] = (uint32_t)windows;
    memcpy(day + windows_at, words + 1, 2 * room * sizeof *words);
    return 1;
}

static int set_opening(const uint32_t *words, size_t n)
{
    return set_windows(words, n, LAMPHIEK_OPEN_COUNT, LAMPHIEK_OPEN_WINDOWS, LAMPHIEK_OPEN_MOST);
}

static int set_cleaning(const uint32_t *words, size_t n)
{
    return set_windows(words, n, LAMPHIEK_CLEANING_COUNT, LAMPHIEK_CLEANING_WINDOWS, LAMPHIEK_CLEANING_MOST);
}

static int set_weekday(const uint32_t *words, size_t n)
{
    (void)n;
    set.weekday = words[0];
    return 1;
}

static const struct {
    const char *name;
    size_t least, most; /* numbers behind the name */
    command *obey;
} COMMANDS[] = {
    {"table", 0, ANY, set_table},   {"offset", 1, 1, set_offset},   {"register", 4, 4, set_register},
    {"run", 0, ANY, do_run},        {"quarter", 4, 4, set_quarter}, {"quarters", 1, 1, set_quarters},
    {"day", 0, 0, do_day},          {"job", 0, ANY, do_job},        {"sheet", 0, 0, do_sheet},
    {"lend", 3, 3, do_lend},        {"prepare", 0, 0, do_prepare},  {"start", 1, 1, do_start},
    {"hear", 2, 2, do_hear},        {"talk", 1, 1, do_talk},        {"place", 3, 3, do_place},
    {"state", 1, 1, do_state},      {"unused", 1, 1, do_unused},    {"load", 0, ANY, load_table},
    {"opening", 1, 1 + 2 * WINDOWS_MOST, set_opening},
    {"cleaning", 1, 1 + 2 * WINDOWS_MOST, set_cleaning},
    {"weekday", 1, 1, set_weekday}, {"used", 1, 1, do_used},        {"mark", 4, 4, do_mark},
};

/* What no line has set yet: the house table, a whole day, and every weekday open all day. */
static void set_defaults(void)
{
    lamphiek_house(set.table);
    set.table_words = LAMPHIEK_HOUSE_WORDS;
    set.quarters = LAMPHIEK_QUARTERS;
    for (uint32_t d = 0; d < LAMPHIEK_WEEKDAYS; d++)
        set_opening((const uint32_t[]){d, 0, LAMPHIEK_MINUTES}, 3);
}

/* ---- lines */

/* The numbers from a place of a line to its end, one space before each: how many, or -1 where something else stands. */
static long numbers(const char *s, const char *end, uint32_t *words)
{
    long n = 0;
    while (s < end) {
        if (*s++ != ' ')
            return -1;
        uint64_t v = 0;
        const char *first = s;
        for (; s < end && *s >= '0' && *s <= '9' && s - first < 11; s++)
            v = v * 10 + (uint64_t)(*s - '0');
        if (s == first || s - first > 10 || v > UINT32_MAX)
            return -1;
        words[n++] = (uint32_t)v;
    }
    return n;
}

static void take(const char *line, size_t length)
{
    static uint32_t words[LINE_WORDS];
    const char *space = memchr(line, ' ', length), *end = line + length, *behind = space ? space : end;
    long n = length > LINE_BYTES ? -1 : numbers(behind, end, words);
    for (size_t i = 0; n >= 0 && i < sizeof COMMANDS / sizeof *COMMANDS; i++) {
        size_t name = strlen(COMMANDS[i].name);
        if (name == (size_t)(behind - line) && !memcmp(line, COMMANDS[i].name, name)) {
            if ((size_t)n >= COMMANDS[i].least && (size_t)n <= COMMANDS[i].most && COMMANDS[i].obey(words, (size_t)n))
                return;
            break;
        }
    }
    puts("refused 0");
}

int main(void)
{
    static char line[LINE_BYTES + 1]; /* one byte more than a line has: it tells a longer one */
    size_t length = 0;
    set_defaults();
    for (int c; (c = getchar()) != EOF;) {
        if (c == '\n') {
            take(line, length);
            length = 0;
        } else if (length < sizeof line) {
            line[length++] = (char)c;
        }
    }
    if (length > 0)
        take(line, length);
    must(fflush(stdout) == 0 && !ferror(stdin), "input or output failed");
    return 0;
}
