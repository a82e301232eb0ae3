/* The parts of the random test: what is drawn and lent (random_make.c), each call made on the library and on the model
 * (random_both.c), days (random_day.c), opening hours (random_hours.c), loading (random_load.c), stored places
 * (random_used.c), and what plain arithmetic says (random_plain.c). */
#ifndef RANDOM_H
#define RANDOM_H
#include "model.h"
#include <stdbool.h>

struct words {
    uint32_t *at;
    size_t n;
};

/* What a call is lent; a host uses one of the mask lists, and of a day its own list of shares. */
struct lent {
    struct words job, table, a, b, deals, shares[3], calendar;
    uint32_t weekday;
};

/* A host's state on either side. */
struct host {
    lamphiek_state library, model;
};

/* ---- random_make.c */

void seed(uint64_t s);
uint32_t draw(void);
uint32_t below(uint32_t n);
bool chance(uint32_t percent);
uint32_t one_of(const uint32_t *from, size_t n);

/* Lists lie in rooms, each with a page before and behind it that nobody may touch: the library is not compiled with
 * the address sanitizer, and reads past what it is lent must be seen in it too. */
enum room {
    ROOM_JOB,
    ROOM_TABLE,
    ROOM_OTHER_JOB,
    ROOM_OTHER_TABLE,
    ROOM_A,
    ROOM_B,
    ROOM_TEXT,
    ROOM_SHARES, /* of a day: hosts 0, 1 and 2 */
    ROOM_OTHER_SHARES = ROOM_SHARES + 3,
    ROOM_CALENDAR,
    ROOM_OTHER_CALENDAR,
    ROOM_DEALS, /* which preparation alone writes; those before it are only read */
    ROOM_DEALS_MODEL,
    ROOMS
};

void open_rooms(void);
/* So many words that end or begin where their room does, copied from a list, or at random if that is NULL. */
struct words lend(enum room room, const uint32_t *from, size_t n);
/* Remembers what a room holds now, and says whether it still does. */
void remember(enum room room);
bool unchanged(enum room room);
/* A list of 2^32 words and four, of which the first four are an order and also two rows, and as many words behind it as
 * a day's list has; none where the machine does not grant it. */
struct words long_list(void);
/* Writes bytes over its first ones. */
void write_front(struct words all, const uint8_t *bytes, size_t n);
/* The words of a room: a list in it with what lies before and behind. */
struct words whole_room(enum room room);

enum { ORDERS = 64, JOB_MOST = 260, TABLE_MOST = 34, KINDS = 11, TEXT_MOST = 128 };
enum { DAY_MOST = 2 * LAMPHIEK_DAY_WORDS, CALENDAR_MOST = 2 * LAMPHIEK_CALENDAR_WORDS };

/* How often an order speaks (each host). */
uint32_t turns(const uint32_t *order, struct words table);
/* An accepted job of so many orders, of all kinds or all but curves; its number of words. */
size_t make_job(uint32_t *job, uint32_t orders, bool curves);
size_t damage_job(uint32_t *job, size_t n);
size_t make_table(uint32_t *table);
size_t damage_table(uint32_t *table, size_t n);
void make_registers(lamphiek_state *s);
void forge_place(lamphiek_state *s, const struct lent *l);
int64_t make_reading(void);
/* The count of a row, most often of the last one, or one off it. */
int64_t make_count(struct words table);

/* A job, accepted or perhaps damaged, with its table and lists as long as it needs or longer. */
struct lent make_lent(bool damaged);
/* The job that needs most: 64 exact curves on 16 rows. */
struct lent make_largest(void);
/* So many rows that keep the rules, and lists that cover such needs. */
size_t make_rows(uint32_t *table, uint32_t rows);
void lend_lists(struct lent *l, const lamphiek_counts *need);
/* A list one word short, or none; and the same lists with a mask list or the deals cut so. */
struct words cut(struct words w);
struct lent cut_one(struct lent l);
uint32_t make_host(void);
struct host make_state(void);

/* ---- random_both.c: a call on both sides, its answer and all that was lent compared; the first that differs is
 * printed and ends the program. */

/* Whether the kept words of a state are those of calls that were made on both sides alike, each side having its own. */
enum kept { GENUINE, FORGED };

uint32_t both_split(int64_t reading, uint32_t l1, uint32_t l2, lamphiek_shares *shares);
uint32_t both_open(const lamphiek_shares *shares, int64_t *value);
uint32_t both_check(const struct lent *l, lamphiek_counts *counts);
void both_unused(const struct lent *l);
void both_house(uint32_t table[LAMPHIEK_HOUSE_WORDS]);
lamphiek_answer both_load(const uint8_t *text, size_t bytes, uint32_t table[LAMPHIEK_TABLE_WORDS]);
lamphiek_answer both_day_quarters(const struct lent *l, lamphiek_quarters *quarters);
/* The deal buffer is as long as l->deals, which holds the library's deals afterwards. */
lamphiek_answer both_prepare(lamphiek_masks *masks, const struct lent *l);
lamphiek_answer both_start(struct host *h, uint32_t number, const struct lent *l);
lamphiek_answer both_hear(struct host *h, uint32_t number, const struct lent *l, uint32_t heard, enum kept kept);
lamphiek_answer both_day_prepare(lamphiek_masks *masks, const struct lent *l);
lamphiek_answer both_day_start(struct host *h, uint32_t number, const struct lent *l);
lamphiek_answer both_day_hear(struct host *h, uint32_t number, const struct lent *l, uint32_t heard, enum kept kept);

void begin(uint64_t seed_given);
uint64_t calls_made(void);
/* Prints how often each call gave each number; whether each number that it can give came, and no other. */
bool numbers_came(void);
/* Ends the program where the test itself finds something else than it must. */
void fail(const char *what);

/* ---- random_day.c */

void round_of_day_damage(void);
/* Such a list in the place of each that a day is lent. */
void round_of_long_days(struct words all);
/* A host alone, up to the end, which goes from quarter to quarter at will. */
void round_of_hops(void);
/* A day of three hosts on a table of so many rows, with n quarters, or where n is 0 as a calendar at random says. */
void round_of_whole_day(uint32_t rows, uint32_t n);
/* How often a whole day opened as by plain arithmetic, with all quarters counted and with some left out. */
struct days_held { uint64_t all, some; } days_held(void);

/* ---- random_hours.c */

/* A calendar and a weekday of it that has quarters which count: so many, or at random. */
void lend_so_many(struct lent *l, uint32_t n);
void lend_hours(struct lent *l);
/* Of a sound one: another weekday, length or count, a window that is none, a closed weekday. */
struct lent damage_hours(struct lent l);
/* Another calendar and weekday with the same quarters. */
struct lent same_hours(struct lent l);
void round_of_hours(void);

/* ---- random_load.c */

void round_of_texts(void);
void round_of_long_text(struct words all);

/* ---- random_used.c */

/* How much of the lists is used: words of A, words of B, deals. */
struct used {
    uint32_t a, b, deals;
};

/* Of a job or a day, up to and with the exchange of a place, at the end in all; anything where the place is none. */
struct used plain_used(const struct lent *l, uint32_t order, uint32_t turn);
struct used plain_day_used(const struct lent *l, uint32_t order, uint32_t turn);
/* Whether these are a state's stored places; and puts them into a host's. */
bool holds(const lamphiek_state *s, struct used u);
void store(struct host *h, struct used u);
/* Hears, in a job or a day, on the library's state for both sides, whose stored places are made right for what is lent,
 * or now and then not. */
void hear_forged(struct host h, uint32_t number, const struct lent *l, bool day);
/* The same on a genuine state with other stored places, which is refused for them. */
void hear_miscounted(struct host h, uint32_t number, const struct lent *l, bool day);

/* ---- random_plain.c */

/* A value by plain arithmetic: not known, this, or this and at most one more (the one-bit truncation under masks that
 * are not known); and the sum of its masks, where that is known. */
struct value {
    enum { UNKNOWN, THIS, OR_ONE_MORE } known;
    int64_t v;
    bool masked;
    int64_t masks;
};

int64_t signed_reading(int64_t v);
/* Whether a reading can be split. */
bool in_range(int64_t x);
/* What the registers open after an accepted job. */
void plain_job(struct value r[LAMPHIEK_REGISTERS], struct words job, struct words table);
/* Which quarters count; the number: 0, 16 or 17. */
uint32_t plain_hours(struct words calendar, uint32_t weekday, bool counts[LAMPHIEK_QUARTERS]);
/* What registers 0 and 1 open after a day of these values, of which these count. */
void plain_day(const int64_t x[LAMPHIEK_QUARTERS], const bool counts[LAMPHIEK_QUARTERS], struct words table,
               int64_t *mean, int64_t *above);
#endif
