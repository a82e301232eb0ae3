/* Lamphiek: a masked calibration engine for three hosts (docs/01-scope.md, and of docs/02-change-requests.md R-1 to
 * R-7), for C11, C++11 and later.
 *
 * No call allocates, blocks, or keeps anything between calls: what a call reads and writes is lent to it for that call
 * alone. Words are uint32_t, and arithmetic on them is modulo 2^32.
 *
 * Each call but lamphiek_house gives the documents' number: 0 for none, or the first condition that it meets, in
 * checking order (lamphiek_unused_a and _b write it). A call that is refused leaves what it was lent as it was, but for
 * that number.
 *
 * What a caller owes for any of this to hold, and no call can check:
 *   - a list is a pointer and the count of words behind it, a text one and the count of bytes: a real count. The
 *     pointer of an empty list or text may be NULL;
 *   - every other pointer is not NULL; each is aligned for its type, and what it points to is initialised, also where
 *     the call only writes;
 *   - what a call writes (a pointer without const) overlaps nothing else that is lent to that call. Lists that are only
 *     read may overlap;
 *   - no other thread writes what is lent while the call runs, or reads what the call writes. Calls that share nothing
 *     but what they only read may run at once.
 *
 * What the three hosts owe for the plant room to open the value that is defined, and no call can check:
 *   - before a job all sixteen registers open: zero shares, shares of a split reading, or what an earlier job or day
 *     left that both workers brought to its end;
 *   - every call of the job is lent the same job, table and mask lists, and host 2 the deals that host 0's preparation
 *     wrote, unaltered;
 *   - host 0 completes one preparation, hosts 1 and 2 each one start, host 2 after the preparation. A refused call has
 *     changed nothing, and may stand anywhere;
 *   - a hearing gets, both unaltered, the state that its host's last call left and the word that the other host spoke
 *     at that same place (order and turn);
 *   - the plant room opens the three hosts' words of a register when both workers are at the end: from its preparation
 *     on, host 0 holds the masks of the end.
 *
 * For a day they owe the same, but for the job and the registers, of which it has none: every call of a host is
 * lent the same 96 shares, its own of the readings that were split, quarter by quarter, and every call of all three the
 * same calendar and weekday. The plant room then opens registers 0 and 1. A state does not say whether it is a
 * job's or a day's, nor on which calendar: it goes on with the calls that began it.
 *
 * What they owe for nobody to learn a reading: every mask word is drawn at random and used once, for one split, one job
 * or one day, also where a job or a day broke off.
 *
 * The library is built for x86-64 Linux. Its calls need less than 2,048 bytes of stack, beside what memcpy needs; where
 * that is bound lazily, the call that first comes to it needs more.
 */
#ifndef LAMPHIEK_H
#define LAMPHIEK_H

#include <stddef.h>
#include <stdint.h>

#ifdef __cplusplus
extern "C" {
#define LAMPHIEK_ASSERT(test) static_assert(test, #test)
#else
#define LAMPHIEK_ASSERT(test) _Static_assert(test, #test)
#endif

/* ---- the numbers: document 01, "Turned down, in checking order"; 12, 16 and 17 are a day's alone, checked in
 * this order directly after 1; 13 to 15 are loading's alone; 18 is hearing's alone, directly after 8 */
enum {
    LAMPHIEK_OK = 0,           /* completed */
    LAMPHIEK_NO_HOST = 1,      /* starting or hearing names a host other than 1 or 2 */
    LAMPHIEK_JOB_SIZE = 2,     /* the job has no words, more than 256, or a number of words not divisible by 4 */
    LAMPHIEK_KIND = 3,         /* an order's kind is above 10 */
    LAMPHIEK_REGISTER = 4,     /* a target or source is above 15 */
    LAMPHIEK_FOURTH = 5,       /* a shift or mode is outside its range, a word due to be 0 is not 0, or the table of a
                                  curve or a day breaks its rules */
    LAMPHIEK_SHORT_MASKS = 6,  /* a mask list that this host uses is shorter than the job, or the day, needs */
    LAMPHIEK_SHORT_DEALS = 7,  /* the deal list or deal buffer is shorter than the deals of the job or the day */
    LAMPHIEK_PLACE = 8,        /* the state's place is neither the end nor a product or refresh of the job or the day */
    LAMPHIEK_END = 9,          /* hearing is called at the end */
    LAMPHIEK_DISAGREE = 10,    /* the opened shares disagree in L1, in L2 or in m */
    LAMPHIEK_RANGE = 11,       /* a reading to be split is outside -2^30 to 2^30 - 1 */
    LAMPHIEK_DAY_LIST = 12,    /* the day list is not of 96 shares: 192 words */
    LAMPHIEK_RECORD = 13,      /* a record of a table's text is cut short or its mark is wrong, anywhere in the text */
    LAMPHIEK_RECORD_COUNT = 14, /* the text has fewer than 2 or more than 16 records */
    LAMPHIEK_ROW = 15,         /* a row's range or rise is broken */
    LAMPHIEK_CALENDAR = 16,    /* the weekday is above 6, or any weekday, the day's or not, has more than 8 open or 4
                                  cleaning windows, or one whose end is not after its start or is above 1440; or the
                                  calendar is not of 182 words */
    LAMPHIEK_CLOSED = 17,      /* no quarter of the day's weekday counts */
    LAMPHIEK_STORED = 18       /* the state's stored places are not what is used up to and with its place, at the end in
                                  all; directly after 8, before 9 */
};

/* ---- a job: 1 to 64 orders of four words, kind, target, first source and fourth word; registers are 0 to 15 */
enum {
    LAMPHIEK_ADD = 0,            /* fourth word: the second source */
    LAMPHIEK_SUBTRACT = 1,       /* the second source */
    LAMPHIEK_ADD_CONSTANT = 2,   /* the constant */
    LAMPHIEK_TIMES_CONSTANT = 3, /* the constant */
    LAMPHIEK_PRODUCT = 4,        /* the second source */
    LAMPHIEK_REFRESH = 5,        /* 0 */
    LAMPHIEK_LARGE_SLACK = 6,    /* the shift, 1 to 31 */
    LAMPHIEK_ONE_BIT = 7,        /* the shift, 1 to 30 */
    LAMPHIEK_EXACT = 8,          /* the shift, 1 to 31 */
    LAMPHIEK_RELU = 9,           /* 0 */
    LAMPHIEK_CURVE = 10          /* the mode. Above the table's last count the order opens -1, no reading.
                                    Where a table's values fall to 0 it may open -1 too; not where they never fall,
                                    or are all at least 1. Later orders compute with -1 as with any number */
};

enum { LAMPHIEK_MODE_EXACT = 0, LAMPHIEK_MODE_ONE_BIT = 1 };

enum {
    LAMPHIEK_ORDER_WORDS = 4,
    LAMPHIEK_JOB_WORDS = 256,  /* at most */
    LAMPHIEK_TABLE_WORDS = 32, /* at most: 2 to 16 rows of two words, a count, which rises strictly within 0 to 4095,
                                  and micrograms per litre, 0 to 20000 */
    LAMPHIEK_HOUSE_WORDS = 16, /* of the house table */
    LAMPHIEK_RECORD_BYTES = 6, /* of a table's text: the mark's two bytes, then the row's count and its micrograms per
                                  litre, each in two bytes, low byte first */
    LAMPHIEK_MARK_1 = 195,
    LAMPHIEK_MARK_2 = 90,
    LAMPHIEK_REGISTERS = 16,
    LAMPHIEK_LANE = 24,        /* the registers, and 8 kept words behind them */
    LAMPHIEK_QUARTERS = 96,    /* of a day */
    LAMPHIEK_DAY_WORDS = 192,  /* of a host's day list, exactly */
    LAMPHIEK_MINUTES = 1440    /* of a day */
};

/* ---- a calendar: the opening hours of a week, which are public. So many words for each weekday from 0 to 6, one
 * weekday behind the other; which day of the week is 0 is for its writer to say.
 *
 * A window runs from its start, a minute of the day, up to its end, the first minute that is no longer in it: start <
 * end <= 1440. Windows may overlap and stand in any order; room behind them is not looked at. Open from 8 to 20 o'clock
 * on weekday d:
 *     uint32_t *day = calendar + LAMPHIEK_WEEKDAY_WORDS * d;
 *     day[LAMPHIEK_OPEN_COUNT] = 1, day[LAMPHIEK_CLEANING_COUNT] = 0;
 *     day[LAMPHIEK_OPEN_WINDOWS] = 480, day[LAMPHIEK_OPEN_WINDOWS + 1] = 1200;
 *
 * Quarter q lies where its first minute, 15 * q, does. It counts if that is in an open window, be it in a cleaning
 * window too; all other quarters are left out. */
enum {
    LAMPHIEK_WEEKDAYS = 7,
    LAMPHIEK_WEEKDAY_WORDS = 26,
    LAMPHIEK_CALENDAR_WORDS = 182,
    /* the places in a weekday's words */
    LAMPHIEK_OPEN_COUNT = 0,        /* how many open windows there are */
    LAMPHIEK_CLEANING_COUNT = 1,    /* how many cleaning windows */
    LAMPHIEK_OPEN_WINDOWS = 2,      /* room for the open windows, two words each: start, end */
    LAMPHIEK_CLEANING_WINDOWS = 18, /* room for the cleaning windows, likewise */
    LAMPHIEK_OPEN_MOST = 8,
    LAMPHIEK_CLEANING_MOST = 4
};

/* ---- what is lent */

/* What a host holds of one value: host 0 both masks; hosts 1 and 2 the masked value and their own mask, L1 or L2. */
typedef struct {
    uint32_t l1, l2;
} lamphiek_dealer_share;

typedef struct {
    uint32_t m, l;
} lamphiek_worker_share;

typedef struct {
    lamphiek_dealer_share host0;
    lamphiek_worker_share host1, host2;
} lamphiek_shares;

/* What a job uses: deals, words spoken by both hosts together, words of the mask lists A and B. */
typedef struct {
    uint32_t deals, words, a, b;
} lamphiek_counts;

/* Host 0: its masks of the registers. */
typedef struct {
    uint32_t l1[LAMPHIEK_REGISTERS], l2[LAMPHIEK_REGISTERS];
} lamphiek_masks;

/* Host 1 or 2: in each lane its registers, then its kept words; and its place (at the end: number of orders, and 0). In
 * a day the order is the quarter from 0, one that counts, then 96 for the mean, and the end is 97 and 0.
 *
 * Behind the place its stored places: how many words of list A, words of list B and deals the job or day has
 * used, up to and with the word spoken at this place, at the end in all. Either host counts all three, by its own
 * place; the other may be a word ahead or behind. Only a completed start or hearing sets them. The counts of
 * lamphiek_check (of a day those told below) less these are what the job or day still takes, so that the words of the
 * next one can be drawn in time. Every call is lent the whole lists all the same, also the words counted as used; and
 * where a job or day breaks off, all that it needs is used up, since host 0 has dealt from it. */
typedef struct {
    uint32_t m[LAMPHIEK_LANE], mask[LAMPHIEK_LANE];
    uint32_t order, turn;
    uint32_t used_a, used_b, used_deals;
} lamphiek_state;

/* Which quarters of a day count: quarter q, from 0, at bit q % 32 of bits[q / 32], 1 where it counts. */
typedef struct {
    uint32_t bits[3];
} lamphiek_quarters;

/* The number, and the order's index, which is 0 except for the numbers 3 to 5. What a call does not give is 0, and so
 * are count and word where it is refused. */
typedef struct {
    uint32_t number, index, count, word;
} lamphiek_answer;

/* The library takes each struct as this many words, in the order of its fields. */
LAMPHIEK_ASSERT(sizeof(lamphiek_shares) == 6 * sizeof(uint32_t));
LAMPHIEK_ASSERT(offsetof(lamphiek_shares, host1) == 2 * sizeof(uint32_t));
LAMPHIEK_ASSERT(offsetof(lamphiek_shares, host2) == 4 * sizeof(uint32_t));
LAMPHIEK_ASSERT(sizeof(lamphiek_counts) == 4 * sizeof(uint32_t));
LAMPHIEK_ASSERT(sizeof(lamphiek_masks) == 32 * sizeof(uint32_t));
LAMPHIEK_ASSERT(offsetof(lamphiek_masks, l2) == 16 * sizeof(uint32_t));
LAMPHIEK_ASSERT(sizeof(lamphiek_state) == 53 * sizeof(uint32_t));
LAMPHIEK_ASSERT(offsetof(lamphiek_state, mask) == 24 * sizeof(uint32_t));
LAMPHIEK_ASSERT(offsetof(lamphiek_state, order) == 48 * sizeof(uint32_t));
LAMPHIEK_ASSERT(offsetof(lamphiek_state, used_a) == 50 * sizeof(uint32_t));
LAMPHIEK_ASSERT(sizeof(lamphiek_quarters) == 3 * sizeof(uint32_t));
LAMPHIEK_ASSERT(sizeof(lamphiek_answer) == 4 * sizeof(uint32_t));

/* ---- controller: splits a reading under two mask words, drawn for it alone. Writes the six words of the shares.
 * Gives 0 or 11. */
uint32_t lamphiek_split(int64_t reading, uint32_t l1, uint32_t l2, lamphiek_shares *shares);

/* ---- plant room: opens six words. Writes the value; of a curve order -1 is no reading (LAMPHIEK_CURVE); a day's
 * mean has no such mark. Gives 0 or 10. */
uint32_t lamphiek_open(const lamphiek_shares *shares, int64_t *value);

/* ---- anybody: checks a job with its table (which only curves use). Writes the job's counts. Numbers 2 to 5. */
lamphiek_answer lamphiek_check(const uint32_t *job, size_t job_words, const uint32_t *table, size_t table_words,
                               lamphiek_counts *counts);

/* Gives how many words at the end of mask list A, or B, the job leaves unused: they begin at a + (a_words - given). All
 * of the list's where it is refused. Writes the number: 0, or 2 to 6. */
size_t lamphiek_unused_a(const uint32_t *job, size_t job_words, const uint32_t *table, size_t table_words,
                         const uint32_t *a, size_t a_words, uint32_t *number);
size_t lamphiek_unused_b(const uint32_t *job, size_t job_words, const uint32_t *table, size_t table_words,
                         const uint32_t *b, size_t b_words, uint32_t *number);

/* Writes the house table: eight rows. */
void lamphiek_house(uint32_t table[LAMPHIEK_HOUSE_WORDS]);

/* Loads a hotel's own table from its text: records of LAMPHIEK_RECORD_BYTES, one for each row. Writes all 32
 * words: the table's, and 0 behind them. count: how many words the table has; the first so many are what the other
 * calls take as a table. A table that loads keeps the rules, so that no call gives 5 because of it; one that was not
 * loaded may be lent too. Numbers 13 to 15, in this order. The index is always 0. */
lamphiek_answer lamphiek_load(const uint8_t *text, size_t text_bytes, uint32_t table[LAMPHIEK_TABLE_WORDS]);

/* ---- host 0: prepares a job. Writes its deals, for host 2, to the front of the buffer, whose later words stay as they
 * are, and over the masks of the registers those of the results. count: the deals written. Numbers 2 to 7. */
lamphiek_answer lamphiek_prepare(lamphiek_masks *masks, const uint32_t *job, size_t job_words, const uint32_t *table,
                                 size_t table_words, const uint32_t *a, size_t a_words, const uint32_t *b,
                                 size_t b_words, uint32_t *deals, size_t deals_words);

/* ---- host 1 (masks: list A; deals: may be NULL and 0) and host 2 (masks: list B; deals: those of host 0).
 * word: the word to speak, which may be 0 too. At the end (order is job_words / 4) there is none, and 0 is given.
 * count: how many words this host has spoken, the one to speak now included. */

/* Starts a job from the registers in the state, whatever its kept words, place and stored places are. Writes the state.
 * Numbers 1 to 7. */
lamphiek_answer lamphiek_start(lamphiek_state *state, uint32_t host, const uint32_t *job, size_t job_words,
                               const uint32_t *table, size_t table_words, const uint32_t *masks, size_t masks_words,
                               const uint32_t *deals, size_t deals_words);

/* Hears the word that the other host spoke at the state's place. Writes the state. Numbers 1 to 8, 18, 9, in this
 * order. */
lamphiek_answer lamphiek_hear(lamphiek_state *state, uint32_t host, const uint32_t *job, size_t job_words,
                              const uint32_t *table, size_t table_words, const uint32_t *masks, size_t masks_words,
                              const uint32_t *deals, size_t deals_words, uint32_t heard);

/* ---- a day: 96 quarter-hour readings, each split, of which those count that the calendar says for the weekday
 * . The curve in exact mode on each of these, in day order; then the mean, the sum of their n values times
 * floor(65536 / n), truncated exactly by 16. It is a little low where n does not divide 65536: of 96 quarters the
 * factor is 682, and 682 * 96 is 65472, so that 96 quarters of 4249 open 4244. A quarter above the table's last count
 * enters the sum as -1 and is counted as above. One that is left out is run by no host, needs no masks or deals and is
 * never counted as above; its share stands in the list all the same, and makes no difference. On a weekday of which no
 * quarter counts there is no day: every call is refused (17) and uses no mask word.
 *
 * There is no job, and registers start at zero: as a quarter ends, register 0 gets the sum (at the end the mean) and
 * register 1 how many were above. That alone says whether readings are missing: with some the mean need not be -1, and
 * where a table's values fall to 0 it may be -1 with none.
 *
 * shares: the host's 96 shares in day order, two words each: host 0 l1, l2; hosts 1 and 2 m, l. calendar and weekday:
 * the same in every call, and judged in each. A day of n counted quarters uses what n exact curves and one
 * LAMPHIEK_EXACT use (lamphiek_check counts either): on the house table 121n + 13 deals, 240n + 24 words spoken, 241n +
 * 25 words of list A and 120n + 12 of list B; of all 96 that is 11,629, 23,064, 23,161 and 11,532. lamphiek_unused_a
 * and _b have no form for a day: the words that it leaves are those behind these counts. The index is always 0. */

/* Anybody: which quarters count. Writes them. count: n, how many they are. Numbers 16, 17. */
lamphiek_answer lamphiek_day_quarters(const uint32_t *calendar, size_t calendar_words, uint32_t weekday,
                                      lamphiek_quarters *quarters);

/* Host 0: prepares a day, as lamphiek_prepare a job. The masks are only written. Numbers 12, 16, 17, then 5 to 7. */
lamphiek_answer lamphiek_day_prepare(lamphiek_masks *masks, const uint32_t *table, size_t table_words,
                                     const uint32_t *shares, size_t shares_words, const uint32_t *calendar,
                                     size_t calendar_words, uint32_t weekday, const uint32_t *a, size_t a_words,
                                     const uint32_t *b, size_t b_words, uint32_t *deals, size_t deals_words);

/* Hosts 1 and 2: as lamphiek_start and lamphiek_hear, word and count too; the end is order 97. Starting only writes the
 * state. Numbers 1, 12, 16, 17, then 5 to 7; hearing then 8, in a quarter that is left out too, 18, 9. */
lamphiek_answer lamphiek_day_start(lamphiek_state *state, uint32_t host, const uint32_t *table, size_t table_words,
                                   const uint32_t *shares, size_t shares_words, const uint32_t *calendar,
                                   size_t calendar_words, uint32_t weekday, const uint32_t *masks, size_t masks_words,
                                   const uint32_t *deals, size_t deals_words);
lamphiek_answer lamphiek_day_hear(lamphiek_state *state, uint32_t host, const uint32_t *table, size_t table_words,
                                  const uint32_t *shares, size_t shares_words, const uint32_t *calendar,
                                  size_t calendar_words, uint32_t weekday, const uint32_t *masks, size_t masks_words,
                                  const uint32_t *deals, size_t deals_words, uint32_t heard);

#undef LAMPHIEK_ASSERT
#ifdef __cplusplus
}
#endif
#endif
