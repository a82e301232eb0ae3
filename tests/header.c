/* include/lamphiek.h by itself, as C and as C++: each call stands in the library under its name and answers a case as
 * declared; the structs' fields lie where the calls read and write them. */
#include "lamphiek.h"

enum { DAY_A = 9337, DAY_B = 4620, DAY_DEALS = 4717 }; /* a day's needs on two rows */

static const uint32_t job[LAMPHIEK_ORDER_WORDS] = {LAMPHIEK_ADD, 1, 2, 3}, rows[4] = {1, 0, 2, 0};
static uint32_t shares[LAMPHIEK_DAY_WORDS], calendar[LAMPHIEK_CALENDAR_WORDS], masks_list[DAY_A], deals[DAY_DEALS];

#define HOURS calendar, LAMPHIEK_CALENDAR_WORDS, 6
#define DAY rows, 4, shares, LAMPHIEK_DAY_WORDS, HOURS

/* Weekday 6 has this one open window, and a cleaning window; the others have none. */
static void open_on_6(uint32_t from, uint32_t to)
{
    uint32_t *day = calendar + LAMPHIEK_WEEKDAY_WORDS * (LAMPHIEK_WEEKDAYS - 1);
    day[LAMPHIEK_OPEN_COUNT] = day[LAMPHIEK_CLEANING_COUNT] = 1;
    day[LAMPHIEK_OPEN_WINDOWS] = from, day[LAMPHIEK_OPEN_WINDOWS + 1] = to;
    day[LAMPHIEK_CLEANING_WINDOWS] = 60, day[LAMPHIEK_CLEANING_WINDOWS + 1] = LAMPHIEK_MINUTES;
}

static int bad_hours(void)
{
    lamphiek_quarters quarters = {{7, 7, 7}};
    lamphiek_answer r = lamphiek_day_quarters(HOURS, &quarters);
    int bad = r.number != LAMPHIEK_CLOSED || r.count != 0 || quarters.bits[0] != 7;
    bad |= LAMPHIEK_CALENDAR_WORDS != LAMPHIEK_WEEKDAYS * LAMPHIEK_WEEKDAY_WORDS;
    bad |= LAMPHIEK_CLEANING_WINDOWS != LAMPHIEK_OPEN_WINDOWS + 2 * LAMPHIEK_OPEN_MOST;
    bad |= LAMPHIEK_WEEKDAY_WORDS != LAMPHIEK_CLEANING_WINDOWS + 2 * LAMPHIEK_CLEANING_MOST;
    open_on_6(465, 990); /* quarters 31 to 65 */
    bad |= lamphiek_day_quarters(calendar, LAMPHIEK_CALENDAR_WORDS, 7, &quarters).number != LAMPHIEK_CALENDAR;
    bad |= lamphiek_day_quarters(NULL, 0, 6, &quarters).number != LAMPHIEK_CALENDAR || quarters.bits[2] != 7;
    r = lamphiek_day_quarters(HOURS, &quarters);
    bad |= r.number != LAMPHIEK_OK || r.index != 0 || r.count != 35 || r.word != 0;
    return bad | (quarters.bits[0] != 1u << 31 || quarters.bits[1] != UINT32_MAX || quarters.bits[2] != 3);
}

static int bad_day(void)
{
    lamphiek_masks masks = {{0}, {0}};
    lamphiek_state state = {{0}, {0}, 0, 0, 0, 0, 0};
    lamphiek_answer r;
    masks.l2[15] = state.m[0] = state.order = state.used_deals = 7;
    open_on_6(0, LAMPHIEK_MINUTES);
    r = lamphiek_day_prepare(&masks, DAY, masks_list, DAY_A, masks_list, DAY_B, deals, DAY_DEALS);
    int bad = r.number != LAMPHIEK_OK || r.count != DAY_DEALS || masks.l2[15] != 0;
    r = lamphiek_day_prepare(&masks, rows, 4, shares, 191, HOURS, masks_list, DAY_A, masks_list, DAY_B, deals,
                             DAY_DEALS);
    bad |= r.number != LAMPHIEK_DAY_LIST || LAMPHIEK_DAY_WORDS != 2 * LAMPHIEK_QUARTERS;
    r = lamphiek_day_start(&state, 2, DAY, masks_list, DAY_B, deals, DAY_DEALS);
    bad |= r.number != LAMPHIEK_OK || r.count != 1 || state.m[0] != 0 || state.order != 0 || state.turn != 0;
    r = lamphiek_day_hear(&state, 2, DAY, masks_list, DAY_B, deals, DAY_DEALS, 1);
    bad |= r.number != LAMPHIEK_OK || r.count != 2 || state.order != 0 || state.turn != 1;
    bad |= state.used_a != 4 || state.used_b != 2 || state.used_deals != 2;
    state.order = LAMPHIEK_QUARTERS + 1, state.turn = 0;
    bad |= lamphiek_day_hear(&state, 1, DAY, masks_list, DAY_A, NULL, 0, 1).number != LAMPHIEK_STORED;
    state.used_a = DAY_A, state.used_b = DAY_B, state.used_deals = DAY_DEALS;
    return bad | (lamphiek_day_hear(&state, 1, DAY, masks_list, DAY_A, NULL, 0, 1).number != LAMPHIEK_END);
}

/* Stored places of either host, by kind 7: two deals, and a product with a known value. */
static int bad_used(void)
{
    static const uint32_t one_bit[LAMPHIEK_ORDER_WORDS] = {LAMPHIEK_ONE_BIT, 0, 0, 3};
    lamphiek_state state = {{0}, {0}, 0, 0, 9, 9, 9};
    int bad = sizeof state != 212 || offsetof(lamphiek_state, turn) != 196;
    bad |= offsetof(lamphiek_state, used_a) != 200 || offsetof(lamphiek_state, used_b) != 204;
    bad |= offsetof(lamphiek_state, used_deals) != 208;
    for (uint32_t host = 1; host <= 2; host++) {
        bad |= lamphiek_start(&state, host, one_bit, 4, NULL, 0, masks_list, 3, deals, 2).number != LAMPHIEK_OK;
        bad |= state.order != 0 || state.used_a != 3 || state.used_b != 1 || state.used_deals != 2;
        state.used_deals = 1;
        bad |= lamphiek_hear(&state, host, one_bit, 4, NULL, 0, masks_list, 3, deals, 2, 1).number != LAMPHIEK_STORED;
        state.used_deals = 2;
        bad |= lamphiek_hear(&state, host, one_bit, 4, NULL, 0, masks_list, 3, deals, 2, 1).number != LAMPHIEK_OK;
        bad |= state.order != 1 || state.used_a != 3 || state.used_b != 1 || state.used_deals != 2;
    }
    return bad;
}

static int bad_load(void)
{
    static const uint8_t text[2 * LAMPHIEK_RECORD_BYTES] = {LAMPHIEK_MARK_1, LAMPHIEK_MARK_2, 200, 0, 0, 0,
                                                            LAMPHIEK_MARK_1, LAMPHIEK_MARK_2, 200, 1, 250, 0};
    uint32_t table[LAMPHIEK_TABLE_WORDS] = {7, 7, 7, 7, 7};
    int bad = lamphiek_load(text, 11, table).number != LAMPHIEK_RECORD || table[0] != 7;
    bad |= lamphiek_load(text, LAMPHIEK_RECORD_BYTES, table).number != LAMPHIEK_RECORD_COUNT || table[0] != 7;
    bad |= lamphiek_load(NULL, 0, table).number != LAMPHIEK_RECORD_COUNT;
    lamphiek_answer r = lamphiek_load(text, sizeof text, table);
    bad |= r.number != LAMPHIEK_OK || r.index != 0 || r.count != 4 || r.word != 0;
    return bad | (table[0] != 200 || table[1] != 0 || table[2] != 456 || table[3] != 250 || table[4] != 0);
}

int main(void)
{
    lamphiek_shares shares = {{0, 0}, {0, 0}, {0, 0}};
    lamphiek_counts counts = {1, 1, 1, 1};
    lamphiek_masks masks = {{0}, {0}};
    lamphiek_state state = {{0}, {0}, 0, 0, 0, 0, 0};
    uint32_t table[LAMPHIEK_HOUSE_WORDS] = {0}, number = LAMPHIEK_END;
    int64_t value = 0;
    lamphiek_house(table);
    int bad = table[0] != 200 || table[LAMPHIEK_HOUSE_WORDS - 1] != 4250;
    bad |= lamphiek_split(-5, 7, 9, &shares) != LAMPHIEK_OK || lamphiek_open(&shares, &value) != LAMPHIEK_OK;
    bad |= value != -5 || shares.host0.l1 != 7 || shares.host1.m != 11 || shares.host1.l != 7 || shares.host2.l != 9;
    bad |= lamphiek_check(job, LAMPHIEK_ORDER_WORDS, NULL, 0, &counts).number != LAMPHIEK_OK || counts.deals != 0;
    bad |= lamphiek_unused_a(job, LAMPHIEK_ORDER_WORDS, NULL, 0, table, 3, &number) != 3 || number != LAMPHIEK_OK;
    bad |= lamphiek_unused_b(job, 3, NULL, 0, table, 3, &number) != 3 || number != LAMPHIEK_JOB_SIZE;
    masks.l2[3] = 9;
    bad |= lamphiek_prepare(&masks, job, LAMPHIEK_ORDER_WORDS, NULL, 0, NULL, 0, NULL, 0, NULL, 0).number != 0;
    state.m[2] = 40, state.mask[3] = 2;
    bad |= lamphiek_start(&state, 1, job, LAMPHIEK_ORDER_WORDS, NULL, 0, NULL, 0, NULL, 0).number != LAMPHIEK_OK;
    bad |= masks.l2[1] != 9 || state.m[1] != 40 || state.mask[1] != 2 || state.order != 1 || state.turn != 0;
    bad |= lamphiek_hear(&state, 2, job, LAMPHIEK_ORDER_WORDS, NULL, 0, NULL, 0, NULL, 0, 1).number != LAMPHIEK_END;
    bad |= bad_hours(); /* on a calendar of zeros, which the day then writes */
    return bad | bad_day() | bad_used() | bad_load();
}
