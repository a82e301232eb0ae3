/* Each call on the library and on the model, with the same arguments.
 *
 * What is compared, where and why:
 *   - the answer, all of it, and every word that was lent to be written, with what lies around it: equal on both sides;
 *   - where a call is refused, also that all of that is as it was lent (unused masks: but for the number);
 *   - lists that are only read: as they were;
 *   - a state after starting or hearing: the registers, the place and the stored places, equal. The kept words are not
 *     compared: each side keeps what it needs in its own way, so each gets back its own (document 01 says nothing about
 *     how they lie). What they are worth is seen in the words spoken and the registers written later, which are
 *     compared;
 *   - where it is not refused, the stored places also with plain counting, and the count of words spoken with them;
 *   - a starting or hearing that is not refused is made once more on the library, the starting on other kept words,
 *     another place and other stored places, a day's on other registers too: all of the state as before, but for kept
 *     words at the end, which are free;
 *   - a hearing on forged kept words, the same on both sides: what depends on them is not compared. At a product or a
 *     refresh of its own (kinds 4, 5) that is nothing, so all is compared as above. Inside kinds 7 to 10 it is the word
 *     given, and the registers that the order's result reaches; number, index, count, place, stored places and the
 *     other registers are compared. In a day, whose quarters begin with what is lent, also the word that the next
 *     quarter begins with. */
#include "random_call.h"
#include <string.h>

/* ---- splitting, opening, checking */

uint32_t both_split(int64_t reading, uint32_t l1, uint32_t l2, lamphiek_shares *shares)
{
    call_begins(SPLIT, NULL);
    now.reading = reading;
    now.given = (lamphiek_shares){.host0 = {l1, l2}};
    lend_frames();
    now.answers[0].number = lamphiek_split(reading, l1, l2, &now.library.of.shares);
    now.answers[1].number = model_split(reading, l1, l2, &now.model.of.shares);
    *shares = now.library.of.shares;
    return written_alike();
}

uint32_t both_open(const lamphiek_shares *shares, int64_t *value)
{
    call_begins(OPEN, NULL);
    now.given = *shares;
    lend_frames();
    now.answers[0].number = lamphiek_open(&now.given, &now.library.of.value);
    same(!memcmp(&now.given, shares, sizeof now.given), "the shares were written");
    now.answers[1].number = model_open(&now.given, &now.model.of.value);
    *value = now.library.of.value;
    return written_alike();
}

uint32_t both_check(const struct lent *l, lamphiek_counts *counts)
{
    call_begins(CHECK, l);
    lend_frames();
    now.answers[0] = lamphiek_check(l->job.at, l->job.n, l->table.at, l->table.n, &now.library.of.counts);
    now.answers[1] = model_check(l->job.at, l->job.n, l->table.at, l->table.n, &now.model.of.counts);
    *counts = now.library.of.counts;
    return written_alike();
}

static void both_unused_of(enum call call, const struct lent *l, struct words list,
                           __typeof__(lamphiek_unused_a) *library, __typeof__(lamphiek_unused_a) *model)
{
    call_begins(call, l);
    lend_frames();
    size_t x = library(l->job.at, l->job.n, l->table.at, l->table.n, list.at, list.n, &now.library.of.number);
    size_t y = model(l->job.at, l->job.n, l->table.at, l->table.n, list.at, list.n, &now.model.of.number);
    now.answers[0] = (lamphiek_answer){now.library.of.number, 0, (uint32_t)x, 0};
    now.answers[1] = (lamphiek_answer){now.model.of.number, 0, (uint32_t)y, 0};
    same(x == y, "the unused parts differ");
    answered();
    same(same_frames(&now.library, &now.model), "what was written differs");
}

void both_unused(const struct lent *l)
{
    both_unused_of(UNUSED_A, l, l->a, lamphiek_unused_a, model_unused_a);
    both_unused_of(UNUSED_B, l, l->b, lamphiek_unused_b, model_unused_b);
}

lamphiek_answer both_load(const uint8_t *text, size_t bytes, uint32_t table[LAMPHIEK_TABLE_WORDS])
{
    call_begins(LOAD, NULL);
    now.text = text;
    now.text_bytes = bytes;
    lend_frames();
    now.answers[0] = lamphiek_load(text, bytes, now.library.of.table);
    now.answers[1] = model_load(text, bytes, now.model.of.table);
    memcpy(table, now.library.of.table, sizeof now.library.of.table);
    written_alike();
    return now.answers[0];
}

lamphiek_answer both_day_quarters(const struct lent *l, lamphiek_quarters *quarters)
{
    struct words c = l->calendar;
    call_begins(DAY_QUARTERS, l);
    lend_frames();
    now.answers[0] = lamphiek_day_quarters(c.at, c.n, l->weekday, &now.library.of.quarters);
    now.answers[1] = model_day_quarters(c.at, c.n, l->weekday, &now.model.of.quarters);
    *quarters = now.library.of.quarters;
    written_alike();
    return now.answers[0];
}

void both_house(uint32_t table[LAMPHIEK_HOUSE_WORDS])
{
    call_begins(HOUSE, NULL);
    lend_frames();
    lamphiek_house(now.library.of.house);
    model_house(now.model.of.house);
    memcpy(table, now.library.of.house, sizeof now.library.of.house);
    written_alike();
}

/* ---- the hosts */

/* The model's deal buffer lies in its room as the library's in its own, and all of both rooms holds the same words. */
static struct words model_buffer(struct words deals)
{
    struct words library = whole_room(ROOM_DEALS), model = whole_room(ROOM_DEALS_MODEL);
    memcpy(model.at, library.at, library.n * sizeof(uint32_t));
    return (struct words){deals.n ? model.at + (deals.at - library.at) : deals.at, deals.n};
}

static bool is_day(void) { return now.call == DAY_PREPARE || now.call == DAY_START || now.call == DAY_HEAR; }

/* The calls of one side, of a job and of a day. */
static const struct side {
    __typeof__(lamphiek_prepare) *prepare;
    __typeof__(lamphiek_start) *start;
    __typeof__(lamphiek_hear) *hear;
    __typeof__(lamphiek_day_prepare) *day_prepare;
    __typeof__(lamphiek_day_start) *day_start;
    __typeof__(lamphiek_day_hear) *day_hear;
} LIBRARY = {lamphiek_prepare,     lamphiek_start,     lamphiek_hear,
             lamphiek_day_prepare, lamphiek_day_start, lamphiek_day_hear},
  MODEL = {model_prepare, model_start, model_hear, model_day_prepare, model_day_start, model_day_hear};

static lamphiek_answer prepare_by(const struct side *by, lamphiek_masks *masks, const struct lent *l, struct words d)
{
    struct words shares = l->shares[0], hours = l->calendar;
    if (is_day())
        return by->day_prepare(masks, l->table.at, l->table.n, shares.at, shares.n, hours.at, hours.n, l->weekday,
                               l->a.at, l->a.n, l->b.at, l->b.n, d.at, d.n);
    return by->prepare(masks, l->job.at, l->job.n, l->table.at, l->table.n, l->a.at, l->a.n, l->b.at, l->b.n, d.at,
                       d.n);
}

static lamphiek_answer both_prepare_of(enum call call, lamphiek_masks *masks, const struct lent *l)
{
    struct words d = l->deals, other = model_buffer(d), room = whole_room(ROOM_DEALS);
    call_begins(call, l);
    now.before.of.masks = *masks;
    lend_frames();
    now.answers[0] = prepare_by(&LIBRARY, &now.library.of.masks, l, d);
    now.answers[1] = prepare_by(&MODEL, &now.model.of.masks, l, other);
    *masks = now.library.of.masks;
    uint32_t number = written_alike();
    same(!memcmp(room.at, whole_room(ROOM_DEALS_MODEL).at, room.n * sizeof(uint32_t)), "the deal buffers differ");
    same(number == 0 || unchanged(ROOM_DEALS), "deals written though refused");
    remember(ROOM_DEALS);
    return now.answers[0];
}

lamphiek_answer both_prepare(lamphiek_masks *masks, const struct lent *l) { return both_prepare_of(PREPARE, masks, l); }

lamphiek_answer both_day_prepare(lamphiek_masks *masks, const struct lent *l)
{
    return both_prepare_of(DAY_PREPARE, masks, l);
}

/* Whether the states agree in their place, in the stored places, and in the registers that are not among these (bit i
 * for register i). */
static bool same_states(const lamphiek_state *x, const lamphiek_state *y, uint32_t but)
{
    bool alike = x->order == y->order && x->turn == y->turn;
    alike = alike && holds(x, (struct used){y->used_a, y->used_b, y->used_deals});
    for (int i = 0; i < LAMPHIEK_REGISTERS; i++)
        alike = alike && (but >> i & 1 || (x->m[i] == y->m[i] && x->mask[i] == y->mask[i]));
    return alike;
}

static bool same_guards(void)
{
    const struct frame *b = &now.before;
    return !memcmp(now.library.before, b->before, sizeof b->before) &&
           !memcmp(now.library.after, b->after, sizeof b->after);
}

static struct words masks_of(uint32_t number, const struct lent *l) { return number == 2 ? l->b : l->a; }

static struct words shares_of(uint32_t number, const struct lent *l) { return l->shares[number == 2 ? 2 : 1]; }

static lamphiek_answer start_by(const struct side *by, lamphiek_state *s, const struct lent *l)
{
    struct words masks = masks_of(now.host, l), shares = shares_of(now.host, l), hours = l->calendar;
    if (is_day())
        return by->day_start(s, now.host, l->table.at, l->table.n, shares.at, shares.n, hours.at, hours.n, l->weekday,
                             masks.at, masks.n, l->deals.at, l->deals.n);
    return by->start(s, now.host, l->job.at, l->job.n, l->table.at, l->table.n, masks.at, masks.n, l->deals.at,
                     l->deals.n);
}

static lamphiek_answer hear_by(const struct side *by, lamphiek_state *s, const struct lent *l)
{
    struct words masks = masks_of(now.host, l), shares = shares_of(now.host, l), hours = l->calendar;
    if (is_day())
        return by->day_hear(s, now.host, l->table.at, l->table.n, shares.at, shares.n, hours.at, hours.n, l->weekday,
                            masks.at, masks.n, l->deals.at, l->deals.n, now.heard);
    return by->hear(s, now.host, l->job.at, l->job.n, l->table.at, l->table.n, masks.at, masks.n, l->deals.at,
                    l->deals.n, now.heard);
}

/* The library's call made once more, on its own words or, for a starting, on other kept words, another place and other
 * stored places, for a day's on other registers too: these make no difference, and nothing that is not lent does. */
static void again(const struct lent *l)
{
    lamphiek_state s = now.before.of.state, first = now.library.of.state;
    bool starts = now.call == START || now.call == DAY_START;
    bool ended = first.order == (is_day() ? LAMPHIEK_QUARTERS + 1 : l->job.n / 4);
    for (int i = is_day() ? 0 : LAMPHIEK_REGISTERS; i < LAMPHIEK_LANE && starts; i++)
        s.m[i] ^= 1u << i, s.mask[i] += 1;
    s.order += starts;
    s.turn -= starts;
    s.used_a -= starts, s.used_b ^= starts, s.used_deals += starts;
    lamphiek_answer r = starts ? start_by(&LIBRARY, &s, l) : hear_by(&LIBRARY, &s, l);
    same(!memcmp(&r, &now.answers[0], sizeof r), "made once more it answers otherwise");
    same(ended ? same_states(&s, &first, 0) : !memcmp(&s, &first, sizeof s), "made once more it writes otherwise");
}

/* What both have in common before the two sides are called, and behind. */
static void host_begins(enum call call, const struct host *h, uint32_t number, const struct lent *l, uint32_t heard)
{
    call_begins(call, l);
    now.host = number;
    now.heard = heard;
    now.before.of.state = h->library;
    lend_frames();
    now.model.of.state = h->model;
}

/* What a completed call left in the library's state, and how many words it says were spoken. */
static void used_by_counting(void)
{
    const lamphiek_state *s = &now.library.of.state;
    struct used u = (is_day() ? plain_day_used : plain_used)(now.lent, s->order, s->turn);
    same(holds(s, u), "the stored places are otherwise than by plain counting");
    same(now.answers[0].count == u.b, "the words spoken are not as many as the words of B stored");
}

/* but: registers that are not compared. */
static void host_ends(struct host *h, uint32_t but)
{
    bool refused = answered();
    if (!refused)
        used_by_counting();
    same(same_guards(), "written outside the state");
    same(!refused || same_frames(&now.library, &now.before), "written though refused");
    same(same_states(&now.library.of.state, &now.model.of.state, but), "the states differ");
    h->library = now.library.of.state;
    h->model = now.model.of.state;
}

static lamphiek_answer both_start_of(enum call call, struct host *h, uint32_t number, const struct lent *l)
{
    host_begins(call, h, number, l, 0);
    now.answers[0] = start_by(&LIBRARY, &now.library.of.state, l);
    now.answers[1] = start_by(&MODEL, &now.model.of.state, l);
    if (now.answers[0].number == 0)
        again(l);
    host_ends(h, 0);
    return now.answers[0];
}

lamphiek_answer both_start(struct host *h, uint32_t number, const struct lent *l)
{
    return both_start_of(START, h, number, l);
}

lamphiek_answer both_day_start(struct host *h, uint32_t number, const struct lent *l)
{
    return both_start_of(DAY_START, h, number, l);
}

/* The registers that what the order leaves in its target reaches until another place: the orders between speak
 * nothing, so they are of kinds 0 to 3 and 6. */
static uint32_t reached(struct words job, uint32_t order, uint32_t until)
{
    uint32_t set = order == until ? 0 : 1u << job.at[4 * order + 1];
    for (uint32_t i = order + 1; i < until; i++) {
        const uint32_t *o = job.at + 4 * i;
        bool in = set >> o[2] & 1 || (o[0] < 2 && set >> o[3] & 1);
        set = in ? set | 1u << o[1] : set & ~(1u << o[1]);
    }
    return set;
}

/* The same for a day: 0 and 1 as a quarter ends, 0 as the mean does. */
static uint32_t reached_day(uint32_t order, uint32_t until)
{
    return order == until ? 0 : order < LAMPHIEK_QUARTERS ? 3 : 1;
}

/* What is made of forged kept words: whether the word given is, and the registers that are. */
static bool forged_word(const struct lent *l, uint32_t order, uint32_t until)
{
    return is_day() ? order == until || until == LAMPHIEK_QUARTERS : l->job.at[4 * order] > LAMPHIEK_REFRESH;
}

static uint32_t forged_registers(const struct lent *l, uint32_t order, uint32_t until)
{
    if (is_day())
        return reached_day(order, until);
    return l->job.at[4 * order] > LAMPHIEK_REFRESH ? reached(l->job, order, until) : 0;
}

static lamphiek_answer both_hear_of(enum call call, struct host *h, uint32_t number, const struct lent *l,
                                    uint32_t heard, enum kept kept)
{
    uint32_t order = h->library.order, but = 0;
    host_begins(call, h, number, l, heard);
    now.answers[0] = hear_by(&LIBRARY, &now.library.of.state, l);
    now.answers[1] = hear_by(&MODEL, &now.model.of.state, l);
    lamphiek_answer answer = now.answers[0];
    uint32_t until = now.model.of.state.order;
    if (answer.number == 0)
        again(l);
    if (kept == FORGED && now.answers[1].number == 0) {
        if (forged_word(l, order, until))
            now.answers[0].word = now.answers[1].word;
        but = forged_registers(l, order, until);
    }
    host_ends(h, but);
    return answer;
}

lamphiek_answer both_hear(struct host *h, uint32_t number, const struct lent *l, uint32_t heard, enum kept kept)
{
    return both_hear_of(HEAR, h, number, l, heard, kept);
}

lamphiek_answer both_day_hear(struct host *h, uint32_t number, const struct lent *l, uint32_t heard, enum kept kept)
{
    return both_hear_of(DAY_HEAR, h, number, l, heard, kept);
}
