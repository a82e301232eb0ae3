/* Loading at random: texts of tables, damaged or not. */
#include "random.h"
#include <string.h>

enum { RECORD = LAMPHIEK_RECORD_BYTES, RECORDS_MOST = 20 };

static size_t encode(uint8_t *text, const uint32_t *table, size_t words)
{
    size_t n = 0;
    for (size_t i = 0; i < words; i += 2) {
        text[n++] = LAMPHIEK_MARK_1;
        text[n++] = LAMPHIEK_MARK_2;
        for (size_t j = i; j < i + 2; j++) {
            text[n++] = (uint8_t)(table[j] % 256);
            text[n++] = (uint8_t)(table[j] / 256);
        }
    }
    return n;
}

/* Two bytes of a record, from this place in it on. */
static void put_number(uint8_t *text, size_t record, size_t at, uint32_t number)
{
    text[RECORD * record + at] = (uint8_t)(number % 256);
    text[RECORD * record + at + 1] = (uint8_t)(number / 256);
}

/* A text of a table's, changed: a bit, a mark, its length, the number of its records, a row at an edge or past it, two
 * rows in one another's place. text has room for TEXT_MOST bytes. */
static size_t damage_text(uint8_t *text, size_t n)
{
    static const uint32_t counts[] = {0, 4094, 4095, 4096, 255, 256, 65535}, values[] = {0, 19999, 20000, 20001, 65535};
    size_t records = n / RECORD, one = below((uint32_t)records), next = (one + 1) % records;
    uint8_t kept[RECORD];
    switch (below(9)) {
    case 0: text[below((uint32_t)n)] ^= (uint8_t)(1u << below(8)); return n;
    case 1: text[RECORD * one + below(2)] = (uint8_t)draw(); return n;
    case 2: return n - 1 - below(5);
    case 3: /* one to five bytes more */
        memcpy(text + n, text, RECORD);
        return n + 1 + below(5);
    case 4: return RECORD * below(3); /* fewer records */
    case 5: /* or more */
        for (; n < RECORD * RECORDS_MOST; n += RECORD)
            memcpy(text + n, text + n - RECORD, RECORD);
        if (chance(30)) /* one of those past the sixteenth without its mark */
            text[RECORD * (16 + below(4))] ^= 1;
        return RECORD * (chance(70) ? 17 + below(4) : 15 + below(3));
    case 6: put_number(text, one, 2, one_of(counts, 7)); return n;
    case 7: put_number(text, one, 4, one_of(values, 5)); return n;
    default:
        memcpy(kept, text + RECORD * one, RECORD);
        memcpy(text + RECORD * one, text + RECORD * next, RECORD);
        if (chance(50))
            memcpy(text + RECORD * next, kept, RECORD);
        return n;
    }
}

/* So many bytes that end or begin where their room does. */
static const uint8_t *lend_text(const uint8_t *text, size_t n)
{
    struct words w = lend(ROOM_TEXT, NULL, (n + 3) / 4), all = whole_room(ROOM_TEXT);
    if (w.n == 0)
        return (const uint8_t *)w.at;
    uint8_t *at = (uint8_t *)w.at + (w.at + w.n == all.at + all.n ? 4 * w.n - n : 0);
    memcpy(at, text, n);
    remember(ROOM_TEXT);
    return at;
}

void round_of_texts(void)
{
    static const uint32_t curve[4] = {LAMPHIEK_CURVE, 0, 0, LAMPHIEK_MODE_EXACT};
    uint32_t table[TABLE_MOST], loaded[LAMPHIEK_TABLE_WORDS];
    uint8_t text[TEXT_MOST], again[TEXT_MOST];
    size_t words = make_table(table), n = encode(text, table, words);
    bool damaged = chance(70);
    if (damaged)
        n = damage_text(text, n);
    lamphiek_answer r = both_load(lend_text(text, n), n, loaded);
    if (!damaged && (r.number || r.count != words || memcmp(loaded, table, words * sizeof *table)))
        fail("a table's text does not give it");
    if (r.number)
        return;
    struct lent l = {.job = lend(ROOM_JOB, curve, 4), .table = lend(ROOM_TABLE, loaded, r.count)};
    lamphiek_counts counts;
    if (both_check(&l, &counts))
        fail("a table that loads is refused");
    if (encode(again, loaded, r.count) != n || memcmp(again, text, n))
        fail("a text that loads is another than its table's");
}

/* A text of 2^32 bytes and twelve, of which the first twelve are the text of two rows, and all others 0. */
void round_of_long_text(struct words all)
{
    static const uint32_t rows[4] = {0, 0, 1, 0};
    uint8_t text[2 * RECORD];
    uint32_t table[LAMPHIEK_TABLE_WORDS];
    size_t n = encode(text, rows, 4);
    write_front(all, text, n);
    if (both_load((const uint8_t *)all.at, ((size_t)1 << 32) + n, table).number != LAMPHIEK_RECORD)
        fail("a text of 2^32 bytes and twelve");
}
