/* Loading's numbers: 13, 14, 15, in this order. A text ends where a page ends, behind which nothing is read. */
#include "border.h"
#include <string.h>

enum { RECORDS_MOST = 20, TEXT_MOST = RECORDS_MOST * LAMPHIEK_RECORD_BYTES + 8 };

/* Records of these rows, and how many bytes they take. */
static size_t encode(uint8_t *text, const uint32_t (*rows)[2], size_t n)
{
    for (size_t i = 0; i < n; i++) {
        const uint32_t *row = rows[i];
        const uint8_t record[LAMPHIEK_RECORD_BYTES] = {195, 90, row[0] % 256, row[0] / 256, row[1] % 256, row[1] / 256};
        memcpy(text + i * sizeof record, record, sizeof record);
    }
    return n * LAMPHIEK_RECORD_BYTES;
}

/* The bytes at the end of a page; so many words hold them. */
static const uint8_t *text_fenced(const uint8_t *text, size_t n)
{
    uint32_t words[TEXT_MOST / 4 + 1] = {0};
    size_t room = (n + 3) / 4;
    memcpy((uint8_t *)words + (4 * room - n), text, n);
    return (const uint8_t *)fenced(words, room).at + (4 * room - n);
}

static void refuse_text(const uint8_t *text, size_t n, uint32_t number)
{
    IS(LOAD, lamphiek_load(text_fenced(text, n), n, WRITABLE(uint32_t, table)), number, 0);
}

static void refuse_rows(const uint32_t (*rows)[2], size_t n, uint32_t number)
{
    uint8_t text[TEXT_MOST];
    refuse_text(text, encode(text, rows, n), number);
}

/* A rising row for each record. */
static void make_rising(uint32_t (*rows)[2])
{
    for (uint32_t i = 0; i < RECORDS_MOST; i++)
        rows[i][0] = 100 * i, rows[i][1] = 7 * i;
}

/* 13 whatever the number of records and the rows are: a mark wrong in any record, past the sixteenth too, or the first
 * one to five bytes of one record more. */
static void refuse_records(void)
{
    static const uint8_t other[][2] = {{90, 195}, {195, 91}, {194, 90}, {195, 83}, {0, 0}, {255, 255}};
    uint32_t rows[RECORDS_MOST][2];
    uint8_t text[TEXT_MOST];
    make_rising(rows);
    for (size_t n = 0; n < RECORDS_MOST; n++) {
        rows[0][1] = n % 2 ? 20001 : 0; /* a row of every second is broken too */
        size_t bytes = n * LAMPHIEK_RECORD_BYTES;
        encode(text, rows, n + 1);
        for (size_t more = 1; more < LAMPHIEK_RECORD_BYTES; more++)
            refuse_text(text, bytes + more, LAMPHIEK_RECORD);
        for (size_t i = 0; i < n; i++) {
            memcpy(text + i * LAMPHIEK_RECORD_BYTES, other[(n + i) % 6], 2);
            refuse_text(text, bytes, LAMPHIEK_RECORD);
            encode(text, rows, n + 1);
        }
    }
}

/* 14 whatever the rows are, then 15: of the first row or the last, in range or rise. */
static void refuse_rows_of_texts(void)
{
    static const uint32_t tables[][2][2] = {{{5, 0}, {5, 0}},     {{6, 0}, {5, 0}},     {{0, 0}, {4096, 0}},
                                            {{4095, 0}, {4096, 0}}, {{0, 20001}, {1, 0}}, {{0, 0}, {1, 20001}},
                                            {{256, 0}, {1, 0}},   {{0, 0}, {65535, 65535}}};
    uint32_t rows[RECORDS_MOST][2];
    make_rising(rows);
    IS(LOAD, lamphiek_load(NULL, 0, WRITABLE(uint32_t, table)), LAMPHIEK_RECORD_COUNT, 0);
    refuse_rows(rows, 0, LAMPHIEK_RECORD_COUNT);
    refuse_rows(rows, 1, LAMPHIEK_RECORD_COUNT);
    for (size_t n = 17; n <= RECORDS_MOST; n++)
        refuse_rows(rows, n, LAMPHIEK_RECORD_COUNT);
    rows[0][1] = 20001;
    refuse_rows(rows, 1, LAMPHIEK_RECORD_COUNT);
    refuse_rows(rows, 17, LAMPHIEK_RECORD_COUNT);
    refuse_rows(rows, 16, LAMPHIEK_ROW);
    rows[0][1] = 0, rows[15][0] = rows[14][0];
    refuse_rows(rows, 16, LAMPHIEK_ROW);
    for (size_t i = 0; i < sizeof tables / sizeof *tables; i++)
        refuse_rows(tables[i], 2, LAMPHIEK_ROW);
}

void refuse_loads(void)
{
    refuse_records();
    refuse_rows_of_texts();
}

/* Texts that load, of 2 to 16 records: the words, zeros behind them, and a curve order takes them. */
void complete_loads(void)
{
    static const uint32_t order[4] = {LAMPHIEK_CURVE, 0, 0, LAMPHIEK_MODE_EXACT};
    uint32_t rows[RECORDS_MOST][2], table[LAMPHIEK_TABLE_WORDS + 2];
    uint8_t text[TEXT_MOST];
    make_rising(rows);
    for (uint32_t n = 2; n <= 16; n++) {
        lamphiek_counts counts = {0, 0, 0, 0};
        memset(table, 0xA5, sizeof table);
        size_t bytes = encode(text, rows, n);
        lamphiek_answer r = lamphiek_load(text_fenced(text, bytes), bytes, table + 1);
        EXPECT(r.number == 0 && r.index == 0 && r.count == 2 * n && r.word == 0);
        EXPECT(!memcmp(table + 1, rows, r.count * sizeof *table));
        for (size_t i = r.count; i < LAMPHIEK_TABLE_WORDS; i++)
            EXPECT(table[1 + i] == 0);
        EXPECT(table[0] == 0xA5A5A5A5u && table[LAMPHIEK_TABLE_WORDS + 1] == 0xA5A5A5A5u);
        EXPECT(lamphiek_check(order, 4, table + 1, r.count, &counts).number == 0 && counts.deals == 12 * n + 25);
    }
}
