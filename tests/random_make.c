/* What the random test draws and lends. */
#define _DEFAULT_SOURCE
#include "random.h"
#include <stdio.h>
#include <stdlib.h>
#include <string.h>
#include <sys/mman.h>
#include <unistd.h>

/* ---- the generator: splitmix64 */

static uint64_t stream;

void seed(uint64_t s) { stream = s; }

uint32_t draw(void)
{
    uint64_t z = stream += 0x9e3779b97f4a7c15u;
    z = (z ^ z >> 30) * 0xbf58476d1ce4e5b9u;
    z = (z ^ z >> 27) * 0x94d049bb133111ebu;
    return (uint32_t)((z ^ z >> 31) >> 32);
}

uint32_t below(uint32_t n) { return (uint32_t)((uint64_t)draw() * n >> 32); }
bool chance(uint32_t percent) { return below(100) < percent; }
uint32_t one_of(const uint32_t *from, size_t n) { return from[below((uint32_t)n)]; }
#define ONE_OF(...) \
    one_of((const uint32_t[]){__VA_ARGS__}, sizeof((const uint32_t[]){__VA_ARGS__}) / sizeof(uint32_t))

/* ---- rooms */

/* The most words of each: the needs of a day on 16 rows, which are more than any job's, and some more. */
static const size_t MOST[ROOMS] = {JOB_MOST,   TABLE_MOST,    JOB_MOST,      TABLE_MOST, 41593 + 16,
                                   20748 + 16, TEXT_MOST / 4, DAY_MOST,      DAY_MOST,   DAY_MOST,
                                   DAY_MOST,   CALENDAR_MOST, CALENDAR_MOST, 20845 + 16, 20845 + 16};

static struct {
    struct words all;
    uint32_t *copy; /* what is remembered: the last list lent, at its place in the room */
    size_t from, n;
} rooms[ROOMS];

void open_rooms(void)
{
    size_t page = (size_t)sysconf(_SC_PAGESIZE);
    for (int r = 0; r < ROOMS; r++) {
        size_t bytes = (MOST[r] * sizeof(uint32_t) + page - 1) / page * page;
        char *at = mmap(NULL, bytes + 2 * page, PROT_NONE, MAP_PRIVATE | MAP_ANONYMOUS, -1, 0);
        rooms[r].copy = malloc(bytes);
        if (at == MAP_FAILED || mprotect(at + page, bytes, PROT_READ | PROT_WRITE) || !rooms[r].copy) {
            perror("random");
            exit(2);
        }
        rooms[r].all = (struct words){(uint32_t *)(void *)(at + page), bytes / sizeof(uint32_t)};
        for (size_t i = 0; i < rooms[r].all.n; i++)
            rooms[r].all.at[i] = draw();
    }
}

void remember(enum room room)
{
    if (rooms[room].n)
        memcpy(rooms[room].copy, rooms[room].all.at + rooms[room].from, rooms[room].n * sizeof(uint32_t));
}

bool unchanged(enum room room)
{
    const uint32_t *list = rooms[room].all.at + rooms[room].from;
    return rooms[room].n == 0 || !memcmp(rooms[room].copy, list, rooms[room].n * sizeof(uint32_t));
}

struct words long_list(void)
{
    size_t n = ((size_t)1 << 32) + 4, page = (size_t)sysconf(_SC_PAGESIZE);
    size_t bytes = (n + LAMPHIEK_DAY_WORDS) * sizeof(uint32_t);
    uint32_t *at = mmap(NULL, bytes, PROT_READ, MAP_PRIVATE | MAP_ANONYMOUS | MAP_NORESERVE, -1, 0);
    if (at == MAP_FAILED || mprotect(at, page, PROT_READ | PROT_WRITE))
        return (struct words){NULL, 0};
    at[2] = 1; /* all others stay 0: add 0 1 0, and the rows (0, 0) (1, 0) */
    return (struct words){at, mprotect(at, page, PROT_READ) ? 0 : n};
}

void write_front(struct words all, const uint8_t *bytes, size_t n)
{
    size_t page = (size_t)sysconf(_SC_PAGESIZE);
    if (mprotect(all.at, page, PROT_READ | PROT_WRITE))
        fail("the list of 2^32 words cannot be written");
    memcpy(all.at, bytes, n);
    if (mprotect(all.at, page, PROT_READ))
        fail("the list of 2^32 words cannot be sealed");
}

struct words whole_room(enum room room) { return rooms[room].all; }

struct words lend(enum room room, const uint32_t *from, size_t n)
{
    struct words all = rooms[room].all;
    size_t first = chance(75) ? all.n - n : 0;
    rooms[room].from = first;
    rooms[room].n = n;
    if (n == 0)
        return (struct words){chance(50) ? NULL : all.at + all.n, 0};
    uint32_t *at = all.at + first;
    uint32_t same = n > 1000 || chance(90) ? 0 : ONE_OF(1, 2, 3); /* now and then one word all over a short list */
    for (size_t i = 0; i < n; i++)
        at[i] = from ? from[i] : same == 0 ? draw() : same == 1 ? 0 : same == 2 ? UINT32_MAX : 0x80000000u;
    remember(room);
    return (struct words){at, n};
}

/* ---- jobs */

/* B's column in document 01's table of costs: a row more or fewer is one ReLU more or fewer, and R-1 adds as many words
 * as one ReLU. */
uint32_t turns(const uint32_t *order, struct words table)
{
    static const uint32_t B[KINDS - 1] = {0, 0, 0, 0, 1, 1, 0, 1, 12, 12};
    uint32_t rows = (uint32_t)(table.n / 2);
    return order[0] < 10 ? B[order[0]] : 12 * rows + (order[3] ? 2 : 12) + 12;
}

static uint32_t make_constant(void)
{
    return chance(50) ? below(5000) : chance(50) ? 0 - below(5000) : ONE_OF(0, 1, UINT32_MAX, 1u << 31, draw());
}

static void make_order(uint32_t *o, uint32_t kind)
{
    o[0] = kind;
    o[1] = below(16);
    o[2] = below(16);
    switch (kind) {
    case 2: case 3: o[3] = make_constant(); break;
    case 5: case 9: o[3] = 0; break;
    case 6: case 8: o[3] = chance(70) ? 1 + below(31) : ONE_OF(1, 2, 30, 31); break;
    case 7: o[3] = chance(70) ? 1 + below(30) : ONE_OF(1, 2, 29, 30); break;
    case 10: o[3] = below(2); break;
    default: o[3] = below(16);
    }
}

size_t make_job(uint32_t *job, uint32_t orders, bool curves)
{
    for (uint32_t i = 0; i < orders; i++)
        make_order(job + 4 * i, below(curves ? KINDS : KINDS - 1));
    return 4 * orders;
}

/* One word of an order at an edge of what it may be, or past it. */
static void damage_order(uint32_t *o)
{
    uint32_t word = below(4);
    uint32_t any = draw(), most = UINT32_MAX;
    if (word == 0)
        o[0] = ONE_OF(10, 11, 12, 16, 255, 256, most, any);
    else if (word < 3)
        o[word] = ONE_OF(15, 16, 17, 31, 32, 256, 1u << 31, most, any);
    else
        o[3] = ONE_OF(0, 1, 2, 15, 16, 29, 30, 31, 32, 33, most, any);
}

/* A job of an accepted one's words: its size wrong, one word at an edge, two words in one order or in two (of which
 * the first counts), or junk. job has room for JOB_MOST words. */
size_t damage_job(uint32_t *job, size_t n)
{
    uint32_t orders = (uint32_t)(n / 4), first = below(orders);
    switch (below(10)) {
    case 0: case 1:
        while (n < JOB_MOST)
            n++, job[n - 1] = job[n - 5];
        return ONE_OF(0, 1, 3, 5, 252, 255, 256, 257, 260);
    case 2: case 3:
        damage_order(job + 4 * first);
        damage_order(job + 4 * first);
        return n;
    case 4:
        damage_order(job + 4 * first);
        damage_order(job + 4 * below(orders));
        return n;
    case 5:
        for (size_t i = 0; i < n; i++)
            job[i] = chance(99) ? below(12) : chance(90) ? below(18) : draw();
        return n;
    default:
        damage_order(job + 4 * first);
        return n;
    }
}

/* ---- tables */

static int rising(const void *x, const void *y)
{
    uint32_t a = *(const uint32_t *)x, b = *(const uint32_t *)y;
    return (a > b) - (a < b);
}

/* Counts spread, or one behind the other; values at random, falling too. */
size_t make_rows(uint32_t *table, uint32_t rows)
{
    uint32_t r[TABLE_MOST / 2], next = chance(50) ? 0 : below(4096 - rows + 1);
    bool close = chance(25), distinct = false;
    while (!distinct) {
        for (uint32_t i = 0; i < rows; i++)
            r[i] = close ? next + i : below(4096);
        if (!close && chance(30))
            r[0] = 0;
        if (!close && chance(30))
            r[rows - 1] = 4095;
        qsort(r, rows, sizeof *r, rising);
        distinct = true;
        for (uint32_t i = 1; i < rows; i++)
            distinct = distinct && r[i - 1] < r[i];
    }
    for (uint32_t i = 0; i < rows; i++) {
        table[2 * i] = r[i];
        table[2 * i + 1] = chance(70) ? below(20001) : ONE_OF(0, 1, 19999, 20000);
    }
    return 2 * rows;
}

size_t make_table(uint32_t *table)
{
    if (chance(25)) {
        both_house(table);
        return LAMPHIEK_HOUSE_WORDS;
    }
    return make_rows(table, chance(70) ? 2 + below(7) : ONE_OF(2, 3, 15, 16));
}

/* A table of an accepted one, one rule broken. */
size_t damage_table(uint32_t *table, size_t n)
{
    uint32_t rows = (uint32_t)(n / 2), row = below(rows), pair = 2 * below(rows - 1);
    switch (below(9)) {
    case 0: return chance(50) ? n - 1 : 1; /* an odd number of words */
    case 1: return 2;
    case 2: return make_rows(table, 17);
    case 3: table[pair + 2] = table[pair]; return n;
    case 4: table[pair + 2] = table[pair] - 1 < 4096 ? table[pair] - 1 : table[pair]; return n;
    case 5: table[n - 2] = ONE_OF(4096, 4097, UINT32_MAX); return n;
    case 6: table[2 * row + 1] = ONE_OF(20001, 20002, UINT32_MAX); return n;
    case 7: table[n - 1] = 20001; return n;
    default: return 0;
    }
}

/* ---- states and readings */

void make_registers(lamphiek_state *s)
{
    for (int i = 0; i < LAMPHIEK_LANE; i++) {
        s->m[i] = draw();
        s->mask[i] = draw();
    }
    s->order = chance(50) ? below(4) : draw();
    s->turn = chance(50) ? below(4) : draw();
    s->used_a = draw();
    s->used_b = draw();
    s->used_deals = draw();
}

/* A place on a job's way, the end, one off either, or anywhere. */
void forge_place(lamphiek_state *s, const struct lent *l)
{
    uint32_t orders = (uint32_t)(l->job.n / 4), most = UINT32_MAX, any = draw();
    switch (below(9)) {
    case 0: s->order++; break;
    case 1: s->order--; break;
    case 2: s->turn++; break;
    case 3: s->turn--; break;
    case 4: s->order = orders; s->turn = ONE_OF(0, 0, 1, most); break;
    case 5: s->order = orders + below(3); s->turn = below(2); break;
    case 6: s->order = ONE_OF(most, any, s->order); s->turn = ONE_OF(most, any, below(222)); break;
    default:
        s->order = below(orders + 1);
        s->turn = below(14);
        if (s->order < orders && l->job.at[4 * s->order] < KINDS) {
            uint32_t spoken = turns(l->job.at + 4 * s->order, l->table);
            s->turn = chance(60) ? below(spoken + 1) : ONE_OF(0, spoken, spoken - 1, spoken + 1);
        }
    }
}

int64_t make_reading(void)
{
    static const int64_t bound = (int64_t)1 << 30;
    uint64_t high = draw(), low = draw(); /* drawn one after the other, so that every compiler draws alike */
    switch (below(8)) {
    case 0: return -bound - below(2);
    case 1: return bound - below(2);
    case 2: return chance(50) ? INT64_MIN + below(2) : INT64_MAX - below(2);
    case 3: return (int64_t)(high << 32 | low);
    case 4: return (int64_t)(int32_t)low;
    case 5: return ((int64_t)(high % 5) - 2) * ((int64_t)1 << 32) + (int64_t)(low % 10000); /* in range modulo 2^32 */
    case 6: return (int64_t)below(5) - 2;
    default: return (int64_t)below(6000) - 500;
    }
}

int64_t make_count(struct words table)
{
    size_t row = chance(70) ? table.n / 2 - 1 : below((uint32_t)(table.n / 2));
    return (int64_t)table.at[2 * row] + below(3) - 1;
}

/* ---- what is lent */

static uint32_t make_orders(void) { return chance(60) ? 1 + below(3) : chance(80) ? 1 + below(12) : 1 + below(ORDERS); }

/* As many words as are needed, or some more. */
void lend_lists(struct lent *l, const lamphiek_counts *need)
{
    uint32_t more = chance(60) ? 0 : below(8);
    l->a = lend(ROOM_A, NULL, need->a + more);
    l->b = lend(ROOM_B, NULL, need->b + (chance(60) ? 0 : more));
    l->deals = lend(ROOM_DEALS, NULL, need->deals + (chance(60) ? 0 : more));
}

/* Long jobs seldom have curves, which would take most of the time. */
struct lent make_lent(bool damaged)
{
    uint32_t job[JOB_MOST], table[TABLE_MOST], orders = make_orders();
    struct lent l = {.a = {NULL, 0}};
    lamphiek_counts need;
    size_t n = make_job(job, orders, orders < 8 || chance(3)), rows = make_table(table);
    model_check(job, n, table, rows, &need);
    if (damaged && chance(50))
        n = damage_job(job, n);
    if (damaged && chance(20))
        rows = damage_table(table, rows);
    l.job = lend(ROOM_JOB, job, n);
    l.table = lend(ROOM_TABLE, table, rows);
    lend_lists(&l, &need);
    return l;
}

struct lent make_largest(void)
{
    uint32_t job[4 * ORDERS], table[TABLE_MOST];
    struct lent l = {.a = {NULL, 0}}; /* and no other list while it is checked */
    lamphiek_counts need;
    size_t rows;
    for (uint32_t i = 0; i < ORDERS; i++) {
        const uint32_t order[4] = {LAMPHIEK_CURVE, below(16), i % 16, LAMPHIEK_MODE_EXACT};
        memcpy(job + 4 * i, order, sizeof order);
    }
    do
        rows = make_table(table);
    while (rows != LAMPHIEK_TABLE_WORDS);
    l.job = lend(ROOM_JOB, job, 4 * ORDERS);
    l.table = lend(ROOM_TABLE, table, rows);
    if (both_check(&l, &need))
        fail("the largest job was refused");
    lend_lists(&l, &need);
    return l;
}

struct words cut(struct words w)
{
    if (w.n && chance(70))
        return (struct words){w.at, w.n - 1};
    return (struct words){NULL, 0};
}

struct lent cut_one(struct lent l)
{
    struct words *lists[3] = {&l.a, &l.b, &l.deals};
    struct words *w = lists[below(3)];
    *w = cut(*w);
    return l;
}

uint32_t make_host(void)
{
    static const uint32_t others[3] = {0, 3, UINT32_MAX};
    return chance(90) ? 1 + below(2) : one_of(others, 3);
}

struct host make_state(void)
{
    struct host h;
    make_registers(&h.library);
    h.model = h.library;
    return h;
}
