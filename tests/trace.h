/* The parts of the trace program: what a job or the day is lent and the calls on it (trace_work.c), whole runs
 * (trace_run.c), calls one by one (trace_call.c), lines and settings (trace.c). */
#ifndef TRACE_H
#define TRACE_H
#include "lamphiek.h"
#include <stdbool.h>

enum { LINE_BYTES = 4096, LINE_WORDS = LINE_BYTES / 2, ANY = LINE_WORDS };
enum { QUARTERS_MOST = LAMPHIEK_QUARTERS + 1 }; /* one more than a day has can be lent */
enum { WINDOWS_MOST = 16 };                     /* more than a calendar may have can be set */

/* What the lines so far have set. */
struct settings {
    uint32_t table[LINE_WORDS], offset;
    size_t table_words;
    uint32_t m[LAMPHIEK_REGISTERS], l1[LAMPHIEK_REGISTERS], l2[LAMPHIEK_REGISTERS];
    uint32_t day_lists[3][2 * QUARTERS_MOST]; /* hosts 0, 1, 2 */
    size_t quarters;
    uint32_t calendar[LAMPHIEK_CALENDAR_WORDS], weekday;
};
extern struct settings set;

/* A command's numbers: it gives 0 where one is outside its bounds. */
typedef int command(const uint32_t *words, size_t n);

/* ---- trace_work.c */

/* What cannot be, where the engine is right. */
void must(bool holds, const char *what);
/* A line: a name, and words behind it. */
void put(const char *name, const uint32_t *words, size_t n);
void put_refusal(lamphiek_answer r);
/* n words more in a fold. */
uint32_t fold(uint32_t f, const uint32_t *words, size_t n);
/* n words, 0 at first. */
uint32_t *list_of(size_t n);

/* A job, or the day where day is set, and the lists that its hosts are lent. */
struct work {
    bool day;
    const uint32_t *job;
    size_t job_words;
    uint32_t *a, *b, *deals;
    size_t a_words, b_words, deals_words;
};

/* Makes and frees the mask lists, of the lengths that are set in w. */
void make_masks(struct work *w);
void free_masks(struct work *w);

/* Host 0's preparation on its masks of the registers, starting on the host's words of them, hearing. */
lamphiek_answer work_prepare(const struct work *w, lamphiek_masks *masks);
lamphiek_answer work_start(const struct work *w, uint32_t host, lamphiek_state *state);
lamphiek_answer work_hear(const struct work *w, uint32_t host, lamphiek_state *state, uint32_t heard);

/* ---- the commands that call */

command do_run, do_day;                         /* trace_run.c */
command do_job, do_sheet, do_lend, do_place;    /* trace_call.c */
command do_prepare, do_start, do_hear, do_talk, do_state, do_unused, do_used, do_mark;
#endif
