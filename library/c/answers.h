/* For tests: recorded questions, and all that the functions answer to one. */
#include <stdio.h>
#include <stdlib.h>
#include <string.h>
#include "lizsomdur.h"

enum { TOUR = LIZSOMDUR_TOUR, CALLS = LIZSOMDUR_CALLS, MARKS = 3 };

/* A sheet, and runs for the improvers: none, where the question is a sheet alone. */
struct question { const uint8_t *sheet, *calls, *ends; size_t sheet_length, count, runs; };

struct planned {
    uint32_t number;
    uint8_t served[TOUR], ends[TOUR], places[TOUR], dropped[TOUR];
    double starts[TOUR], totals[2];
    size_t counts[3], word;
};
struct marked { uint32_t number, verdict; double values[5]; size_t word; };
struct reversed { uint32_t number; uint8_t improved[CALLS]; double distance; size_t word; };
struct eliminated { uint32_t number; uint8_t calls[CALLS], ends[CALLS]; size_t counts[2], word; };
struct timed {
    uint32_t number;
    double times[3 * CALLS], figures[3 * LIZSOMDUR_VIOLATIONS], totals[5];
    uint64_t loads[2 * CALLS];
    uint8_t violations[LIZSOMDUR_VIOLATIONS];
    size_t counts[3], word;
};

/* What all functions return and leave; where a question is refused, or a list is longer than the answer, zeros stay. */
struct answers {
    struct planned plans[2];
    struct marked marks[2][MARKS];
    struct reversed reversed;
    struct eliminated eliminated;
    struct timed timed[2];
};

typedef uint32_t plan_function(const uint8_t *, size_t, uint8_t *, size_t, uint8_t *, size_t, uint8_t *, size_t, double *, size_t, uint8_t *, size_t,
                               size_t[3], double[2], size_t *);
typedef uint32_t mark_function(const uint8_t *, size_t, const uint8_t *, size_t, const uint8_t *, size_t, const uint8_t *, size_t,
                               size_t *, uint32_t *, double[5]);

static inline void ask_plan(plan_function *plan, const struct question *q, struct planned *p) {
    p->number = plan(q->sheet, q->sheet_length, p->served, TOUR, p->ends, TOUR, p->places, TOUR, p->starts, TOUR,
                     p->dropped, TOUR, p->counts, p->totals, &p->word);
}

/* The mark of some runs of the plan's calls. */
static inline void ask_mark(mark_function *mark, const struct question *q, const struct planned *p,
                            const uint8_t *ends, const uint8_t *places, size_t runs, struct marked *m) {
    m->number = mark(q->sheet, q->sheet_length, p->served, p->counts[0], ends, runs, places, runs, &m->word, &m->verdict, m->values);
}

static inline void ask_reverse(const struct question *q, struct reversed *r) {
    r->number = lizsomdur_reverse(q->sheet, q->sheet_length, q->calls, q->count, r->improved, CALLS, &r->word, &r->distance);
}

static inline void ask_eliminate(const struct question *q, struct eliminated *e) {
    e->number = lizsomdur_eliminate(q->sheet, q->sheet_length, q->calls, q->count, q->ends, q->runs, e->calls, CALLS, e->ends, CALLS,
                                    &e->word, e->counts);
}

/* The timeline of a run with its break at this place. */
static inline void ask_visits(const struct question *q, const uint8_t *run, size_t count, size_t place, struct timed *t) {
    t->number = lizsomdur_visits(q->sheet, q->sheet_length, run, count, place, t->times, 3 * CALLS, t->loads, 2 * CALLS,
                                 t->violations, LIZSOMDUR_VIOLATIONS, t->figures, 3 * LIZSOMDUR_VIOLATIONS, t->counts, t->totals, &t->word);
}

/* The marks of the plan, of its calls as one run, and of each of them as a run. */
static inline void ask_marks(mark_function *mark, const struct question *q, const struct planned *p, struct marked marks[MARKS]) {
    static const uint8_t no_breaks[TOUR];
    uint8_t singles[TOUR], one = (uint8_t)p->counts[0];
    for (uint8_t k = 0; k < TOUR; k++)
        singles[k] = (uint8_t)(k + 1);
    ask_mark(mark, q, p, p->ends, p->places, p->counts[1], &marks[0]);
    ask_mark(mark, q, p, &one, no_breaks, 1, &marks[1]);
    ask_mark(mark, q, p, singles, no_breaks, p->counts[0], &marks[2]);
}

/* Asks all functions. */
static inline void ask(const struct question *q, struct answers *a) {
    memset(a, 0, sizeof *a);
    ask_plan(lizsomdur_plan, q, &a->plans[0]);
    ask_plan(lizsomdur_plan_least, q, &a->plans[1]);
    ask_marks(lizsomdur_mark, q, &a->plans[0], a->marks[0]);
    ask_marks(lizsomdur_mark_least, q, &a->plans[0], a->marks[1]);
    ask_reverse(q, &a->reversed);
    ask_eliminate(q, &a->eliminated);
    ask_visits(q, q->calls, q->count, 0, &a->timed[0]);
    ask_visits(q, a->plans[0].served, a->plans[0].ends[0], a->plans[0].places[0], &a->timed[1]);
}

/* The questions that were read, with room for more than there are, and how many they are. */
enum { MOST = 4000 };
static struct question questions[MOST];
static size_t asked;

static inline void stop(const char *why) {
    printf("%s\n", why);
    exit(1);
}

/* The number of four bytes at the front, and the place behind them. */
static inline uint32_t length_at(const uint8_t **at) {
    const uint8_t *b = *at;
    *at += 4;
    return b[0] | (uint32_t)b[1] << 8 | (uint32_t)b[2] << 16 | (uint32_t)b[3] << 24;
}

/* Adds a recorded question: a sheet behind an s or l, or run ends, calls and a sheet behind an r; others are passed over. */
static inline void add(const uint8_t *at, size_t length) {
    const uint8_t *end = at + length, kind = *at++;
    struct question q = {at, at, at, 0, 0, 0};
    if (asked == MOST || (kind != 's' && kind != 'l' && kind != 'r'))
        return;
    if (kind == 'r') {
        q.runs = *at++;
        q.ends = at;
        at += q.runs;
        q.count = *at++;
        q.calls = at;
        at += q.count;
    }
    q.sheet = at;
    q.sheet_length = (size_t)(end - at);
    questions[asked++] = q;
}

/* Reads the recorded questions on standard input: for each its length, the question, the length of its answer, the answer. */
static inline void read_questions(void) {
    static uint8_t records[1 << 24];
    size_t length = fread(records, 1, sizeof records, stdin);
    const uint8_t *at = records;
    while (at < records + length) {
        uint32_t question = length_at(&at);
        add(at, question);
        at += question;
        uint32_t answer = length_at(&at);
        at += answer;
    }
    if (asked < 1200)
        stop("too few questions");
}
