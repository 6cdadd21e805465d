/* How much stack each function takes on the largest sheets: it is called in a thread whose stack was painted before, and what is no longer painted was
 * taken. Prints whether that and a fifth more is at most what lizsomdur.h says; with an argument, how many bytes it is.
 */
#define _XOPEN_SOURCE 700
#include <pthread.h>
#include "answers.h"

enum { PAINTED = 1 << 20, PAINT = 0xA5 };

static uint8_t sheet[4 * 8643];
static struct question question = {sheet, NULL, NULL, 0, CALLS, CALLS};
static struct answers answers;

static void write_word(uint32_t kind, uint32_t value) {
    for (int byte = 0; byte < 4; byte++)
        sheet[question.sheet_length++] = (uint8_t)((kind << 28 | value) >> (8 * byte));
}

static void write_customer(int pays) {
    write_word(7, 1);
    write_word(0, 1);
    write_word(8, 2);
    write_word(9, 10);
    write_word(0xA, 4000);
    if (pays)
        write_word(0xB, 1);
}

/* Everything that a sheet may have, with penalties or without: with them as many words as are accepted. */
static void write_sheet(int pays) {
    static const uint32_t head[][2] = {{1, TOUR + 1}, {2, 40}, {0, 30}, {3, 50}, {4, 9000}, {5, 9000}, {6, 100}, {6, 3000}, {6, 20}};
    const uint32_t legs = (TOUR + 1) * (TOUR + 1);
    question.sheet_length = 0;
    for (size_t k = 0; k < sizeof head / sizeof *head; k++)
        write_word(head[k][0], head[k][1]);
    for (int k = 0; k < TOUR; k++)
        write_customer(pays);
    for (uint32_t k = 0; k < legs; k++)
        write_word(0xC, 1 + k * 7919 % 101);
    for (uint32_t k = 0; k < legs; k++)
        write_word(0xD, 1 + k * 7919 % 31);
    for (uint32_t k = 0; k < TOUR; k++)
        write_word(0xE, 1 + k * 11 % TOUR);
    write_word(0xF, (uint32_t)(question.sheet_length / 4));
}

static uint32_t nothing(void) {
    return 0;
}

static uint32_t plan(void) {
    ask_plan(lizsomdur_plan, &question, &answers.plans[0]);
    return answers.plans[0].number;
}

static uint32_t plan_least(void) {
    ask_plan(lizsomdur_plan_least, &question, &answers.plans[1]);
    return answers.plans[1].number;
}

/* The mark of a plan that was made before. */
static uint32_t mark_of(mark_function *mark, const struct planned *p, struct marked *m) {
    ask_mark(mark, &question, p, p->ends, p->places, p->counts[1], m);
    return m->number;
}

static uint32_t mark(void) {
    return mark_of(lizsomdur_mark, &answers.plans[0], &answers.marks[0][0]);
}

static uint32_t mark_least(void) {
    return mark_of(lizsomdur_mark_least, &answers.plans[1], &answers.marks[1][0]);
}

static uint32_t reverse(void) {
    ask_reverse(&question, &answers.reversed);
    return answers.reversed.number;
}

static uint32_t eliminate(void) {
    ask_eliminate(&question, &answers.eliminated);
    return answers.eliminated.number;
}

static uint32_t visits(void) {
    static double times[3 * LIZSOMDUR_CALLS], figures[3 * LIZSOMDUR_VIOLATIONS], totals[5];
    static uint64_t loads[2 * LIZSOMDUR_CALLS];
    static uint8_t violations[LIZSOMDUR_VIOLATIONS];
    size_t counts[3], word;
    return lizsomdur_visits(question.sheet, question.sheet_length, question.calls, CALLS, CALLS, times, 3 * LIZSOMDUR_CALLS, loads, 2 * LIZSOMDUR_CALLS,
                            violations, LIZSOMDUR_VIOLATIONS, figures, 3 * LIZSOMDUR_VIOLATIONS, counts, totals, &word);
}

/* The improvers refuse a sheet with lateness pay. */
static const struct function { const char *name; uint32_t (*call)(void); size_t stack; uint32_t refusal; } FUNCTIONS[] = {
    {"lizsomdur_plan", plan, LIZSOMDUR_STACK_PLAN, 0},
    {"lizsomdur_plan_least", plan_least, LIZSOMDUR_STACK_PLAN_LEAST, 0},
    {"lizsomdur_mark", mark, LIZSOMDUR_STACK_MARK, 0},
    {"lizsomdur_mark_least", mark_least, LIZSOMDUR_STACK_MARK_LEAST, 0},
    {"lizsomdur_reverse", reverse, LIZSOMDUR_STACK_REVERSE, LIZSOMDUR_REFUSED_LATENESS_PAY},
    {"lizsomdur_eliminate", eliminate, LIZSOMDUR_STACK_ELIMINATE, LIZSOMDUR_REFUSED_LATENESS_PAY},
    {"lizsomdur_visits", visits, LIZSOMDUR_STACK_VISITS, 0},
};

static uint32_t (*called)(void);
static uint32_t returned;

static void *in_thread(void *unused) {
    returned = called();
    return unused;
}

/* How much of a thread's stack is taken for a call. */
static size_t taken(uint32_t (*function)(void)) {
    static uint8_t *stack;
    pthread_attr_t with_stack;
    pthread_t thread;
    size_t kept = 0;
    if (stack == NULL && posix_memalign((void **)&stack, 4096, PAINTED) != 0)
        stop("no memory");
    memset(stack, PAINT, PAINTED);
    called = function;
    pthread_attr_init(&with_stack);
    if (pthread_attr_setstack(&with_stack, stack, PAINTED) != 0 || pthread_create(&thread, &with_stack, in_thread, NULL) != 0)
        stop("no thread");
    pthread_join(thread, NULL);
    pthread_attr_destroy(&with_stack);
    while (kept < PAINTED && stack[kept] == PAINT)
        kept++;
    return PAINTED - kept;
}

static void tell(const struct function *function, int in_bytes) {
    size_t most = 0, of_thread = taken(nothing);
    for (int pays = 0; pays < 2; pays++) {
        size_t bytes;
        write_sheet(pays);
        plan();
        plan_least();
        bytes = taken(function->call) - of_thread;
        if (returned != (pays ? function->refusal : 0))
            stop("another refusal");
        most = bytes > most ? bytes : most;
    }
    if (in_bytes)
        printf("%s: %zu bytes\n", function->name, most);
    else
        printf("%s: %s, with a fifth more\n", function->name, most + most / 5 <= function->stack ? "within its stack" : "beyond its stack");
}

int main(int count, char **arguments) {
    static uint8_t calls[CALLS], ends[CALLS];
    (void)arguments;
    for (uint8_t k = 0; k < CALLS; k++) {
        calls[k] = (uint8_t)(1 + k * 11 % TOUR);
        ends[k] = (uint8_t)(k + 1);
    }
    question.calls = calls;
    question.ends = ends;
    for (size_t k = 0; k < sizeof FUNCTIONS / sizeof *FUNCTIONS; k++)
        tell(&FUNCTIONS[k], count > 1);
    return 0;
}
