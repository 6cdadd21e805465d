/* Calls all functions as lizsomdur.h declares them, on bench case q and on a sheet with everything that a sheet may have but a table of times, and
 * prints what they answer and each byte that they write beyond that: calls.expected says what that is.
 */
#include <stdio.h>
#include <string.h>
#include "lizsomdur.h"

#define LENGTH(list) (sizeof(list) / sizeof *(list))

/* Five customers: the third and the fourth ask for the one wheelchair place, the fifth has a window with a penalty. Its calls and its end are added by
 * `write_sheet`, and where it is wanted, the ford from the first to the fifth is closed.
 */
static const uint32_t START[] = {
    0x10000006, 0x20000004, 0x00000001, 0x30000003, 0x4000003C, 0x50000050, 0x60000018, 0x6000001E, 0x60000004,
    0x70000001, 0x80000001, 0x90000000, 0xA000000E,
    0x70000002, 0x80000000,
    0x70000001, 0x00000001, 0x80000014, 0x90000000, 0xA000001F,
    0x70000001, 0x00000001, 0x80000003,
    0x70000001, 0x80000001, 0x9000001A, 0xA000001B, 0xB0000005,
    0xC0000000, 0xC000000A, 0xC000000C, 0xC0000019, 0xC0000014, 0xC0000006,
    0xC000000A, 0xC0000000, 0xC0000005, 0xC0000010, 0xC000000F, 0xC0000009,
    0xC000000C, 0xC0000005, 0xC0000000, 0xC0000014, 0xC000001E, 0xC0000003,
    0xC0000019, 0xC0000010, 0xC0000014, 0xC0000000, 0xC0000014, 0xC0000014,
    0xC0000014, 0xC000000F, 0xC000001E, 0xC0000014, 0xC0000000, 0xC0000014,
    0xC0000006, 0xC0000009, 0xC0000003, 0xC0000014, 0xC0000014, 0xC0000000,
};

/* Bench case q: two calls and a break, and where the clock puts the break the bus is late at the first. */
static const uint32_t CASE_Q[] = {
    0x10000003, 0x20000004, 0x30000000, 0x60000000, 0x6000001E, 0x60000004,
    0x70000002, 0x80000000, 0x9000000C, 0xA000000D, 0xB0000005,
    0x70000002, 0x80000000,
    0xC0000000, 0xC000000A, 0xC000000C,
    0xC000000A, 0xC0000000, 0xC0000005,
    0xC000000C, 0xC0000005, 0xC0000000,
    0xE0000001, 0xE0000002, 0xF0000018,
};

/* The most calls that are used here, and the index of the word for the leg over the ford. */
enum { CALLS = 5, FORD = 39 };

/* What a sheet has beside the rest. */
enum { WINDOWS = 1, CLOSED = 2 };

/* What stands in every list of bytes before a call, which no answer has, and how many such bytes stand behind a list that is lent. */
enum { OLD = 0xAA, BEHIND = 8 };

/* The room of the improvers' lists: for one call more than they may be given. */
enum { ROOM = LIZSOMDUR_CALLS + 1 };

static uint8_t sheet[4 * (LENGTH(START) + CALLS + 1)];
static size_t sheet_length;

static void write_word(uint32_t word) {
    for (int byte = 0; byte < 4; byte++)
        sheet[sheet_length++] = (uint8_t)(word >> (8 * byte));
}

/* The sheet with these calls, with windows and penalty or without, and with the ford closed or open. */
static void write_sheet(const uint8_t *calls, size_t count, int has) {
    sheet_length = 0;
    for (size_t k = 0; k < LENGTH(START); k++)
        if (has & CLOSED && k == FORD)
            write_word(0xC0000000 | LIZSOMDUR_NO_ROAD);
        else if (has & WINDOWS || START[k] >> 28 < 9 || START[k] >> 28 > 0xB)
            write_word(START[k]);
    for (size_t k = 0; k < count; k++)
        write_word(0xE0000000 | calls[k]);
    write_word(0xF0000000 | (uint32_t)(sheet_length / 4));
}

static void print_list(const char *name, const uint8_t *list, size_t count) {
    printf("%s", name);
    for (size_t k = 0; k < count; k++)
        printf(" %u", (unsigned)list[k]);
    printf("\n");
}

/* Tells each byte of a list and behind it that is not as it was, beyond the count. */
static void look_behind(const char *name, const uint8_t *list, size_t count, size_t room) {
    for (size_t k = count; k < room; k++)
        if (list[k] != OLD)
            printf("  %s: byte %zu is written\n", name, k);
}

static void print_doubles(const char *name, const double *list, size_t count) {
    printf("%s", name);
    for (size_t k = 0; k < count; k++)
        printf(" %.0f", list[k]);
    printf("\n");
}

typedef uint32_t plan_function(const uint8_t *, size_t, uint8_t *, size_t, uint8_t *, size_t, uint8_t *, size_t, double *, size_t, uint8_t *, size_t,
                               size_t[3], double[2], size_t *);
typedef uint32_t mark_function(const uint8_t *, size_t, const uint8_t *, size_t, const uint8_t *, size_t, const uint8_t *, size_t,
                               size_t *, uint32_t *, double[5]);

/* The two functions for each way to place a break, and what is printed before their answers. */
static const struct placement { const char *name; plan_function *plan; mark_function *mark; } PLACEMENTS[] = {
    {"", lizsomdur_plan, lizsomdur_mark},
    {" least", lizsomdur_plan_least, lizsomdur_mark_least},
};

static void plan_by(const struct placement *placement) {
    enum { TOUR = LIZSOMDUR_TOUR, ALL = TOUR + BEHIND };
    uint8_t served[ALL], ends[ALL], places[ALL], dropped[ALL], *lists[] = {served, ends, places, dropped};
    size_t counts[3] = {0, 0, 0}, word = 99;
    double starts[TOUR], totals[2];
    for (size_t k = 0; k < LENGTH(lists); k++)
        memset(lists[k], OLD, ALL);
    uint32_t number = placement->plan(sheet, sheet_length, served, TOUR, ends, TOUR, places, TOUR, starts, TOUR, dropped, TOUR, counts, totals, &word);
    printf("plan%s: %u word %zu\n", placement->name, (unsigned)number, word);
    if (number == 0) {
        print_list("  served", served, counts[0]);
        print_list("  ends", ends, counts[1]);
        print_list("  break places", places, counts[1]);
        print_doubles("  break starts", starts, counts[1]);
        print_list("  dropped", dropped, counts[2]);
        print_doubles("  cost and distance", totals, 2);
    }
    look_behind("served", served, counts[0], ALL);
    look_behind("ends", ends, counts[1], ALL);
    look_behind("break places", places, counts[1], ALL);
    look_behind("dropped", dropped, counts[2], ALL);
}

static void plan(void) {
    for (size_t k = 0; k < LENGTH(PLACEMENTS); k++)
        plan_by(&PLACEMENTS[k]);
}

/* What the header calls a verdict, and how many values it says that one has. */
static const struct { uint32_t number; const char *name; size_t values; } VERDICTS[] = {
    {LIZSOMDUR_OTHER_CALLS, "other calls", 1},
    {LIZSOMDUR_OVERLOAD, "overload", 3},
    {LIZSOMDUR_BREAK_TOO_LATE, "break too late", 5},
    {LIZSOMDUR_WINDOW_MISSED, "window missed", 5},
    {LIZSOMDUR_BREAK_MISSING, "break missing", 3},
    {LIZSOMDUR_TOO_FAR, "too far", 3},
    {LIZSOMDUR_TOO_LONG, "too long", 3},
    {LIZSOMDUR_BEST, "best", 0},
    {LIZSOMDUR_DEARER, "dearer", 1},
    {LIZSOMDUR_CHEAPER, "cheaper", 1},
    {LIZSOMDUR_WHEELCHAIR_OVERLOAD, "wheelchair overload", 3},
    {LIZSOMDUR_ROAD_CLOSED, "road closed", 2},
};

static void print_verdict(uint32_t verdict, const double *values) {
    for (size_t k = 0; k < LENGTH(VERDICTS); k++)
        if (VERDICTS[k].number == verdict)
            print_doubles(VERDICTS[k].name, values, VERDICTS[k].values);
}

/* A tour, and a cutting of the same calls or, with `other` not 0, of that call in place of the first. `closed` is CLOSED or 0. */
struct cutting { uint8_t tour[CALLS], count, other, ends[CALLS], places[CALLS], runs; int closed; };

static const struct cutting CUTTINGS[] = {
    {{2, 1}, 2, 3, {2}, {0}, 1, 0},
    {{2, 4, 5, 3}, 4, 0, {4}, {1}, 1, 0},
    {{3, 4}, 2, 0, {2}, {1}, 1, 0},
    {{2, 4}, 2, 0, {2}, {2}, 1, 0},
    {{2, 1}, 2, 0, {1, 2}, {1, 1}, 2, 0},
    {{4}, 1, 0, {1}, {0}, 1, 0},
    {{2}, 1, 0, {1}, {0}, 1, 0},
    {{4, 2}, 2, 0, {2}, {1}, 1, 0},
    {{1, 3, 2}, 3, 0, {1, 3}, {0, 1}, 2, 0},
    {{1, 2}, 2, 0, {2}, {2}, 1, 0},
    {{1, 2}, 2, 0, {1, 2}, {0, 1}, 2, 0},
    {{5, 2}, 2, 0, {2}, {2}, 1, 0},
    {{1, 2}, 2, 0, {2}, {3}, 1, 0},
    {{1, 5}, 2, 0, {2}, {2}, 1, CLOSED},
    {{1, 5}, 2, 0, {1, 2}, {0, 1}, 2, CLOSED},
};

/* Both marks of some runs on the sheet as it stands. */
static void mark_runs(const uint8_t *calls, size_t count, const uint8_t *ends, const uint8_t *places, size_t runs) {
    for (size_t k = 0; k < LENGTH(PLACEMENTS); k++) {
        size_t word = 99;
        uint32_t verdict = 0;
        double values[5];
        uint32_t number = PLACEMENTS[k].mark(sheet, sheet_length, calls, count, ends, runs, places, runs, &word, &verdict, values);
        printf("mark%s: %u word %zu ", PLACEMENTS[k].name, (unsigned)number, word);
        if (number == 0)
            print_verdict(verdict, values);
        else
            printf("refused\n");
    }
}

static void mark(const struct cutting *cutting) {
    uint8_t calls[CALLS];
    memcpy(calls, cutting->tour, sizeof calls);
    if (cutting->other != 0)
        calls[0] = cutting->other;
    write_sheet(cutting->tour, cutting->count, WINDOWS | cutting->closed);
    mark_runs(calls, cutting->count, cutting->ends, cutting->places, cutting->runs);
}

static void reverse(const uint8_t *run, size_t count) {
    uint8_t improved[ROOM + BEHIND];
    size_t word = 99;
    double distance = 0;
    memset(improved, OLD, sizeof improved);
    uint32_t number = lizsomdur_reverse(sheet, sheet_length, run, count, improved, ROOM, &word, &distance);
    printf("reverse: %u word %zu\n", (unsigned)number, word);
    if (number == 0) {
        print_list("  improved", improved, count);
        print_doubles("  distance", &distance, 1);
    }
    look_behind("improved", improved, number == 0 ? count : 0, sizeof improved);
}

static void eliminate(const uint8_t *calls, size_t count, const uint8_t *ends, size_t runs) {
    uint8_t left_calls[ROOM + BEHIND], left_ends[ROOM + BEHIND];
    size_t counts[2] = {0, 0}, word = 99;
    memset(left_calls, OLD, sizeof left_calls);
    memset(left_ends, OLD, sizeof left_ends);
    uint32_t number = lizsomdur_eliminate(sheet, sheet_length, calls, count, ends, runs, left_calls, ROOM, left_ends, ROOM, &word, counts);
    printf("eliminate: %u word %zu\n", (unsigned)number, word);
    if (number == 0) {
        print_list("  calls", left_calls, counts[0]);
        print_list("  ends", left_ends, counts[1]);
    }
    look_behind("calls", left_calls, counts[0], sizeof left_calls);
    look_behind("ends", left_ends, counts[1], sizeof left_ends);
}

/* Both improvers on the sheet as it stands. */
static void improve(void) {
    const uint8_t run[] = {1, 4, 2}, calls[] = {1, 2, 5, 3}, ends[] = {1, 2, 3, 4};
    reverse(run, LENGTH(run));
    eliminate(calls, LENGTH(calls), ends, LENGTH(ends));
}

/* The timeline of a run with its break at this place, in lists with room for so many calls less than the longest run has. */
static void visits(const uint8_t *run, size_t count, size_t place, size_t less) {
    enum { CALLED = LIZSOMDUR_CALLS, BROKEN = LIZSOMDUR_VIOLATIONS };
    double times[3 * CALLED], figures[3 * BROKEN], totals[5];
    uint64_t loads[2 * CALLED];
    uint8_t numbers[BROKEN + BEHIND];
    size_t counts[3] = {0, 0, 0}, word = 99;
    memset(numbers, OLD, sizeof numbers);
    uint32_t number = lizsomdur_visits(sheet, sheet_length, run, count, place, times, 3 * (CALLED - less), loads, 2 * CALLED, numbers, BROKEN,
                                       figures, 3 * BROKEN, counts, totals, &word);
    print_list("visits of", run, count);
    printf("  with the break at %zu: %u word %zu\n", place, (unsigned)number, word);
    for (size_t k = 0; k < counts[0]; k++)
        printf("  call %u: there at %.0f, served from %.0f, left at %.0f, seats %u, wheelchairs %u\n", (unsigned)run[k], times[3 * k], times[3 * k + 1],
               times[3 * k + 2], (unsigned)loads[2 * k], (unsigned)loads[2 * k + 1]);
    if (number == 0) {
        print_doubles("  distance, duration, lateness, pay and break start", totals, 5);
        printf("  break taken at %zu\n", counts[2]);
    }
    for (size_t k = 0; k < counts[1]; k++)
        printf("  violation %u: %.0f %.0f %.0f\n", (unsigned)numbers[k], figures[3 * k], figures[3 * k + 1], figures[3 * k + 2]);
    look_behind("violations", numbers, counts[1], sizeof numbers);
}

/* Runs with their breaks at each call and at none, and beyond the last. */
static void timelines(void) {
    const uint8_t legal[] = {1, 5}, far[] = {4, 3, 2, 1, 5}, no_customer[] = {1, 6};
    for (size_t place = 0; place <= LENGTH(legal) + 1; place++)
        visits(legal, LENGTH(legal), place, 0);
    visits(far, LENGTH(far), 0, 0);
    visits(far, LENGTH(far), 1, 0);
    visits(far, LENGTH(far), 5, 0);
    visits(far, 0, 0, 0);
    visits(no_customer, LENGTH(no_customer), 0, 0);
    visits(legal, LENGTH(legal), 0, 1);
}

/* The calls 1 and 2 as one run, with a byte in place of the second, of the run's end or of its break place that may not stand there. Were only a part
 * of the byte read, some would be right.
 */
static void wrong_bytes(void) {
    const uint8_t calls[] = {1, 2}, end = 2, place = 0;
    const uint8_t no_customers[] = {0, 6, 64, 66, 130, 255}, no_ends[] = {1, 3, 66, 130, 255}, no_places[] = {3, 66, 130, 255};
    for (size_t k = 0; k < LENGTH(no_customers); k++) {
        const uint8_t wrong[] = {1, no_customers[k]};
        mark_runs(wrong, LENGTH(wrong), &end, &place, 1);
        reverse(wrong, LENGTH(wrong));
        eliminate(wrong, LENGTH(wrong), &end, 1);
    }
    for (size_t k = 0; k < LENGTH(no_ends); k++) {
        mark_runs(calls, LENGTH(calls), &no_ends[k], &place, 1);
        eliminate(calls, LENGTH(calls), &no_ends[k], 1);
    }
    for (size_t k = 0; k < LENGTH(no_places); k++)
        mark_runs(calls, LENGTH(calls), &end, &no_places[k], 1);
}

/* The most calls that there may be: as one run with its break at the last, and the same with one call more. */
static void longest(void) {
    uint8_t calls[LIZSOMDUR_CALLS + 1];
    for (size_t k = 0; k < LENGTH(calls); k++)
        calls[k] = (uint8_t)(1 + k % CALLS);
    for (uint8_t end = LIZSOMDUR_CALLS; end <= LIZSOMDUR_CALLS + 1; end++) {
        mark_runs(calls, end, &end, &end, 1);
        reverse(calls, end);
        eliminate(calls, end, &end, 1);
    }
}

/* The plans of case q, and the marks of its run with the break where each of them has it. */
static void case_q(void) {
    const uint8_t calls[] = {1, 2}, end = 2;
    sheet_length = 0;
    for (size_t k = 0; k < LENGTH(CASE_Q); k++)
        write_word(CASE_Q[k]);
    plan();
    for (uint8_t place = 1; place <= 2; place++)
        mark_runs(calls, LENGTH(calls), &end, &place, 1);
}

/* That the header says its version twice alike. */
static void version(void) {
    char numbers[32];
    snprintf(numbers, sizeof numbers, "%d.%d.%d", LIZSOMDUR_VERSION_MAJOR, LIZSOMDUR_VERSION_MINOR, LIZSOMDUR_VERSION_PATCH);
    printf("version: text and numbers %s\n", strcmp(numbers, LIZSOMDUR_VERSION) == 0 ? "agree" : "differ");
}

int main(void) {
    const uint8_t calls[] = {1, 5, 3, 4, 2};
    version();
    case_q();
    write_sheet(calls, LENGTH(calls), WINDOWS);
    plan();
    improve();
    timelines();
    for (size_t k = 0; k < LENGTH(CUTTINGS); k++)
        mark(&CUTTINGS[k]);
    write_sheet(calls, LENGTH(calls), 0);
    improve();
    wrong_bytes();
    longest();
    write_sheet(calls, LENGTH(calls), CLOSED);
    plan();
    improve();
    visits(calls, 2, 0, 0);
    sheet_length -= 4;
    plan();
    improve();
    return 0;
}
