/* Lizsomdur, a route planner whose every answer is proved, as a static library for x86-64 Linux. From a sheet, which is a row of bytes,
 *
 *   lizsomdur_plan        cuts the calls into runs at least cost
 *   lizsomdur_mark        says what somebody's own cutting is worth beside that plan
 *   lizsomdur_plan_least  cuts them at least cost with drivers' breaks where the least is paid for being late
 *   lizsomdur_mark_least  says what somebody's own cutting is worth beside that one
 *   lizsomdur_reverse     shortens a run by another order of its calls
 *   lizsomdur_eliminate   does the same work with fewer runs
 *   lizsomdur_visits      tells when a run is where, what it carries and all that it violates
 *
 * ---- The sheet
 *
 * It is made of 32-bit words, little-endian. The top four bits of a word are its kind, the rest is its value. The kinds, in the order in which they
 * stand:
 *
 *   1 places, the depot among them (1 to 64)
 *   2 capacity: seats (to 1,000,000)                 0 second capacity: wheelchair places (the same range; may be left out: then it is 0)
 *   3 fixed cost of every run
 *   4 distance limit (may be left out)               5 duration limit (may be left out)
 *   6 break: earliest start, latest start, duration (three words, may be left out)
 *   for each customer, that is each place but the depot, from 1 on:
 *     7 demand: seats (to 32,767)                    0 second demand: wheelchair places (the same range; may be left out: then it is 0)
 *     8 service, the time that it takes
 *     9 ready and A due, the window (both may be left out)
 *     B penalty (to 1,000, may be left out)
 *   C distances, places times places                 D times, the same (may be left out: then a time is the distance)
 *   E calls: the customers to serve, in order (0 to 63 words, each from 1 to places - 1; none of them twice)
 *   F the end; its value is the number of words before it
 *
 * A number for which no range is given here goes from 0 to 10,000,000. No accepted sheet has more than 8,643 words, which are 34,572 bytes.
 *
 * Distances and times are tables by rows: the row is the place that a leg starts from, the column the one that it goes to, so that the leg stands at
 * entry from * places + to. Place 0 is the depot. There and back may differ. The diagonal is read only where a run goes from a place to itself, with
 * two calls in a row at one customer, as the runs given to a function may.
 *
 * A leg that can't be driven is closed: LIZSOMDUR_NO_ROAD (hexadecimal FFFFFFF) stands for it in the C word and, where there are D words, in the D
 * word too. Any leg may be closed, one way alone and the diagonal too.
 *
 * ---- Runs
 *
 * A run leaves the depot at time 0, serves one or more calls in order and comes home. Its distance is that of all its legs, the depot's too; its
 * duration is the time at which it is home. It is legal when it keeps to all of these; each bound itself is still allowed:
 *
 *   roads     none of its legs is closed
 *   load      the demands of its calls together are at most the capacity, and their second demands together at most the second capacity
 *   limits    its distance and its duration are at most their limits, where the sheet has them
 *   windows   before ready the bus waits. Service may begin until due. After that it is late: where the customer has no penalty, the run is illegal;
 *             where there is one, each unit of time above due costs that much. A penalty without a window does nothing.
 *   break     where the sheet has one, it is taken at one of the calls, on arrival or at earliest, whichever is later, and not after latest. Only when
 *             it has ended can the call be served. A run that is home before earliest needs no break; one that is home at earliest does.
 *
 * A sheet has lateness pay when some customer has both a window and a penalty, even a penalty of 0. What a run pays for being late is its lateness
 * pay. A run costs the fixed cost, its distance and its lateness pay, and a cutting as much as all its runs.
 *
 * Runs are given, and come back, in two lists: the calls of all runs one after the other, as numbers of customers, and for each run its end, which is
 * how many calls stand up to there. Calls 4 2 7 with ends 1 3 are the runs 4 and 2 7. A break place is the number of a call in its own run, from 1,
 * or 0 for no break.
 *
 * Customers, run ends, break places and positions are stored in one byte each, which is the number itself: 1 to 63 for a customer and for a position in
 * the sheet's calls, up to 128 for a run end and for a break place. So what one function has written another can be given as it is.
 *
 * ---- Where the break goes
 *
 * On a sheet with a break the planner chooses a break place for each run, in one of two ways:
 *
 *   by the clock   call by call: of a break taken before and one taken here it keeps that with which the bus is done with this call sooner, at a tie
 *                  that with less lateness pay, and else the one before
 *   by least pay   it tries each call, and no break where the run needs none, and takes the place with the least lateness pay among those with which
 *                  the run is legal, limits too; of equal pay the one with which it is home sooner, then no break, then the earlier call
 *
 * lizsomdur_plan and lizsomdur_mark go by the clock; lizsomdur_plan_least and lizsomdur_mark_least go by least pay, and are the same in everything
 * else.
 *
 * A run that is legal with some break place gets one by either way, so both drop the same calls. By least pay no cutting of the served calls into legal
 * runs costs less, whatever its break places are. By the clock that is so too, but for sheets with both a break and lateness pay: there the cost is the
 * least with breaks as the clock takes them. On a sheet without lateness pay both ways cost the same, with breaks that may be at different calls;
 * without a break both give the same.
 *
 * ---- Refusals
 *
 * Each function returns 0, or the number of a refusal, which has a name (LIZSOMDUR_REFUSED_..) below. What is said here of lizsomdur_plan and
 * lizsomdur_mark is true of lizsomdur_plan_least and lizsomdur_mark_least too. These are faults of the sheet:
 *
 *   11 a kind of word that may not stand here
 *    1 a number out of its range
 *   21 a customer that an earlier E word has called already; the later of the two words is the bad one
 *    2 ready above due, or earliest above latest; the second of the two words is the bad one
 *   22 a leg that is closed by distance and not by time, or the other way round; the D word is the bad one
 *    3 a wrong value in F, or something behind it, even one to three bytes, which make no whole word
 *   12 the words end before F; one to three bytes at the end are not looked at
 *
 * The first bad word is told, and of its faults the first in this list. `word` gets its index, from 0; for something behind F that is the index after
 * F's, and for 12 the number of whole words. These are faults of the lists:
 *
 *   13 a list too short: each that lizsomdur_plan writes needs room for 63; each that lizsomdur_visits writes, for a run of 128 calls, as is said there;
 *      each that the other functions write, as much as the given list of its kind; and lizsomdur_mark needs a break place for each run (what it is given
 *      beyond that is not read)
 *    1 more than 128 calls, or a call that is not from 1 to places - 1 (a byte from 64 to 255 never is)
 *    5 more than 128 run ends, one below the one before it, or a last one (without any: 0) that is not the number of calls (so none may be above that
 *      number); in lizsomdur_mark also a run without calls; there and in lizsomdur_visits a break place beyond its run, or one that is not 0 on a
 *      sheet without a break
 *    4 lateness pay on a sheet for lizsomdur_reverse or lizsomdur_eliminate
 *   23 a closed leg on a sheet for one of these two, whether the runs use it or not
 *
 * lizsomdur_plan and lizsomdur_visits test first whether their lists are long enough: with 13 they set `word` to 0, whatever the sheet is. All else is
 * tested after the sheet, in the order above, and so is 13 by the other functions; a fault of the lists leaves `word` as it was. On a refusal nothing
 * but `word` is written. When 0 is returned, `word` stays as it was, and nothing is written into a list beyond what the answer counts: each byte behind
 * that stays as it was.
 *
 * ---- Memory
 *
 * No pointer may be NULL, not even with a length of 0. Whatever a function writes, lists and single numbers, may overlap neither what it reads nor
 * anything else that it writes. All doubles hold whole numbers, exactly. The functions keep no state: they have no memory of their own that is
 * written, take none but the stack, and call nothing but memcpy, memset and the like.
 *
 *   threads   Any number of threads may call them at once, on the same sheet and lists too, as long as none writes what another reads or writes.
 *   signals   A signal handler may call them, also where the signal came in the middle of a call, with memory of its own for what is written. A call
 *             that is left for good (longjmp) may have written some of its answer.
 *   stack     Each function takes at most as much as LIZSOMDUR_STACK_PLAN and so on say below, in bytes. That is what its code takes on the deepest of its
 *             ways, which the largest sheets go, and at least a fifth more: none calls itself, and none takes an amount that depends on what it is given.
 *             A stack of 512 kB is enough for each, in a thread and for a signal handler, there beside what the system puts on it.
 *   rounding  The answers are proved for rounding to nearest, with which a program starts. With each other rounding mode they are the same, and so
 *             they are where the processor takes tiny numbers for zero: every sum is a whole number below 2^53, which needs no rounding, and all that
 *             is rounded is a threshold far below 1 that whole numbers are held to. No function changes a mode. One may raise floating-point flags
 *             (inexact, invalid) and clears none, so exceptions have to stay masked, as they are where no one has called feenableexcept or the like.
 *
 * ---- Time
 *
 * Each function ends, whatever it is given. How long that takes depends on the sheet and the runs; no proof speaks of it. These are the longest calls
 * that a search has found, in milliseconds on one core of an Intel Xeon at 2.3 GHz. A call that comes once may take twice as long, until the
 * processor's caches have it.
 *
 *   lizsomdur_plan       0.42      lizsomdur_plan_least     2.5
 *   lizsomdur_mark       0.44      lizsomdur_mark_least     2.5
 *   lizsomdur_eliminate    30      lizsomdur_reverse       2200
 *   lizsomdur_visits     0.12
 *
 * That of lizsomdur_reverse is for a run that was made so that the function goes over it 500 times and tries nearly every reversal each time. Of the
 * other runs that the search came by none took more than 4. But the function goes on as long as a reversal shortens the run: whoever takes runs from
 * strangers should call it where it can be waited for. docs/BENCHMARKS.md says how the search goes; benchmarks/worst has the sheets and runs.
 *
 * ---- Version
 *
 * LIZSOMDUR_VERSION is that of this header. Its first number changes where a program that calls the library has to be changed, the second where
 * something is added, the third with everything else; docs/CHANGELOG.md says what is new in each.
 *
 * The first number is part of every name in the archive: lizsomdur_plan is linked as lizsomdur_3_plan where that number is 3. So a program that was
 * compiled with the header of another major version does not link. In a program's source, and on this page, the names are the plain ones.
 */
#ifndef LIZSOMDUR_H
#define LIZSOMDUR_H

#include <stddef.h>
#include <stdint.h>

#ifdef __cplusplus
extern "C" {
#endif

/* The version of this header: its numbers, and the same as text, with dots. */
#define LIZSOMDUR_VERSION_MAJOR 3
#define LIZSOMDUR_VERSION_MINOR 0
#define LIZSOMDUR_VERSION_PATCH 0
#define LIZSOMDUR_VERSION LIZSOMDUR_DOTTED(LIZSOMDUR_VERSION_MAJOR, LIZSOMDUR_VERSION_MINOR, LIZSOMDUR_VERSION_PATCH)

/* The numbers themselves have to be put in before they are made text or part of a name, hence two macros for each. */
#define LIZSOMDUR_DOTTED(major, minor, patch) LIZSOMDUR_DOTTED_NUMBERS(major, minor, patch)
#define LIZSOMDUR_DOTTED_NUMBERS(major, minor, patch) #major "." #minor "." #patch
#define LIZSOMDUR_LINKED(major, rest) LIZSOMDUR_LINKED_NUMBER(major, rest)
#define LIZSOMDUR_LINKED_NUMBER(major, rest) lizsomdur_##major##rest

/* The names by which the functions are linked. */
#define lizsomdur_plan LIZSOMDUR_LINKED(LIZSOMDUR_VERSION_MAJOR, _plan)
#define lizsomdur_plan_least LIZSOMDUR_LINKED(LIZSOMDUR_VERSION_MAJOR, _plan_least)
#define lizsomdur_mark LIZSOMDUR_LINKED(LIZSOMDUR_VERSION_MAJOR, _mark)
#define lizsomdur_mark_least LIZSOMDUR_LINKED(LIZSOMDUR_VERSION_MAJOR, _mark_least)
#define lizsomdur_reverse LIZSOMDUR_LINKED(LIZSOMDUR_VERSION_MAJOR, _reverse)
#define lizsomdur_eliminate LIZSOMDUR_LINKED(LIZSOMDUR_VERSION_MAJOR, _eliminate)
#define lizsomdur_visits LIZSOMDUR_LINKED(LIZSOMDUR_VERSION_MAJOR, _visits)

/* The most calls that a sheet has, and so the most runs of its plan: the room that each list of lizsomdur_plan needs. */
#define LIZSOMDUR_TOUR 63

/* The most calls, and the most runs, that a function is given. */
#define LIZSOMDUR_CALLS 128

/* The most violations of a run: one for each call, and four besides. */
#define LIZSOMDUR_VIOLATIONS (LIZSOMDUR_CALLS + 4)

/* The value of the C and D words of a leg that can't be driven. */
#define LIZSOMDUR_NO_ROAD 0x0FFFFFFF

/* The stack that each function takes at most, in bytes, and what is measured. */
#define LIZSOMDUR_STACK_PLAN 130000       /* 102,522 */
#define LIZSOMDUR_STACK_PLAN_LEAST 130000 /* 102,536 */
#define LIZSOMDUR_STACK_MARK 120000       /* 95,338 */
#define LIZSOMDUR_STACK_MARK_LEAST 120000 /* 95,352 */
#define LIZSOMDUR_STACK_REVERSE 120000    /* 94,392 */
#define LIZSOMDUR_STACK_ELIMINATE 135000  /* 106,360 */
#define LIZSOMDUR_STACK_VISITS 170000     /* 135,064 */

/* What a function returns in place of 0: the refusals by number, as told above. */
enum {
    LIZSOMDUR_REFUSED_OUT_OF_RANGE = 1,       /* a number out of range, more than 128 calls, or a call that is no customer */
    LIZSOMDUR_REFUSED_OUT_OF_ORDER = 2,       /* ready above due, or earliest above latest */
    LIZSOMDUR_REFUSED_WRONG_END = 3,          /* F counts wrongly, or something stands behind it */
    LIZSOMDUR_REFUSED_LATENESS_PAY = 4,       /* lateness pay, on a sheet for an improver */
    LIZSOMDUR_REFUSED_WRONG_RUNS = 5,         /* run ends that fall or miss the number of calls, or in a mark an empty run or a wrong break place */
    LIZSOMDUR_REFUSED_WRONG_KIND = 11,        /* a kind that may not stand here */
    LIZSOMDUR_REFUSED_NO_END = 12,            /* the words end before F */
    LIZSOMDUR_REFUSED_LIST_TOO_SHORT = 13,    /* a lent list too short */
    LIZSOMDUR_REFUSED_REPEATED_CUSTOMER = 21, /* a repeated customer, whom an earlier E word has called */
    LIZSOMDUR_REFUSED_CLOSURES_DIFFER = 22,   /* distance and time disagree on closure */
    LIZSOMDUR_REFUSED_CLOSED_LEG = 23         /* a closed leg, on a sheet for an improver */
};

/* Cuts the sheet's calls into legal runs, in their order, at least cost, with breaks by the clock.
 *
 * Not all calls can always be served. While some beginning of the calls that are left (the first, the first two, and so on) can't be cut into legal
 * runs, the last call of the shortest such beginning is dropped. So a call may be dropped that could be served together with later ones.
 *
 * Of cuttings that cost the same, it gives the one whose last run begins the earliest, then the run before that, and so on.
 *
 * served        the customers served, in order
 * run_ends      the end of each run
 * break_places  the break place of each run
 * break_starts  when that break starts, or 0
 * dropped       the positions, from 1, of the dropped calls among those of the sheet, in the order in which they are dropped
 * counts        how many calls are served, runs made and calls dropped
 * totals        cost and distance
 */
uint32_t lizsomdur_plan(const uint8_t *sheet, size_t sheet_length,
                        uint8_t *served, size_t served_length,
                        uint8_t *run_ends, size_t run_ends_length,
                        uint8_t *break_places, size_t break_places_length,
                        double *break_starts, size_t break_starts_length,
                        uint8_t *dropped, size_t dropped_length,
                        size_t counts[3], double totals[2], size_t *word);

/* The same with breaks by least pay. */
uint32_t lizsomdur_plan_least(const uint8_t *sheet, size_t sheet_length,
                              uint8_t *served, size_t served_length,
                              uint8_t *run_ends, size_t run_ends_length,
                              uint8_t *break_places, size_t break_places_length,
                              double *break_starts, size_t break_starts_length,
                              uint8_t *dropped, size_t dropped_length,
                              size_t counts[3], double totals[2], size_t *word);

/* Verdicts, and the values that each has. Runs, places and positions are numbered from 1. */
enum {
    LIZSOMDUR_OTHER_CALLS = 1,          /* position: where the calls first differ from those that the planner serves, or the first of the two ends */
    LIZSOMDUR_OVERLOAD = 2,             /* run, load, capacity */
    LIZSOMDUR_BREAK_TOO_LATE = 3,       /* run, place in it, customer, start, latest */
    LIZSOMDUR_WINDOW_MISSED = 4,        /* run, place in it, customer, when the bus is ready to serve, due */
    LIZSOMDUR_BREAK_MISSING = 5,        /* run, duration, earliest */
    LIZSOMDUR_TOO_FAR = 6,              /* run, distance, limit */
    LIZSOMDUR_TOO_LONG = 7,             /* run, duration, limit */
    LIZSOMDUR_BEST = 8,                 /* none: as cheap as the planner's */
    LIZSOMDUR_DEARER = 9,               /* by how much */
    LIZSOMDUR_CHEAPER = 10,             /* by how much: only where the sheet has both lateness pay and a break, and never by lizsomdur_mark_least */
    LIZSOMDUR_WHEELCHAIR_OVERLOAD = 11, /* run, second load, second capacity: its load is at most the capacity */
    LIZSOMDUR_ROAD_CLOSED = 12          /* run, number of the leg in it: 1 leaves the depot; nothing else is looked at in that run */
};

/* Marks a cutting of the sheet's calls against that of lizsomdur_plan. `places` has the break place of each run; a break may also be taken where none is
 * needed.
 *
 * The calls come first: they have to be those that the planner serves. Then the first run with a fault is told, and of its faults the first of closed
 * leg, load, second load, break and window of one call after the other, missing break, distance, duration. Where there is none, the costs are compared.
 *
 * verdict       its number
 * values        its values; those behind them stay as they were
 */
uint32_t lizsomdur_mark(const uint8_t *sheet, size_t sheet_length,
                        const uint8_t *calls, size_t calls_length,
                        const uint8_t *ends, size_t ends_length,
                        const uint8_t *places, size_t places_length,
                        size_t *word, uint32_t *verdict, double values[5]);

/* The same against the cutting of lizsomdur_plan_least. The verdict is never LIZSOMDUR_CHEAPER. */
uint32_t lizsomdur_mark_least(const uint8_t *sheet, size_t sheet_length,
                              const uint8_t *calls, size_t calls_length,
                              const uint8_t *ends, size_t ends_length,
                              const uint8_t *places, size_t places_length,
                              size_t *word, uint32_t *verdict, double values[5]);

/* Shortens one run: turns stretches of its calls around, as long as one is found that lowers the distance and makes a run that keeps windows, limits
 * and break. Neither load is looked at, nor are the sheet's own calls. A run that is not legal is taken too.
 *
 * improved      the calls, as many as the run has
 * distance      that of the run so made; 0 for a run without calls
 */
uint32_t lizsomdur_reverse(const uint8_t *sheet, size_t sheet_length,
                           const uint8_t *run, size_t run_length,
                           uint8_t *improved, size_t improved_length,
                           size_t *word, double *distance);

/* Empties runs: puts all calls of a run into the others, as long as one is found for which that lowers the cost and where each run that takes a call
 * keeps both loads, windows, limits and break. The sheet's own calls are not looked at. Runs without calls are taken, and left out of the answer.
 *
 * left_calls    the calls of the runs that are left, as many as were given
 * left_ends     the end of each
 * counts        how many calls and runs these are
 */
uint32_t lizsomdur_eliminate(const uint8_t *sheet, size_t sheet_length,
                             const uint8_t *calls, size_t calls_length,
                             const uint8_t *ends, size_t ends_length,
                             uint8_t *left_calls, size_t left_calls_length,
                             uint8_t *left_ends, size_t left_ends_length,
                             size_t *word, size_t counts[2]);

/* Violations, and the figures that each has. */
enum {
    LIZSOMDUR_VIOLATION_WINDOW = 1,      /* customer, when the bus is ready to serve, due: after due, where the customer has no penalty */
    LIZSOMDUR_VIOLATION_BREAK = 2,       /* none: the run needs its break and does not take it; told only where no window is violated */
    LIZSOMDUR_VIOLATION_LOAD = 3,        /* load, capacity */
    LIZSOMDUR_VIOLATION_DISTANCE = 4,    /* distance, limit */
    LIZSOMDUR_VIOLATION_DURATION = 5,    /* duration, limit */
    LIZSOMDUR_VIOLATION_WHEELCHAIRS = 6, /* second load, second capacity */
    LIZSOMDUR_VIOLATION_CLOSED_LEG = 7   /* number of the first closed leg: 1 leaves the depot; nothing else is told of such a run */
};

/* Tells the timeline of a run, legal or not, with its break at this place: 0 for none. A break that would start past latest is not taken. A customer
 * whose window is missed is served all the same. With the break place of the plan, the times are those of the plan.
 *
 * times         arrival, before the break where that is here, service start and departure of each call: room for 3 * LIZSOMDUR_CALLS
 * loads         seats and wheelchair places taken after each call: room for 2 * LIZSOMDUR_CALLS
 * violations    their numbers, in the order of windows by call, break, load, second load, distance, duration: room for LIZSOMDUR_VIOLATIONS
 * figures       three for each violation, 0 for those that it has not: room for 3 * LIZSOMDUR_VIOLATIONS
 * counts        how many calls are told (none where a leg is closed), how many violations, and the place of the break if it is taken, or 0
 * totals        distance, duration, lateness, lateness pay, and when the break starts, or 0
 */
uint32_t lizsomdur_visits(const uint8_t *sheet, size_t sheet_length,
                          const uint8_t *run, size_t run_length, size_t place,
                          double *times, size_t times_length,
                          uint64_t *loads, size_t loads_length,
                          uint8_t *violations, size_t violations_length,
                          double *figures, size_t figures_length,
                          size_t counts[3], double totals[5], size_t *word);

#ifdef __cplusplus
}
#endif

#endif
