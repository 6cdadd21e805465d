/* Prints the plan of the sheet on standard input, and the mark of the tour driven as one run.
 *
 *     cc -Ilibrary library/c/plan.c target/staticlib/libexports.a -o target/plan && target/plan < samples/m.sheet
 */
#include <stdio.h>
#include "lizsomdur.h"

/* A byte more than the longest sheet that is accepted. */
static uint8_t sheet[34573];

static void print_run(const uint8_t *served, size_t from, size_t to, unsigned place, double start) {
    printf("run");
    for (size_t k = from; k < to; k++)
        printf(" %u", (unsigned)served[k]);
    if (place != 0)
        printf(", break at call %u from %.0f", place, start);
    printf("\n");
}

int main(void) {
    uint8_t served[LIZSOMDUR_TOUR], ends[LIZSOMDUR_TOUR], places[LIZSOMDUR_TOUR], dropped[LIZSOMDUR_TOUR];
    double starts[LIZSOMDUR_TOUR], totals[2], values[5];
    size_t counts[3], word = 0;
    uint32_t verdict;

    size_t length = fread(sheet, 1, sizeof sheet, stdin);
    uint32_t number = lizsomdur_plan(sheet, length, served, LIZSOMDUR_TOUR, ends, LIZSOMDUR_TOUR, places, LIZSOMDUR_TOUR,
                                     starts, LIZSOMDUR_TOUR, dropped, LIZSOMDUR_TOUR, counts, totals, &word);
    if (number != 0) {
        fprintf(stderr, "refused %u at word %zu\n", (unsigned)number, word);
        return 1;
    }
    for (size_t r = 0; r < counts[1]; r++)
        print_run(served, r == 0 ? 0 : ends[r - 1], ends[r], places[r], starts[r]);
    for (size_t k = 0; k < counts[2]; k++)
        printf("dropped position %u\n", (unsigned)dropped[k]);
    printf("cost %.0f distance %.0f\n", totals[0], totals[1]);

    uint8_t whole_end = (uint8_t)counts[0], no_break = 0;
    if (whole_end == 0)
        return 0;
    number = lizsomdur_mark(sheet, length, served, counts[0], &whole_end, 1, &no_break, 1, &word, &verdict, values);
    if (number == 0)
        printf("all in one run without a break: verdict %u\n", (unsigned)verdict);
    return 0;
}
