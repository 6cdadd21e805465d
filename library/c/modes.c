/* Asks the recorded questions on standard input in each rounding mode, with tiny numbers kept and flushed to zero: the answers have to be the same,
 * byte for byte, and the modes have to be left as they are.
 */
#include <fenv.h>
#include <xmmintrin.h>
#include "answers.h"

static const struct { int mode; const char *name; } ROUNDINGS[] = {
    {FE_TONEAREST, "to nearest"},
    {FE_UPWARD, "upward"},
    {FE_DOWNWARD, "downward"},
    {FE_TOWARDZERO, "toward zero"},
};

/* The bits by which the processor takes and gives zero for numbers that are too small to be held in full. */
enum { FLUSHED = 0x8040 };

/* The answers in a mode. */
static void ask_in(int rounding, unsigned flushed, const struct question *q, struct answers *a) {
    unsigned before, after;
    fesetround(rounding);
    before = _mm_getcsr() | flushed;
    _mm_setcsr(before);
    ask(q, a);
    after = _mm_getcsr();
    fesetround(FE_TONEAREST);
    _mm_setcsr(_mm_getcsr() & ~(unsigned)FLUSHED);
    if ((after & ~0x3Fu) != (before & ~0x3Fu))
        stop("a mode was changed");
}

int main(void) {
    static struct answers expected[MOST], said;
    read_questions();
    for (size_t k = 0; k < asked; k++)
        ask(&questions[k], &expected[k]);
    for (size_t r = 0; r < sizeof ROUNDINGS / sizeof *ROUNDINGS; r++) {
        size_t differ[2] = {0, 0};
        for (size_t k = 0; k < asked; k++)
            for (unsigned flushed = 0; flushed < 2; flushed++) {
                ask_in(ROUNDINGS[r].mode, flushed * FLUSHED, &questions[k], &said);
                differ[flushed] += memcmp(&said, &expected[k], sizeof said) != 0;
            }
        printf("rounding %s: %zu answers differ, with tiny numbers flushed %zu\n", ROUNDINGS[r].name, differ[0], differ[1]);
    }
    return 0;
}
