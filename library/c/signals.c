/* Asks the recorded questions on standard input while a signal comes in the middle of the calls, whose handler asks another of them, on a stack of its
 * own: the answers have to be the same as without.
 */
#define _XOPEN_SOURCE 700
#include <signal.h>
#include <sys/time.h>
#include <unistd.h>
#include "answers.h"

/* The stack that lizsomdur.h says is enough, and what the system itself puts on a handler's. */
enum { ENOUGH = 512000, SYSTEM = 65536 };

/* As many calls as have to be interrupted. */
enum { INTERRUPTED = 300 };

static struct answers expected[MOST];

/* Whether a call is going on, how often one was interrupted, and how often the handler was answered otherwise. */
static volatile sig_atomic_t inside, interrupted, differ_in_handler;

static void on_signal(int signal) {
    static struct answers said;
    static size_t next;
    (void)signal;
    if (!inside)
        return;
    ask(&questions[next], &said);
    differ_in_handler += memcmp(&said, &expected[next], sizeof said) != 0;
    next = (next + 7) % asked;
    interrupted++;
}

static void handle_signals(void) {
    static char memory[ENOUGH + SYSTEM];
    stack_t stack;
    struct sigaction action;
    memset(&stack, 0, sizeof stack);
    stack.ss_sp = memory;
    stack.ss_size = sizeof memory;
    memset(&action, 0, sizeof action);
    action.sa_handler = on_signal;
    action.sa_flags = SA_ONSTACK;
    if (sigaltstack(&stack, NULL) != 0 || sigaction(SIGALRM, &action, NULL) != 0)
        stop("no signals");
}

/* Has the signal come once, in so many microseconds. */
static void signal_in(long microseconds) {
    struct itimerval once = {{0, 0}, {0, microseconds}};
    setitimer(ITIMER_REAL, &once, NULL);
}

int main(void) {
    static struct answers said;
    size_t differ = 0, rounds = 0;
    read_questions();
    for (size_t k = 0; k < asked; k++)
        ask(&questions[k], &expected[k]);
    handle_signals();
    for (; interrupted < INTERRUPTED && rounds < 100; rounds++)
        for (size_t k = 0; k < asked; k++) {
            signal_in((long)(1 + (k * 37 + rounds) % 199));
            inside = 1;
            ask(&questions[k], &said);
            inside = 0;
            differ += memcmp(&said, &expected[k], sizeof said) != 0;
        }
    if (interrupted < INTERRUPTED)
        stop("too few calls were interrupted");
    printf("interrupted calls: %zu answers differ, in the handler %d\n", differ, (int)differ_in_handler);
    return 0;
}
