/*
 * A runtime with nothing to do takes no processor time: without calls, and while a grace period waits for a reader. A call and a
 * report wake it.
 */
#include "threads.h"

/* How long it sleeps, in milliseconds, and how much processor time it may take meanwhile: 0.1 in 100. */
enum { IDLE = 1000, TRIES = 100 };
static const double share = 0.001;

static unsigned long ran;

/* What one in 1000 of the time is, with the time that this thread takes to sleep. */
static void sleeps(const char *what) {
    double before = processor_seconds();
    nap(IDLE);
    double took = processor_seconds() - before;
    printf("%s: %.6f s of %.3f s\n", what, took, (double)IDLE / 1000);
    holds(what, took <= (double)IDLE / 1000 * share);
}

static int by_size(const void *one, const void *other) {
    double a = *(const double *)one, b = *(const double *)other;
    return (a > b) - (a < b);
}

/* How long a callback waits after some idleness, in the middle of some tries. */
static void test_wakes(void) {
    double spent[TRIES];
    for (int i = 0; i < TRIES; i++) {
        struct counted counted;
        unsigned long once = 0;
        counted.ran = &once;
        nap(3);
        double began = seconds();
        rcuo_call_rcu(&counted.head, count_run);
        while (!LOAD(&once)) {
            if (seconds() - began > 30) abort();
        }
        spent[i] = seconds() - began;
    }
    qsort(spent, TRIES, sizeof *spent, by_size);
    double middle = spent[TRIES / 2] * 1e6, most = spent[TRIES - 1] * 1e6;
    printf("from a call to its run, after 3 ms: %.1f us in the middle, %.1f us at most\n", middle, most);
    holds("a call wakes the helper", spent[TRIES / 2] < 1);
}

static void test_idle(uint32_t helpers) {
    struct rcuo_runtime *runtime = start_runtime(helpers);
    struct counted counted;
    counted.ran = &ran;
    STORE(&ran, 0);
    test_wakes();
    is("a barrier", rcuo_runtime_barrier(), RCUO_OK);
    nap(10);
    sleeps("an idle runtime takes no time");
    is("register", rcuo_register(), RCUO_OK);
    rcuo_call_rcu(&counted.head, count_run);
    nap(10);
    sleeps("a runtime that waits for a report takes no time");
    holds("the callback waits for the report", LOAD(&ran) == 0);
    double began = seconds();
    is("a report", rcuo_quiescent_state(), RCUO_OK);
    while (!LOAD(&ran) && seconds() - began < 30) continue;
    printf("from a report to the run: %.1f us\n", (seconds() - began) * 1e6);
    holds("one report wakes the helper", LOAD(&ran) == 1);
    is("unregister", rcuo_unregister(), RCUO_OK);
    is("stop", rcuo_stop(runtime, NULL), RCUO_OK);
}

int main(void) {
    test_idle(1);
    test_idle(SEVERAL);
    return tell();
}
