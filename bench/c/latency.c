/* The peer of `bench_calls --latency`: how long liburcu's callbacks wait, from call_rcu to their run. `tools/bench` builds and
 * runs it.
 *
 *     latency CALLS SPACING
 *
 * One thread makes CALLS calls, one each SPACING microseconds, and reports quiescent states between them without a pause. It
 * prints how long each callback waited, in nanoseconds, a line each. */
#define _LGPL_SOURCE
#include <stdio.h>
#include <stdlib.h>
#include <time.h>
#include <urcu/urcu-qsbr.h>

/* For how many nanoseconds it reports on after the last call. */
#define AFTER 50000000LL

struct job {
    struct rcu_head head;
    long long began;
    long long *slot;
};

static long long nanoseconds(void)
{
    struct timespec now;
    clock_gettime(CLOCK_MONOTONIC, &now);
    return now.tv_sec * 1000000000LL + now.tv_nsec;
}

static void run(struct rcu_head *head)
{
    struct job *job = caa_container_of(head, struct job, head);
    *job->slot = nanoseconds() - job->began;
    free(job);
}

static void report_until(long long until)
{
    do
        urcu_qsbr_quiescent_state();
    while (nanoseconds() < until);
}

int main(int count, char **words)
{
    if (count < 3)
        return 2;
    long calls = atol(words[1]), spacing = atol(words[2]);
    long long *times = calloc((size_t)calls + 1, sizeof *times);
    if (!times)
        return 1;
    urcu_qsbr_register_thread();
    urcu_qsbr_set_thread_call_rcu_data(urcu_qsbr_create_call_rcu_data(0, -1));
    long long until = nanoseconds();
    for (long i = 0; i < calls; i++) {
        struct job *job = malloc(sizeof *job);
        if (!job)
            abort();
        job->began = nanoseconds();
        job->slot = &times[i];
        urcu_qsbr_call_rcu(&job->head, run);
        until += spacing * 1000;
        report_until(until);
    }
    report_until(until + AFTER);
    urcu_qsbr_thread_offline();
    urcu_qsbr_barrier();
    for (long i = 0; i < calls; i++)
        printf("%lld\n", times[i]);
    fflush(stdout);
    _Exit(0);
}
