/*
 * The names of liburcu's QSBR flavour, over the runtime of rcuo where RCUO is defined, else of liburcu itself: so stress.c is one
 * source over both.
 */
#ifndef BENCH_NAMES_H
#define BENCH_NAMES_H

#include <stdio.h>
#include <stdlib.h>

#ifdef RCUO
#include <rcuo/runtime.h>

static struct rcuo_runtime *bench_runtime;

/* The environment says for how many threads, so that the cost of places that nobody uses can be measured. */
static void bench_start(void) {
    const char *threads = getenv("BENCH_THREADS");
    struct rcuo_options options = {.threads = threads ? (uint32_t)strtoul(threads, NULL, 10) : 0};
    if (rcuo_start(&bench_runtime, &options) != RCUO_OK) abort();
}

static void bench_stop(void) {
    enum rcuo_answer answer = rcuo_stop(bench_runtime, NULL);
    if (answer == RCUO_OK) return;
    fprintf(stderr, "stop: %s\n", rcuo_strerror(answer));
    abort();
}

#define rcu_head rcuo_head
#define rcu_register_thread() ((void)rcuo_register())
#define rcu_unregister_thread() ((void)rcuo_unregister())
#define rcu_read_lock() rcuo_thread_read_lock()
#define rcu_read_unlock() rcuo_thread_read_unlock()
#define rcu_quiescent_state() ((void)rcuo_quiescent_state())
#define rcu_thread_offline() ((void)rcuo_thread_offline())
#define rcu_thread_online() ((void)rcuo_thread_online())
#define synchronize_rcu() ((void)rcuo_synchronize())
#define call_rcu(head, function) rcuo_call_rcu(head, function)
#define rcu_barrier() ((void)rcuo_runtime_barrier())
#define rcu_dereference(at) rcuo_dereference(at)
#define rcu_assign_pointer(at, value) rcuo_assign_pointer(at, value)

#else
#define _LGPL_SOURCE
#include <urcu-qsbr.h>

static void bench_start(void) {
}

static void bench_stop(void) {
}
#endif
#endif
