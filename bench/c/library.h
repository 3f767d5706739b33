/*
 * What bench.c calls of a library: of librcuo where RCUO is defined, else of liburcu's QSBR flavour, so that one program measures
 * both. `tools/bench` builds it twice.
 *
 * Threads have numbers, from 0 on. A node begins with a `library_head`, and a callback is written as `LIBRARY_CALLBACK(name)`, whose
 * argument `head` is that of the node.
 */
#ifndef BENCH_LIBRARY_H
#define BENCH_LIBRARY_H

#include <pthread.h>
#include <stdatomic.h>
#include <stdbool.h>
#include <stdint.h>
#include <stdio.h>
#include <stdlib.h>
#include <time.h>

/* How many threads there are at most. */
#define LIBRARY_THREADS 16

#ifdef RCUO
#include <rcuo.h>

#define LIBRARY_CALLBACK(name) static void name(void *head)

/* librcuo keeps of a callback what it needs by itself. */
struct library_head {
    char none;
};

/* A group gives a hand as many callbacks in a turn as the hand then runs: what is given and waits takes memory. */
enum { BLIMIT = 1000 };

static struct rcuo_parts library_parts;
static atomic_bool library_stop;

static void library_check(const char *what, enum rcuo_answer answer) {
    if (answer == RCUO_OK) return;
    fprintf(stderr, "%s: %s\n", what, rcuo_strerror(answer));
    exit(1);
}

/* A moment is a tick of the coarse clock, read as a thread reports, and kept until it reports again. */
static __thread uint64_t library_moment;

static void library_look_at_clock(void) {
    struct timespec now;
    clock_gettime(CLOCK_MONOTONIC_COARSE, &now);
    library_moment = (uint64_t)now.tv_sec * 1000 + (uint64_t)now.tv_nsec / 1000000;
}

static bool library_drive(void) {
    struct rcuo_driver_turn turn;
    library_check("a turn of the driver", rcuo_driver_turn(&library_parts.driver, &turn));
    return turn.step == RCUO_STARTED || turn.step == RCUO_ENDED;
}

static bool library_group(struct rcuo_slot *group) {
    struct rcuo_group_turn turn;
    library_check("a turn of a group", rcuo_group_turn(group, &turn));
    return turn.took != 0 || turn.gave != 0;
}

static bool library_hand(struct rcuo_slot *hand) {
    uint64_t ran = 0;
    (void)rcuo_run(hand, 0, BLIMIT, &ran); /* (it answers why it ran no more) */
    return ran != 0;
}

static bool library_stopped(void) {
    return atomic_load_explicit(&library_stop, memory_order_relaxed);
}

/* A helper, and the processors that it makes the turns of group and hand for: from the first, up to the end. */
struct library_helper {
    pthread_t thread;
    unsigned first, end;
};

static struct library_helper library_helpers[LIBRARY_THREADS];
static unsigned library_helping;

/* Set while a helper makes a turn of the driver, which whoever finds it free makes next. Acquire and release hand the slot on. */
static atomic_flag library_driving = ATOMIC_FLAG_INIT;

static bool library_drive_if_free(void) {
    if (atomic_flag_test_and_set_explicit(&library_driving, memory_order_acquire)) return false;
    bool moved = library_drive();
    atomic_flag_clear_explicit(&library_driving, memory_order_release);
    return moved;
}

/* A helper that found nothing to do sleeps, as liburcu's does: one that spins takes a processor from those that call. */
static void *library_help(void *helper) {
    const struct timespec pause = {0, 100000};
    const struct library_helper *self = helper;
    while (!library_stopped()) {
        bool moved = library_drive_if_free();
        for (unsigned p = self->first; p < self->end; p++) {
            moved |= library_group(&library_parts.groups[p]);
            moved |= library_hand(&library_parts.hands[p]);
        }
        if (!moved) nanosleep(&pause, NULL);
    }
    return NULL;
}

static void library_start_helper(unsigned first, unsigned end) {
    struct library_helper *helper = &library_helpers[library_helping++];
    helper->first = first;
    helper->end = end;
    if (pthread_create(&helper->thread, NULL, library_help, helper)) abort();
}

/* Opens the library for so many threads whose callbacks run in one helper, or in one for `each`. */
static void library_open(unsigned threads, bool each) {
    struct rcuo_settings settings = RCUO_SETTINGS_DEFAULT;
    settings.processors = threads;
    settings.offloadable = NULL;
    settings.stride = 1;
    settings.blimit = BLIMIT;
    library_check("open", rcuo_open(&settings, &library_parts));
    if (!each) library_start_helper(0, threads);
    for (unsigned p = 0; each && p < threads; p++) library_start_helper(p, p + 1);
}

static void library_register(unsigned thread, bool each) {
    (void)thread;
    (void)each;
}

static void library_call(unsigned thread, struct library_head *head, void (*run)(void *)) {
    library_check("call", rcuo_call(&library_parts.processors[thread], library_moment, run, head, NULL));
}

static void library_report(unsigned thread) {
    library_check("report", rcuo_quiescent(&library_parts.processors[thread], NULL));
}

/* Reports and begins, as a thread does again and again: a begin in a new moment releases what waits. */
static void library_turn(unsigned thread) {
    struct rcuo_job job;
    library_report(thread);
    library_look_at_clock();
    (void)rcuo_begin(&library_parts.processors[thread], library_moment, &job); /* (an offloaded processor's hand runs them) */
}

/* The thread makes no more calls: no grace period waits for its processor from now on. */
static void library_unregister(unsigned thread) {
    library_check("leave", rcuo_leave(&library_parts.processors[thread]));
}

/* Waits until all that was called has run, and lets the processor go between its looks. */
static void library_barrier(void) {
    const struct timespec pause = {0, 50000};
    struct rcuo_counts barrier;
    bool passed = false;
    library_check("barrier", rcuo_barrier(&library_parts.control, &barrier));
    while (!passed) {
        library_check("poll", rcuo_poll(&library_parts.control, &barrier, &passed));
        if (!passed) nanosleep(&pause, NULL);
    }
}

/* Opens the library for so many threads without helpers: the last of them makes grace periods. */
static void library_open_bare(unsigned threads) {
    struct rcuo_settings settings = RCUO_SETTINGS_DEFAULT;
    settings.processors = threads;
    library_check("open", rcuo_open(&settings, &library_parts));
}

/* Opens the library for one thread, which makes all turns itself. */
static void library_open_alone(void) {
    struct rcuo_settings settings = RCUO_SETTINGS_DEFAULT;
    settings.offloadable = NULL;
    settings.blimit = BLIMIT;
    library_check("open", rcuo_open(&settings, &library_parts));
}

/* Turns of all parts, until so many callbacks have run. */
static void library_run_all(const uint64_t *ran, uint64_t wanted) {
    library_moment++;
    while (*ran < wanted) {
        (void)rcuo_run(&library_parts.processors[0], library_moment, 1, NULL); /* (a begin in a new moment releases what waits) */
        library_report(0);
        (void)library_drive();
        (void)library_group(&library_parts.groups[0]);
        (void)library_hand(&library_parts.hands[0]);
    }
}

static void library_nothing(void *none) {
    (void)none;
}

/* Waits for a grace period, as this thread. */
static void library_synchronize(unsigned thread) {
    struct rcuo_slot *self = &library_parts.processors[thread];
    uint64_t ran = 0;
    library_check("call", rcuo_call(self, 0, library_nothing, NULL, NULL));
    while (ran == 0) {
        library_report(thread);
        (void)library_drive();
        (void)rcuo_run(self, 0, 1, &ran); /* (it answers why it ran none) */
    }
}

static void library_close(void) {
    atomic_store(&library_stop, true);
    for (unsigned t = 0; t < library_helping; t++) pthread_join(library_helpers[t].thread, NULL);
    for (unsigned p = 0; p < RCUO_PROCESSORS; p++) (void)rcuo_return(&library_parts.processors[p]); /* (those that left) */
    library_check("close", rcuo_close(&library_parts));
    rcuo_end(&library_parts);
}

#else
#define _LGPL_SOURCE
#include <urcu/urcu-qsbr.h>

#define LIBRARY_CALLBACK(name) static void name(struct rcu_head *head)

struct library_head {
    struct rcu_head head;
};

static void library_open(unsigned threads, bool each) {
    (void)threads;
    (void)each;
}

static void library_open_bare(unsigned threads) {
    (void)threads;
}

/* Where each thread has a helper, that is its own; else all share liburcu's default one. */
static void library_register(unsigned thread, bool each) {
    (void)thread;
    urcu_qsbr_register_thread();
    if (each) urcu_qsbr_set_thread_call_rcu_data(urcu_qsbr_create_call_rcu_data(0, -1));
}

static void library_call(unsigned thread, struct library_head *head, void (*run)(struct rcu_head *)) {
    (void)thread;
    urcu_qsbr_call_rcu(&head->head, run);
}

static void library_report(unsigned thread) {
    (void)thread;
    urcu_qsbr_quiescent_state();
}

static void library_turn(unsigned thread) {
    library_report(thread);
}

static void library_unregister(unsigned thread) {
    (void)thread;
    urcu_qsbr_unregister_thread();
}

static void library_barrier(void) {
    urcu_qsbr_barrier();
}

static void library_synchronize(unsigned thread) {
    (void)thread;
    urcu_qsbr_synchronize_rcu();
}

static void library_open_alone(void) {
    urcu_qsbr_register_thread();
}

static void library_run_all(const uint64_t *ran, uint64_t wanted) {
    (void)ran;
    (void)wanted;
    urcu_qsbr_barrier();
}

static void library_close(void) {
}
#endif
#endif
