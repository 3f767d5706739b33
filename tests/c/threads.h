/* What the tests of the runtime share: threads, words that they share, and time. To be included first. */
#ifndef THREADS_H
#define THREADS_H

#ifndef _GNU_SOURCE
#define _GNU_SOURCE
#endif
#include <rcuo/runtime.h>

#include "expect.h"

#include <pthread.h>
#include <sched.h>
#include <stdlib.h>
#include <sys/resource.h>
#include <time.h>
#include <unistd.h>

#define LOAD(at) __atomic_load_n(at, __ATOMIC_SEQ_CST)
#define STORE(at, value) __atomic_store_n(at, value, __ATOMIC_SEQ_CST)
#define ADD(at, value) __atomic_add_fetch(at, value, __ATOMIC_SEQ_CST)

#define OBJECT_OF(head, type) ((type *)(void *)(head))

/* How many helpers a runtime of several has here: more than one, and some members for each. */
enum { SEVERAL = 3 };

/* Starts a runtime of so many helpers. */
static inline struct rcuo_runtime *start_runtime(uint32_t helpers) {
    struct rcuo_options options = {.helpers = helpers};
    struct rcuo_runtime *runtime;
    is("start", rcuo_start(&runtime, &options), RCUO_OK);
    return runtime;
}

static inline pthread_t start_thread(void *(*run)(void *), void *argument) {
    pthread_t thread;
    if (pthread_create(&thread, NULL, run, argument)) abort();
    return thread;
}

/* Some words of the program, of which the first is how much is to be done. */
static inline unsigned long words_of(int count, char **words, unsigned long otherwise) {
    return count > 1 ? strtoul(words[1], NULL, 10) : otherwise;
}

static inline double seconds(void) {
    struct timespec now;
    clock_gettime(CLOCK_MONOTONIC, &now);
    return (double)now.tv_sec + (double)now.tv_nsec / 1e9;
}

static inline void nap(long milliseconds) {
    struct timespec time = {milliseconds / 1000, milliseconds % 1000 * 1000000};
    nanosleep(&time, NULL);
}

/* How many seconds of a processor this process took. */
static inline double processor_seconds(void) {
    struct rusage used;
    getrusage(RUSAGE_SELF, &used);
    return (double)(used.ru_utime.tv_sec + used.ru_stime.tv_sec) + (double)(used.ru_utime.tv_usec + used.ru_stime.tv_usec) / 1e6;
}

/* Reports until the word is at least so much, for two minutes at most. */
static inline bool report_until(unsigned long *word, unsigned long much) {
    double began = seconds();
    for (unsigned long i = 1; LOAD(word) < much; i++) {
        (void)rcuo_quiescent_state();
        if (i % 256 != 0) continue;
        if (seconds() - began > 120) return false;
        sched_yield(); /* (there may be fewer processors than threads, where each grace period takes a turn of all) */
    }
    return true;
}

/* A head that says how often it ran. */
struct counted {
    struct rcuo_head head;
    unsigned long *ran;
};

static inline void count_run(struct rcuo_head *head) {
    ADD(OBJECT_OF(head, struct counted)->ran, 1);
}

static inline void count_and_free(struct rcuo_head *head) {
    count_run(head);
    free(head);
}

static inline struct counted *new_counted(unsigned long *ran) {
    struct counted *counted = malloc(sizeof *counted);
    if (!counted) abort();
    counted->ran = ran;
    return counted;
}

#endif
