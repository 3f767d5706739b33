/*
 * A thread that must not pause. It updates shared data in a loop and retires the old versions, and each callback takes a
 * while. Where its processor is local, the callbacks run in this thread; where it is offloaded, they run in a hand's thread,
 * and this one only hands them over. The program does both, one after the other, and prints the longest that this thread was
 * kept from its loop by its own work.
 *
 * The times are this machine's, and nothing is promised of them. What is checked is where the callbacks ran.
 *
 *     cc -std=gnu11 -pthread realtime.c -lrcuo && ./a.out [ROUNDS]
 */
#define _GNU_SOURCE
#include <rcuo.h>

#include <pthread.h>
#include <sched.h>
#include <stdatomic.h>
#include <stdio.h>
#include <stdlib.h>
#include <time.h>

static struct rcuo_parts parts;
static atomic_bool stop;
static atomic_ulong ran, ran_here, failed;
static pthread_t worker;
static unsigned long rounds = 20000;
static double longest;

/* The processor time of this thread, in microseconds: what other threads take of the machine isn't in it. */
static double now(void) {
    struct timespec time;
    clock_gettime(CLOCK_THREAD_CPUTIME_ID, &time);
    return (double)time.tv_sec * 1e6 + (double)time.tv_nsec / 1e3;
}

static void check(const char *what, enum rcuo_answer answer) {
    if (answer == RCUO_OK) return;
    fprintf(stderr, "%s: %s\n", what, rcuo_strerror(answer));
    atomic_fetch_add(&failed, 1);
}

/* The callback: it frees an old version, and takes its time. */
static void let_go(void *argument) {
    volatile unsigned work = 0;
    for (int i = 0; i < 5000; i++) work += (unsigned)i;
    free(argument);
    atomic_fetch_add(&ran, 1);
    if (pthread_equal(pthread_self(), worker)) atomic_fetch_add(&ran_here, 1);
}

/* Pins this thread to the first processor that it may run on, if that can be had. */
static void pin(void) {
    cpu_set_t may, one;
    if (pthread_getaffinity_np(pthread_self(), sizeof may, &may)) return;
    for (size_t p = 0; p < CPU_SETSIZE; p++) {
        if (CPU_ISSET(p, &may)) {
            CPU_ZERO(&one);
            CPU_SET(p, &one);
            pthread_setaffinity_np(pthread_self(), sizeof one, &one);
            return;
        }
    }
}

static void *work(void *argument) {
    struct rcuo_slot *self = argument;
    pin();
    worker = pthread_self();
    longest = 0;
    unsigned long called = 0;
    for (uint64_t moment = 0; !atomic_load(&stop); moment++) {
        double began = now();
        if (called < rounds) {
            void *old = malloc(64);
            if (old && rcuo_call(self, moment, let_go, old, NULL) == RCUO_OK) called++;
            else free(old);
        }
        check("quiescent", rcuo_quiescent(self, NULL));
        rcuo_run(self, moment, 16, NULL);
        double spent = now() - began;
        if (called < rounds && spent > longest) longest = spent;
        if (called == rounds) sched_yield();
    }
    return NULL;
}

static void *help(void *argument) {
    (void)argument;
    while (!atomic_load(&stop)) {
        check("driver", rcuo_driver_turn(&parts.driver, NULL));
        if (parts.groups[0].full) check("group", rcuo_group_turn(&parts.groups[0], NULL));
        sched_yield();
    }
    return NULL;
}

static void *run_hand(void *argument) {
    while (!atomic_load(&stop)) {
        if (rcuo_run(argument, 0, 64, NULL) != RCUO_OK) sched_yield();
    }
    return NULL;
}

static void run_once(bool offloaded) {
    const uint64_t offloadable[] = {offloaded};
    struct rcuo_settings settings = {.processors = 1, .stride = 1, .blimit = 64, .qhimark = 64, .offloadable = offloadable};
    check("open", rcuo_open(&settings, &parts));
    atomic_store(&stop, false);
    atomic_store(&ran, 0);
    atomic_store(&ran_here, 0);
    pthread_t threads[3];
    int n = 0;
    pthread_create(&threads[n++], NULL, work, &parts.processors[0]);
    pthread_create(&threads[n++], NULL, help, NULL);
    if (offloaded) pthread_create(&threads[n++], NULL, run_hand, &parts.hands[0]);
    struct rcuo_counts barrier;
    while (atomic_load(&ran) < rounds) {
        /* (a barrier urges the processor to release what it holds back) */
        check("barrier", rcuo_barrier(&parts.control, &barrier));
        for (int i = 0; i < 64; i++) sched_yield();
    }
    atomic_store(&stop, true);
    for (int i = 0; i < n; i++) pthread_join(threads[i], NULL);
    check("close", rcuo_close(&parts));
    check("end", rcuo_end(&parts));
    printf("%s: %lu callbacks ran, %lu of them in the pinned thread, whose longest pause was %.1f microseconds\n",
           offloaded ? "offloaded" : "local", atomic_load(&ran), atomic_load(&ran_here), longest);
    if (ran != rounds || ran_here != (offloaded ? 0 : rounds)) atomic_fetch_add(&failed, 1);
}

int main(int argc, char **argv) {
    if (argc > 1) rounds = strtoul(argv[1], NULL, 10);
    run_once(false);
    run_once(true);
    return atomic_load(&failed) != 0;
}
