/*
 * One stress over the runtime of rcuo and over liburcu's QSBR flavour (names.h), which `bench/c/compare` builds and compares.
 *
 *     stress [SECONDS]
 *
 * It prints a line for each of these, with a name and a number, and fails where a callback was lost or a reader saw what was
 * freed:
 *
 *     calls_N        what a call costs, in nanoseconds, where N threads call as fast as they can and report after each 64
 *     callbacks_N    how many callbacks a second ran then, until the last
 *     reads          how many read sections a second three readers make that report after each, beside an updater that calls
 *     reads_64       the same where they report after each 64
 *     synchronize    how many synchronize_rcu a second one thread makes beside three readers that report after each section
 *     report         what a report costs, in nanoseconds, where no grace period is needed
 *     unregistered   what a call of a thread that isn't registered costs, in nanoseconds
 *     register       what a register and an unregister cost, in nanoseconds
 */
#define _GNU_SOURCE
#include "names.h"

#include <pthread.h>
#include <stdbool.h>
#include <stdint.h>
#include <time.h>

enum { READERS = 3, CALLERS_MOST = 4, POISON = 0xdead };

struct node {
    struct rcu_head head;
    unsigned long alive;
};

struct worker {
    unsigned long sections; /* how many follow on one another without a report */
    unsigned long count;
    struct node *pool;
    double began, spent;
    char apart[128];
};

static struct worker workers[READERS + CALLERS_MOST];
static struct node *current;
static unsigned long stop, dead_reads, ran;
static pthread_barrier_t gate;
static double period = 1;

static double seconds(void) {
    struct timespec now;
    clock_gettime(CLOCK_MONOTONIC, &now);
    return (double)now.tv_sec + (double)now.tv_nsec / 1e9;
}

static bool is_over(void) {
    return __atomic_load_n(&stop, __ATOMIC_RELAXED);
}

static void count_node(struct rcu_head *head) {
    ((struct node *)(void *)head)->alive = POISON;
    ran++; /* (by one helper) */
}

static void free_node(struct rcu_head *head) {
    struct node *node = (struct node *)(void *)head;
    __atomic_store_n(&node->alive, POISON, __ATOMIC_RELAXED);
    free(node);
}

/* ---- readers ---- */

static void *read_on(void *argument) {
    struct worker *self = argument;
    unsigned long sections = self->sections, count = 0, dead = 0;
    rcu_register_thread();
    pthread_barrier_wait(&gate);
    while (!is_over()) {
        for (unsigned long i = 0; i < sections; i++) {
            rcu_read_lock();
            struct node *node = rcu_dereference(current);
            if (__atomic_load_n(&node->alive, __ATOMIC_RELAXED) != 1) dead++;
            rcu_read_unlock();
        }
        rcu_quiescent_state();
        count += sections;
    }
    rcu_unregister_thread();
    self->count = count;
    __atomic_add_fetch(&dead_reads, dead, __ATOMIC_SEQ_CST);
    return NULL;
}

static struct node *new_node(void) {
    struct node *node = malloc(sizeof *node);
    if (!node) abort();
    node->alive = 1;
    return node;
}

static void start_readers(pthread_t *threads, unsigned long sections) {
    stop = 0;
    current = new_node();
    pthread_barrier_init(&gate, NULL, READERS + 1);
    for (int t = 0; t < READERS; t++) {
        workers[t].sections = sections;
        if (pthread_create(&threads[t], NULL, read_on, &workers[t])) abort();
    }
    pthread_barrier_wait(&gate);
}

static double end_readers(pthread_t *threads, double began) {
    unsigned long count = 0;
    __atomic_store_n(&stop, 1, __ATOMIC_SEQ_CST);
    double spent = seconds() - began;
    for (int t = 0; t < READERS; t++) {
        pthread_join(threads[t], NULL);
        count += workers[t].count;
    }
    free(current);
    return (double)count / spent;
}

/* The readers beside an updater that replaces the node some ten thousand times a second. */
static void measure_reads(const char *name, unsigned long sections) {
    struct timespec pause = {0, 20000};
    pthread_t threads[READERS];
    start_readers(threads, sections);
    rcu_register_thread();
    double began = seconds();
    while (seconds() - began < period) {
        struct node *old = current, *node = new_node();
        rcu_assign_pointer(current, node);
        call_rcu(&old->head, free_node);
        rcu_thread_offline();
        nanosleep(&pause, NULL);
        rcu_thread_online();
    }
    rcu_unregister_thread();
    printf("%s %.0f\n", name, end_readers(threads, began));
    rcu_barrier();
}

static void measure_synchronize(void) {
    pthread_t threads[READERS];
    unsigned long count = 0;
    start_readers(threads, 1);
    rcu_register_thread();
    double began = seconds();
    while (seconds() - began < period) {
        struct node *old = current, *node = new_node();
        rcu_assign_pointer(current, node);
        synchronize_rcu();
        free_node(&old->head);
        count++;
    }
    double spent = seconds() - began;
    rcu_unregister_thread();
    (void)end_readers(threads, began);
    printf("synchronize %.0f\n", (double)count / spent);
}

/* ---- callers ---- */

static void *call_on(void *argument) {
    struct worker *self = argument;
    rcu_register_thread();
    pthread_barrier_wait(&gate);
    self->began = seconds();
    for (unsigned long i = 0; i < self->count; i++) {
        call_rcu(&self->pool[i].head, count_node);
        if (i % 64 == 63) rcu_quiescent_state();
    }
    self->spent = seconds() - self->began;
    rcu_unregister_thread();
    return NULL;
}

static void measure_calls(unsigned many, unsigned long calls) {
    pthread_t threads[CALLERS_MOST];
    double spent = 0;
    ran = 0;
    pthread_barrier_init(&gate, NULL, many + 1);
    for (unsigned t = 0; t < many; t++) {
        workers[t].count = calls;
        workers[t].pool = malloc(calls * sizeof(struct node));
        if (!workers[t].pool) abort();
        for (unsigned long i = 0; i < calls; i++) workers[t].pool[i].alive = 1;
        if (pthread_create(&threads[t], NULL, call_on, &workers[t])) abort();
    }
    pthread_barrier_wait(&gate);
    double began = seconds();
    for (unsigned t = 0; t < many; t++) {
        pthread_join(threads[t], NULL);
        spent += workers[t].spent;
        if (workers[t].began < began) began = workers[t].began;
    }
    rcu_barrier();
    double whole = seconds() - began;
    if (ran != many * calls) {
        fprintf(stderr, "%lu of %lu callbacks ran\n", ran, many * calls);
        exit(1);
    }
    for (unsigned t = 0; t < many; t++) {
        for (unsigned long i = 0; i < calls; i++) {
            if (workers[t].pool[i].alive != POISON) exit(1);
        }
        free(workers[t].pool);
    }
    double all = (double)(many * calls);
    printf("calls_%u %.1f\ncallbacks_%u %.0f\n", many, spent / all * 1e9, many, all / whole);
}

/* ---- one thread ---- */

static void measure_alone(unsigned long rounds) {
    struct node *pool = malloc(rounds * sizeof *pool);
    if (!pool) abort();
    ran = 0;
    double began = seconds();
    for (unsigned long i = 0; i < rounds; i++) call_rcu(&pool[i].head, count_node);
    printf("unregistered %.1f\n", (seconds() - began) / (double)rounds * 1e9);
    rcu_barrier();
    if (ran != rounds) exit(1);
    free(pool);
    began = seconds();
    for (unsigned long i = 0; i < rounds; i++) {
        rcu_register_thread();
        rcu_unregister_thread();
    }
    printf("register %.1f\n", (seconds() - began) / (double)rounds * 1e9);
    rcu_register_thread();
    began = seconds();
    for (unsigned long i = 0; i < rounds * 10; i++) rcu_quiescent_state();
    printf("report %.2f\n", (seconds() - began) / (double)rounds / 10 * 1e9);
    rcu_unregister_thread();
}

int main(int count, char **words) {
    if (count > 1) period = strtod(words[1], NULL);
    unsigned long calls = (unsigned long)(period * 1000000);
    bench_start();
    measure_alone(calls);
    measure_calls(1, calls);
    measure_calls(2, calls);
    measure_calls(CALLERS_MOST, calls);
    measure_reads("reads", 1);
    measure_reads("reads_64", 64);
    measure_synchronize();
    bench_stop();
    if (dead_reads) fprintf(stderr, "%lu reads of what was freed\n", dead_reads);
    return dead_reads != 0;
}
