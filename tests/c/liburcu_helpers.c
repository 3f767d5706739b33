/*
 * The call_rcu_data functions of liburcu's QSBR flavour, in a program that liburcu.py builds over liburcu and over rcuo: which helper
 * runs what a thread calls, by the thread's choice, by its processor's, and by default; and names that are freed and made again. It
 * prints what holds.
 */
#define _GNU_SOURCE
#include <urcu-qsbr.h>

#include <errno.h>
#include <pthread.h>
#include <sched.h>
#include <stdio.h>
#include <stdlib.h>
#include <unistd.h>

enum { CALLS = 100, NAMES = 4, AGAIN = 40 };

struct noted {
    struct rcu_head head;
    unsigned long number;
};

static struct noted nodes[CALLS];
static unsigned long ran, out_of_order, elsewhere;
static pthread_t expected;

static void note(struct rcu_head *head) {
    struct noted *noted = caa_container_of(head, struct noted, head);
    if (noted->number != ran) out_of_order++;
    if (!pthread_equal(pthread_self(), expected)) elsewhere++;
    __atomic_store_n(&ran, ran + 1, __ATOMIC_SEQ_CST);
}

static void says(const char *what, int it) {
    printf("%s: %s\n", what, it ? "yes" : "no");
}

/* Whether what this thread calls runs in the helper of that name, all of it and in order. */
static int runs_in(struct call_rcu_data *data) {
    expected = get_call_rcu_thread(data);
    __atomic_store_n(&ran, 0, __ATOMIC_SEQ_CST);
    out_of_order = elsewhere = 0;
    for (unsigned long i = 0; i < CALLS; i++) {
        nodes[i].number = i;
        call_rcu(&nodes[i].head, note);
    }
    rcu_barrier();
    return ran == CALLS && out_of_order == 0 && elsewhere == 0;
}

static void try_threads(void) {
    struct call_rcu_data *names[NAMES];
    int apart = 1;
    says("by default", get_call_rcu_data() == get_default_call_rcu_data() && runs_in(get_default_call_rcu_data()));
    for (int i = 0; i < NAMES; i++) {
        names[i] = create_call_rcu_data(0, -1);
        for (int j = 0; j < i; j++) apart &= !pthread_equal(get_call_rcu_thread(names[i]), get_call_rcu_thread(names[j]));
    }
    says("helpers of their own", apart && !pthread_equal(get_call_rcu_thread(names[0]), get_call_rcu_thread(get_default_call_rcu_data())));
    for (int i = 0; i < NAMES; i++) {
        set_thread_call_rcu_data(names[i]);
        says("by the thread's choice", get_thread_call_rcu_data() == names[i] && get_call_rcu_data() == names[i] && runs_in(names[i]));
    }
    set_thread_call_rcu_data(NULL);
    for (int i = 0; i < NAMES; i++) call_rcu_data_free(names[i]);
    says("by default again", runs_in(get_default_call_rcu_data()));
}

static void try_again(void) {
    int all = 1;
    for (int i = 0; i < AGAIN; i++) {
        struct call_rcu_data *data = create_call_rcu_data(i % 2 ? URCU_CALL_RCU_RT : 0, -1);
        set_thread_call_rcu_data(data);
        all &= runs_in(data);
        set_thread_call_rcu_data(NULL);
        call_rcu_data_free(data);
    }
    says("names made and freed again and again", all);
}

/* This thread runs on the first processor that it may. */
static int stay_on_one(void) {
    cpu_set_t set;
    int processor = 0;
    if (sched_getaffinity(0, sizeof set, &set)) abort();
    while (!CPU_ISSET(processor, &set)) processor++;
    CPU_ZERO(&set);
    CPU_SET(processor, &set);
    if (sched_setaffinity(0, sizeof set, &set)) abort();
    return processor;
}

static void try_processors(void) {
    int processor = stay_on_one();
    struct call_rcu_data *data;
    says("none of the processor at first", !get_cpu_call_rcu_data(processor));
    says("one for each processor", create_all_cpu_call_rcu_data(0) == 0);
    data = get_cpu_call_rcu_data(processor);
    says("by the processor", data && get_call_rcu_data() == data && runs_in(data));
    fclose(stderr); /* (on which liburcu says what it refuses) */
    errno = 0;
    says("another for the processor is refused", set_cpu_call_rcu_data(processor, data) == -EEXIST && errno == EEXIST);
    says("one for no processor is refused", set_cpu_call_rcu_data(-1, data) == -EINVAL && errno == EINVAL);
    free_all_cpu_call_rcu_data();
    says("none of the processor at last", !get_cpu_call_rcu_data(processor));
    says("by default at last", runs_in(get_default_call_rcu_data()));
}

int main(void) {
    try_threads();
    try_again();
    try_processors();
    return 0;
}
