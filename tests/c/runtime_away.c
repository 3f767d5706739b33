/*
 * Readers that are offline, or aren't registered, between their reads, often and briefly: nothing is let go while one reads it, by
 * a callback or after a grace period was waited for, and no one is held back by them.
 */
#include "threads.h"

enum { READERS = 6, READS = 3, WAYS = 3, POISON = 0xdead };

struct node {
    struct rcuo_head head;
    unsigned long alive;
};

static struct node *shared;
static unsigned long stop, reads, dead_reads, called, ran;

static void look(const struct node *node) {
    if (LOAD(&node->alive) != 1) ADD(&dead_reads, 1);
}

/* Looks twice at what it found, some time apart, which is the longer the later. */
static void read_node(unsigned long round) {
    rcuo_thread_read_lock();
    struct node *node = rcuo_dereference(shared);
    look(node);
    for (volatile unsigned long i = 0; i < round % 64 * 8; i++) continue;
    if (round % 512 == 0) sched_yield();
    look(node);
    rcuo_thread_read_unlock();
}

static void register_or_abort(void) {
    if (rcuo_register() != RCUO_OK) abort();
}

static void unregister_or_abort(void) {
    if (rcuo_unregister() != RCUO_OK) abort();
}

static void go_and_come(unsigned long round) {
    if (rcuo_thread_offline() != RCUO_OK) abort();
    if (round % 64 == 0) nap(1);
    if (rcuo_thread_online() != RCUO_OK) abort();
}

/* What a reader does between its reads, by its way: it is offline, or not registered, or reports and is offline by turns. */
static void pass(unsigned long way, unsigned long round) {
    if (way == 1) {
        unregister_or_abort();
        register_or_abort();
    } else if (way == 0 || round % 2) {
        go_and_come(round);
    } else if (rcuo_quiescent_state() != RCUO_OK) {
        abort();
    }
}

static void *read_on(void *argument) {
    unsigned long way = *(unsigned long *)argument;
    register_or_abort();
    for (unsigned long round = 0; !LOAD(&stop); round++) {
        for (int i = 0; i < READS; i++) read_node(round);
        ADD(&reads, 1);
        pass(way, round);
    }
    unregister_or_abort();
    return NULL;
}

static void let_go(struct node *node) {
    STORE(&node->alive, POISON);
    free(node);
}

static void run_node(struct rcuo_head *head) {
    let_go(OBJECT_OF(head, struct node));
    ADD(&ran, 1);
}

static void publish(void) {
    struct node *node = malloc(sizeof *node);
    if (!node) abort();
    node->alive = 1;
    rcuo_assign_pointer(shared, node);
}

static void replace_nodes(unsigned long rounds) {
    for (unsigned long i = 0; i < rounds; i++) {
        struct node *old = shared;
        publish();
        if (i % 4 == 0) {
            if (rcuo_synchronize() != RCUO_OK) abort();
            let_go(old);
        } else {
            rcuo_call_rcu(&old->head, run_node);
            called++;
        }
    }
}

static void test_readers(uint32_t helpers, unsigned long rounds) {
    struct rcuo_runtime *runtime = start_runtime(helpers);
    pthread_t threads[READERS];
    unsigned long ways[READERS];
    stop = reads = called = ran = 0;
    publish();
    for (unsigned long t = 0; t < READERS; t++) {
        ways[t] = t % WAYS;
        threads[t] = start_thread(read_on, &ways[t]);
    }
    while (!LOAD(&reads)) sched_yield();
    replace_nodes(rounds);
    is("a barrier", rcuo_runtime_barrier(), RCUO_OK);
    holds("all that were called have run", LOAD(&ran) == called);
    STORE(&stop, 1);
    for (int t = 0; t < READERS; t++) pthread_join(threads[t], NULL);
    holds("no reader saw what was let go", dead_reads == 0);
    let_go(shared);
    is("stop", rcuo_stop(runtime, NULL), RCUO_OK);
}

int main(int count, char **words) {
    unsigned long rounds = words_of(count, words, 2000);
    test_readers(1, rounds);
    test_readers(SEVERAL, rounds);
    return tell();
}
