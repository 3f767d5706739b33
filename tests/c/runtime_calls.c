/*
 * Callbacks of a runtime: by threads that are registered, by others, and by callbacks with their own head again. Each runs once,
 * those of one thread in order, and none while a reader may have what it frees.
 */
#include "threads.h"

enum { READERS = 3, CALLERS = 4, PLACES = 8, POISON = 0xdead };

struct node {
    struct rcuo_head head;
    struct caller *caller;
    unsigned long number;
    unsigned long alive;
};

/* A thread that replaces the nodes of its own places. The odd ones aren't registered. */
struct caller {
    unsigned index;
    unsigned long calls;
    unsigned long ran; /* by its callbacks alone, which run one at a time */
};

static struct node *shared[CALLERS * PLACES];
static struct caller callers[CALLERS];
static unsigned long stop, reads, dead_reads, out_of_order, called;

static void retire(struct rcuo_head *head) {
    struct node *node = OBJECT_OF(head, struct node);
    if (node->number != node->caller->ran) ADD(&out_of_order, 1);
    node->caller->ran++;
    STORE(&node->alive, POISON);
    free(node);
}

static void *read_all(void *none) {
    if (rcuo_register() != RCUO_OK) abort();
    while (!LOAD(&stop)) {
        rcuo_thread_read_lock();
        for (int i = 0; i < CALLERS * PLACES; i++) {
            struct node *node = rcuo_dereference(shared[i]);
            if (node && LOAD(&node->alive) != 1) ADD(&dead_reads, 1);
        }
        rcuo_thread_read_unlock();
        if (rcuo_quiescent_state() != RCUO_OK) abort();
        if (ADD(&reads, 1) % 16 == 0) sched_yield(); /* (there may be fewer processors than threads) */
    }
    return none;
}

static void *call_all(void *argument) {
    struct caller *self = argument;
    bool registered = self->index % 2 == 0;
    if (registered && rcuo_register() != RCUO_OK) abort();
    for (unsigned long i = 0, number = 0; i < self->calls; i++) {
        struct node **place = &shared[self->index * PLACES + i % PLACES];
        struct node *old = *place, *node = malloc(sizeof *node);
        if (!node) abort();
        node->caller = self;
        node->alive = 1;
        rcuo_assign_pointer(*place, node);
        if (old) {
            old->number = number++;
            rcuo_call_rcu(&old->head, retire);
            ADD(&called, 1);
        }
        if (registered && i % 16 == 0 && rcuo_quiescent_state() != RCUO_OK) abort();
    }
    if (registered && rcuo_unregister() != RCUO_OK) abort();
    return NULL;
}

static void test_stress(unsigned long calls) {
    pthread_t readers[READERS], threads[CALLERS];
    unsigned long ran = 0;
    stop = reads = called = 0;
    for (int t = 0; t < READERS; t++) readers[t] = start_thread(read_all, NULL);
    for (unsigned t = 0; t < CALLERS; t++) {
        callers[t].index = t;
        callers[t].calls = calls;
        callers[t].ran = 0;
        threads[t] = start_thread(call_all, &callers[t]);
    }
    for (int t = 0; t < CALLERS; t++) pthread_join(threads[t], NULL);
    is("a barrier", rcuo_runtime_barrier(), RCUO_OK);
    for (int t = 0; t < CALLERS; t++) ran += callers[t].ran;
    holds("all that were called have run when the barrier is over", ran == LOAD(&called) && ran >= CALLERS * (calls - PLACES));
    STORE(&stop, 1);
    for (int t = 0; t < READERS; t++) pthread_join(readers[t], NULL);
    holds("there were reads", reads > 0);
    holds("no reader saw what was freed", dead_reads == 0);
    holds("each thread's run in order", out_of_order == 0);
    for (int i = 0; i < CALLERS * PLACES; i++) {
        free(shared[i]);
        shared[i] = NULL;
    }
}

/* A callback that calls again with its own head, so often. */
struct again {
    struct rcuo_head head;
    unsigned long left;
    unsigned long ran;
};

static void call_again(struct rcuo_head *head) {
    struct again *again = OBJECT_OF(head, struct again);
    ADD(&again->ran, 1);
    if (--again->left) rcuo_call_rcu(head, call_again);
}

static void test_again(unsigned long rounds) {
    struct again again = {{NULL, NULL}, rounds, 0};
    is("register", rcuo_register(), RCUO_OK);
    rcuo_call_rcu(&again.head, call_again);
    holds("a callback that calls again runs as often", report_until(&again.ran, rounds));
    is("unregister", rcuo_unregister(), RCUO_OK);
}

/* While this thread is online and doesn't report nothing runs, by whomever it was called. */
static void *call_one(void *argument) {
    rcuo_call_rcu(&((struct counted *)argument)->head, count_run);
    return NULL;
}

static void test_waits_for_reader(void) {
    unsigned long ran = 0;
    struct counted mine, other;
    mine.ran = other.ran = &ran;
    is("register", rcuo_register(), RCUO_OK);
    rcuo_thread_read_lock();
    rcuo_call_rcu(&mine.head, count_run);
    pthread_join(start_thread(call_one, &other), NULL);
    nap(20);
    holds("nothing runs while a read section is open", LOAD(&ran) == 0);
    rcuo_thread_read_unlock();
    holds("both run after it", report_until(&ran, 2));
    is("unregister", rcuo_unregister(), RCUO_OK);
}

/* More calls than are released at once: the rest run as the thread reports, and as it goes offline. */
static void test_many_in_a_moment(void) {
    enum { MANY = 500 };
    static struct counted nodes[MANY];
    unsigned long ran = 0;
    is("register", rcuo_register(), RCUO_OK);
    for (int part = 0; part < 2; part++) {
        for (int i = 0; i < MANY; i++) {
            nodes[i].ran = &ran;
            rcuo_call_rcu(&nodes[i].head, count_run);
        }
        if (part == 0) holds("all run while the thread reports", report_until(&ran, MANY));
    }
    is("offline", rcuo_thread_offline(), RCUO_OK);
    for (int i = 0; i < 3000 && LOAD(&ran) < 2 * MANY; i++) nap(1);
    holds("all run while the thread is offline", LOAD(&ran) == 2 * MANY);
    struct counted late;
    late.ran = &ran;
    rcuo_call_rcu(&late.head, count_run);
    is("a barrier", rcuo_runtime_barrier(), RCUO_OK);
    holds("a call of an offline thread runs", LOAD(&ran) == 2 * MANY + 1);
    is("unregister", rcuo_unregister(), RCUO_OK);
}

static void add_one(void *argument) {
    ADD((unsigned long *)argument, 1);
}

static void test_defer(void) {
    unsigned long ran = 0;
    is("a deferred function without a head", rcuo_defer(add_one, &ran), RCUO_OK);
    is("a barrier", rcuo_runtime_barrier(), RCUO_OK);
    holds("it ran with its argument", LOAD(&ran) == 1);
}

int main(int count, char **words) {
    unsigned long calls = words_of(count, words, 100000);
    for (uint32_t helpers = 1; helpers <= SEVERAL; helpers += SEVERAL - 1) {
        struct rcuo_runtime *runtime = start_runtime(helpers);
        test_waits_for_reader();
        test_many_in_a_moment();
        test_again(calls / 100);
        test_defer();
        test_stress(calls);
        is("stop", rcuo_stop(runtime, NULL), RCUO_OK);
    }
    return tell();
}
