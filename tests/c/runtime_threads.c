/*
 * Threads that come and go: many, more than a runtime has places, some without unregistering; and threads that block while they
 * are offline.
 */
#include "threads.h"

/* How many places a runtime has, and how many threads there are at once: some of these find no place. */
enum { PLACES = 40, AT_ONCE = 48, MANY_PLACES = 1000, MANY_AT_ONCE = 1008 };

static unsigned long ran, called, refused, stop, reads;

/* Registers if there is a place, makes calls, and goes in one of three ways. */
static void *come_and_go(void *argument) {
    unsigned long number = *(unsigned long *)argument;
    enum rcuo_answer answer = rcuo_register();
    if (answer == RCUO_FEW) ADD(&refused, 1);
    else if (answer != RCUO_OK) abort();
    for (unsigned long i = 0; i < number % 24; i++) {
        rcuo_call_rcu(&new_counted(&ran)->head, count_and_free);
        ADD(&called, 1);
    }
    if (answer == RCUO_OK && number % 3 == 0 && rcuo_unregister() != RCUO_OK) abort();
    if (answer == RCUO_OK && number % 3 == 1 && rcuo_thread_offline() != RCUO_OK) abort();
    return NULL;
}

static void *read_on(void *none) {
    if (rcuo_register() != RCUO_OK) abort();
    while (!LOAD(&stop)) {
        if (rcuo_quiescent_state() != RCUO_OK) abort();
        ADD(&reads, 1);
        sched_yield();
    }
    return none;
}

static void test_many_threads(unsigned long many, unsigned places, unsigned long at_once, unsigned helpers) {
    struct rcuo_options options = {.threads = places, .name = "many", .helpers = helpers};
    struct rcuo_runtime *runtime;
    static pthread_t threads[MANY_AT_ONCE];
    static unsigned long numbers[MANY_AT_ONCE];
    ran = called = reads = stop = 0;
    is("start", rcuo_start(&runtime, &options), RCUO_OK);
    pthread_t reader = start_thread(read_on, NULL);
    for (unsigned long i = 0; i < many; i++) {
        if (i >= at_once) pthread_join(threads[i % at_once], NULL);
        numbers[i % at_once] = i;
        threads[i % at_once] = start_thread(come_and_go, &numbers[i % at_once]);
    }
    for (unsigned long i = 0; i < at_once; i++) pthread_join(threads[i], NULL);
    is("a barrier", rcuo_runtime_barrier(), RCUO_OK);
    holds("all callbacks of threads that are gone have run", LOAD(&ran) == LOAD(&called) && LOAD(&called) > 0);
    holds("the reader read", LOAD(&reads) > 0);
    STORE(&stop, 1);
    pthread_join(reader, NULL);
    is("stop, with no thread left behind", rcuo_stop(runtime, NULL), RCUO_OK);
}

/* Holds a place until all have one. */
static pthread_barrier_t gate;

static void *hold_place(void *answer) {
    *(enum rcuo_answer *)answer = rcuo_register();
    pthread_barrier_wait(&gate);
    pthread_barrier_wait(&gate);
    return NULL;
}

/* As many threads as there are places, all at once, and one more. */
static void test_places(unsigned places) {
    static pthread_t threads[RCUO_THREADS + 1];
    static enum rcuo_answer answers[RCUO_THREADS + 1];
    struct rcuo_options options = {.threads = places};
    struct rcuo_runtime *runtime;
    unsigned registered = 0, few = 0;
    is("start", rcuo_start(&runtime, &options), RCUO_OK);
    pthread_barrier_init(&gate, NULL, places + 2);
    for (unsigned t = 0; t <= places; t++) threads[t] = start_thread(hold_place, &answers[t]);
    pthread_barrier_wait(&gate);
    for (unsigned t = 0; t <= places; t++) {
        registered += answers[t] == RCUO_OK;
        few += answers[t] == RCUO_FEW;
    }
    holds("each place is taken once, and one thread finds none", registered == places && few == 1);
    is("stop, while threads are registered", rcuo_stop(runtime, NULL), RCUO_FULL);
    pthread_barrier_wait(&gate);
    for (unsigned t = 0; t <= places; t++) pthread_join(threads[t], NULL);
    pthread_barrier_destroy(&gate);
    is("stop", rcuo_stop(runtime, NULL), RCUO_OK);
}

/* Registering is cheap, one after another in one thread, and at most as many threads as there can be. */
static void test_registers(unsigned long many) {
    struct rcuo_runtime *runtime;
    is("start", rcuo_start(&runtime, NULL), RCUO_OK);
    double began = seconds();
    unsigned long done = 0;
    while (done < many && rcuo_register() == RCUO_OK && rcuo_unregister() == RCUO_OK) done++;
    double spent = seconds() - began;
    holds("each register and unregister is answered", done == many);
    printf("%lu registers in %.3f s\n", done, spent);
    is("stop", rcuo_stop(runtime, NULL), RCUO_OK);
}

static void *block_offline(void *argument) {
    int *ends = argument;
    char byte;
    if (rcuo_register() != RCUO_OK || rcuo_thread_offline() != RCUO_OK) abort();
    pthread_barrier_wait(&gate);
    if (read(ends[0], &byte, 1) != 1) abort();
    if (rcuo_thread_online() != RCUO_OK || rcuo_quiescent_state() != RCUO_OK) abort();
    return NULL;
}

/* A thread that is offline, and blocks, holds nobody back. */
static void test_blocked(void) {
    struct rcuo_runtime *runtime;
    int ends[2];
    is("start", rcuo_start(&runtime, NULL), RCUO_OK);
    if (pipe(ends)) abort();
    pthread_barrier_init(&gate, NULL, 2);
    pthread_t thread = start_thread(block_offline, ends);
    pthread_barrier_wait(&gate);
    is("register", rcuo_register(), RCUO_OK);
    unsigned long before = LOAD(&ran);
    rcuo_call_rcu(&new_counted(&ran)->head, count_and_free);
    for (int i = 0; i < 10; i++) is("synchronize beside a blocked thread", rcuo_synchronize(), RCUO_OK);
    is("a barrier beside it", rcuo_runtime_barrier(), RCUO_OK);
    holds("a callback ran beside it", LOAD(&ran) == before + 1);
    is("offline twice", rcuo_thread_offline() == RCUO_OK ? rcuo_thread_offline() : RCUO_OTHER, RCUO_OK);
    is("a report of an offline thread", rcuo_quiescent_state(), RCUO_AWAY);
    is("online twice", rcuo_thread_online() == RCUO_OK ? rcuo_thread_online() : RCUO_OTHER, RCUO_OK);
    is("a report", rcuo_quiescent_state(), RCUO_OK);
    is("unregister", rcuo_unregister(), RCUO_OK);
    if (write(ends[1], "", 1) != 1) abort();
    pthread_join(thread, NULL);
    close(ends[0]);
    close(ends[1]);
    pthread_barrier_destroy(&gate);
    is("stop", rcuo_stop(runtime, NULL), RCUO_OK);
}

/* A thread that is online for some time, offline briefly, and never reports, holds nobody back for longer. */
static void *go_and_come(void *none) {
    struct timespec online = {0, 100000};
    if (rcuo_register() != RCUO_OK) abort();
    while (!LOAD(&stop)) {
        nanosleep(&online, NULL);
        if (rcuo_thread_offline() != RCUO_OK || rcuo_thread_online() != RCUO_OK) abort();
        ADD(&reads, 1);
    }
    return none;
}

static void test_brief(unsigned long rounds) {
    struct rcuo_runtime *runtime = start_runtime(1);
    unsigned long before = ran;
    stop = reads = 0;
    pthread_t thread = start_thread(go_and_come, NULL);
    while (!LOAD(&reads)) sched_yield();
    for (unsigned long i = 0; i < rounds; i++) {
        if (rcuo_synchronize() != RCUO_OK) abort();
    }
    rcuo_call_rcu(&new_counted(&ran)->head, count_and_free);
    is("a barrier beside it", rcuo_runtime_barrier(), RCUO_OK);
    holds("a callback ran beside it", LOAD(&ran) == before + 1);
    STORE(&stop, 1);
    pthread_join(thread, NULL);
    is("stop", rcuo_stop(runtime, NULL), RCUO_OK);
}

int main(int count, char **words) {
    unsigned long many = words_of(count, words, 5000);
    test_many_threads(many, PLACES, AT_ONCE, 1);
    test_many_threads(many, PLACES, AT_ONCE, SEVERAL);
    test_places(PLACES);
    if (many >= MANY_AT_ONCE) {
        test_many_threads(many, MANY_PLACES, MANY_AT_ONCE, 1);
        test_places(RCUO_THREADS);
    }
    test_registers(many);
    test_blocked();
    test_brief(many / 5);
    return tell();
}
