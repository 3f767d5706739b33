/*
 * Waiting for grace periods and for callbacks: by threads beside readers, by threads that aren't registered, in callbacks, and by
 * cookies.
 */
#include "threads.h"

#include <signal.h>
#include <string.h>

enum { READERS = 3, WRITERS = 4, POISON = 0xdead };

static unsigned long *shared[WRITERS];
static unsigned long stop, reads, dead_reads, started;

static void *read_all(void *none) {
    if (rcuo_register() != RCUO_OK) abort();
    ADD(&started, 1);
    while (!LOAD(&stop)) {
        rcuo_thread_read_lock();
        for (int i = 0; i < WRITERS; i++) {
            unsigned long *word = rcuo_dereference(shared[i]);
            if (word && LOAD(word) != 1) ADD(&dead_reads, 1);
        }
        rcuo_thread_read_unlock();
        if (rcuo_quiescent_state() != RCUO_OK) abort();
        if (ADD(&reads, 1) % 16 == 0) sched_yield(); /* (there may be fewer processors than threads) */
    }
    return none;
}

struct writer {
    unsigned index;
    unsigned long rounds;
};

/* Replaces a word, waits, and lets the old one go. The odd ones aren't registered. */
static void *write_all(void *argument) {
    struct writer *self = argument;
    bool registered = self->index % 2 == 0;
    if (registered && rcuo_register() != RCUO_OK) abort();
    for (unsigned long i = 0; i < self->rounds; i++) {
        unsigned long *old = shared[self->index], *word = malloc(sizeof *word);
        if (!word) abort();
        *word = 1;
        rcuo_assign_pointer(shared[self->index], word);
        if (rcuo_synchronize() != RCUO_OK) abort();
        if (old) STORE(old, POISON);
        free(old);
    }
    if (registered && rcuo_unregister() != RCUO_OK) abort();
    return NULL;
}

static void test_synchronize(unsigned long rounds) {
    pthread_t readers[READERS], writers[WRITERS];
    struct writer words[WRITERS];
    stop = reads = started = 0;
    for (int t = 0; t < READERS; t++) readers[t] = start_thread(read_all, NULL);
    while (LOAD(&started) < READERS) sched_yield();
    for (unsigned t = 0; t < WRITERS; t++) {
        words[t].index = t;
        words[t].rounds = rounds;
        writers[t] = start_thread(write_all, &words[t]);
    }
    for (int t = 0; t < WRITERS; t++) pthread_join(writers[t], NULL);
    STORE(&stop, 1);
    for (int t = 0; t < READERS; t++) pthread_join(readers[t], NULL);
    holds("there were reads", reads > 0);
    holds("no reader saw what was let go after synchronize", dead_reads == 0);
    for (int i = 0; i < WRITERS; i++) {
        free(shared[i]);
        shared[i] = NULL;
    }
}

/* What a callback is answered. */
struct asked {
    struct rcuo_head head;
    struct rcuo_runtime *runtime;
    unsigned long rounds;
    unsigned long done;
    enum rcuo_answer synchronize, barrier, stop, registers, unregisters, reports;
};

static void ask_all(struct rcuo_head *head) {
    struct asked *asked = OBJECT_OF(head, struct asked);
    for (unsigned long i = 0; i < asked->rounds; i++) {
        asked->synchronize = rcuo_synchronize();
        if (asked->synchronize != RCUO_OK) break;
    }
    rcuo_thread_read_lock();
    rcuo_thread_read_unlock();
    asked->barrier = rcuo_runtime_barrier();
    asked->stop = rcuo_stop(asked->runtime, NULL);
    asked->registers = rcuo_register();
    asked->unregisters = rcuo_unregister();
    asked->reports = rcuo_quiescent_state();
    STORE(&asked->done, 1);
}

static void test_in_callback(struct rcuo_runtime *runtime, unsigned long rounds) {
    struct asked asked;
    asked.runtime = runtime;
    asked.rounds = rounds;
    asked.done = 0;
    is("register", rcuo_register(), RCUO_OK);
    rcuo_call_rcu(&asked.head, ask_all);
    holds("a callback waits for many grace periods", report_until(&asked.done, 1));
    is("synchronize in a callback", asked.synchronize, RCUO_OK);
    is("a barrier in a callback", asked.barrier, RCUO_RUNNING);
    is("stop in a callback", asked.stop, RCUO_RUNNING);
    is("register in a callback", asked.registers, RCUO_FULL);
    is("unregister in a callback", asked.unregisters, RCUO_RUNNING);
    is("a report in a callback", asked.reports, RCUO_OK);
    is("unregister", rcuo_unregister(), RCUO_OK);
}

/* A cookie's grace period ends without a callback, and not before this thread reports. */
static void test_cookies(void) {
    uint64_t cookie = 0;
    bool elapsed = true;
    is("register", rcuo_register(), RCUO_OK);
    is("start a poll", rcuo_start_poll_synchronize(&cookie), RCUO_OK);
    nap(10);
    is("poll", rcuo_poll_state_synchronize(cookie, &elapsed), RCUO_OK);
    holds("it waits for this thread", !elapsed);
    for (double began = seconds(); !elapsed && seconds() - began < 30;) {
        is("a report", rcuo_quiescent_state(), RCUO_OK);
        nap(1);
        is("poll", rcuo_poll_state_synchronize(cookie, &elapsed), RCUO_OK);
    }
    holds("it ends as this thread reports", elapsed);
    is("unregister", rcuo_unregister(), RCUO_OK);
    is("start a poll by a thread that isn't registered", rcuo_start_poll_synchronize(&cookie), RCUO_OK);
    elapsed = false;
    for (int i = 0; i < 3000 && !elapsed; i++) {
        is("poll", rcuo_poll_state_synchronize(cookie, &elapsed), RCUO_OK);
        if (!elapsed) nap(1);
    }
    holds("it ends by the helper alone", elapsed);
}

/* A callback that lasts holds back no thread that waits for a grace period. */
struct lasting {
    struct rcuo_head head;
    unsigned long entered, may_end;
};

static void last_long(struct rcuo_head *head) {
    struct lasting *lasting = OBJECT_OF(head, struct lasting);
    (void)rcuo_thread_offline();
    STORE(&lasting->entered, 1);
    while (!LOAD(&lasting->may_end)) nap(1);
}

static void test_beside_long_callback(void) {
    struct lasting lasting;
    lasting.entered = lasting.may_end = 0;
    rcuo_call_rcu(&lasting.head, last_long);
    while (!LOAD(&lasting.entered)) nap(1);
    for (int i = 0; i < 10; i++) is("synchronize while the helper is in a callback", rcuo_synchronize(), RCUO_OK);
    STORE(&lasting.may_end, 1);
    is("a barrier after it", rcuo_runtime_barrier(), RCUO_OK);
}

/* Callbacks run though the grace period that they wait for is ended by a thread that waits for its own, while the helper goes to
 * sleep: a slow reader has both wait. */
static unsigned long waiting_over;

static void sleep_microseconds(long much) {
    struct timespec time = {0, much * 1000};
    nanosleep(&time, NULL);
}

static void *synchronize_on(void *none) {
    for (long i = 0; !LOAD(&waiting_over); i++) {
        if (rcuo_synchronize() != RCUO_OK) abort();
        sleep_microseconds(i % 8 * 100);
    }
    return none;
}

static void *report_slowly(void *none) {
    if (rcuo_register() != RCUO_OK) abort();
    for (long i = 0; !LOAD(&waiting_over); i++) {
        if (rcuo_quiescent_state() != RCUO_OK) abort();
        sleep_microseconds(i % 16 * 20);
    }
    return none;
}

static void test_beside_synchronize(unsigned long rounds) {
    unsigned long ran = 0, lost = 0;
    STORE(&waiting_over, 0);
    pthread_t threads[2] = {start_thread(synchronize_on, NULL), start_thread(report_slowly, NULL)};
    for (unsigned long i = 1; i <= rounds && !lost; i++) {
        rcuo_call_rcu(&new_counted(&ran)->head, count_and_free);
        for (double began = seconds(); LOAD(&ran) < i && !lost;) {
            lost = seconds() - began > 10;
            sleep_microseconds(20);
        }
    }
    STORE(&waiting_over, 1);
    for (int t = 0; t < 2; t++) pthread_join(threads[t], NULL);
    holds("each callback runs by itself, though another ends grace periods", !lost);
}

/* Signals end the sleep of a thread that waits, and not its wait. */
static unsigned long interrupted;

static void interrupt(int signal) {
    (void)signal;
    ADD(&interrupted, 1);
}

static void *wait_for_both(void *done) {
    if (rcuo_synchronize() != RCUO_OK || rcuo_runtime_barrier() != RCUO_OK) abort();
    STORE((unsigned long *)done, 1);
    return NULL;
}

/* Sends signals until so many were handled. */
static bool interrupt_often(pthread_t thread, unsigned long often) {
    STORE(&interrupted, 0);
    for (double began = seconds(); LOAD(&interrupted) < often && seconds() - began < 60;) {
        pthread_kill(thread, SIGUSR1);
        nap(1);
    }
    return LOAD(&interrupted) >= often;
}

static void test_interrupted(void) {
    struct sigaction action;
    unsigned long done = 0, ran = 0;
    memset(&action, 0, sizeof action); /* (without SA_RESTART) */
    action.sa_handler = interrupt;
    sigaction(SIGUSR1, &action, NULL);
    is("register", rcuo_register(), RCUO_OK);
    rcuo_call_rcu(&new_counted(&ran)->head, count_and_free);
    pthread_t thread = start_thread(wait_for_both, &done);
    holds("signals are handled while a thread waits", interrupt_often(thread, 20));
    holds("its wait is not over, since this thread hasn't reported", !LOAD(&done) && !LOAD(&ran));
    is("offline", rcuo_thread_offline(), RCUO_OK);
    pthread_join(thread, NULL);
    holds("the wait is over when this thread is offline", LOAD(&done) && LOAD(&ran) == 1);
    is("unregister", rcuo_unregister(), RCUO_OK);
}

int main(int count, char **words) {
    unsigned long rounds = words_of(count, words, 1000);
    for (uint32_t helpers = 1; helpers <= SEVERAL; helpers += SEVERAL - 1) {
        struct rcuo_runtime *runtime = start_runtime(helpers);
        test_cookies();
        test_in_callback(runtime, rounds * 60);
        test_beside_long_callback();
        test_beside_synchronize(rounds / 5);
        test_interrupted();
        test_synchronize(rounds);
        is("stop", rcuo_stop(runtime, NULL), RCUO_OK);
    }
    return tell();
}
