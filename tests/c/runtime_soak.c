/*
 * 64 threads at once, which come and go, and call until so many callbacks ran: each callback runs once and in the order of its
 * thread's calls, none is lost, and the peak of memory after a tenth of them is the peak after all.
 *
 *     runtime_soak [CALLBACKS] [HELPERS]    (10000000, and one)
 *
 * The heads are the program's own and used again and again, so what memory grows by is the runtime's.
 */
#include "threads.h"

#include <malloc.h>

/* Of the threads these many aren't registered. Each makes so many calls in its life, of which a window hasn't run. */
enum { THREADS = 64, OUTSIDE = 4, CALLS = 10000, WINDOW = 256, LIVES = 3 };

/* (the peak is that of the tools there) */
#if defined(__SANITIZE_ADDRESS__) || defined(__SANITIZE_THREAD__)
#define MEASURES false
#else
#define MEASURES true
#endif
/* (a tenth of a byte for each of ten million callbacks) */
static const long slack_kilobytes = 1024;

/* What a thread called, from its register to its end. */
struct life {
    unsigned long called, ran;
};

struct node {
    struct rcuo_head head;
    struct life *life;
    unsigned long number;
    unsigned long waits; /* it was called, and hasn't run */
};

/* A place at which threads follow one another. What the one before called may still wait. */
struct place {
    pthread_t thread;
    unsigned long index, threads;
    bool registers;
    struct life lives[LIVES];
    struct node nodes[WINDOW];
};

static struct place places[THREADS];
static unsigned long ran, out_of_order, twice, full, may_run, ended;

static void count_node(struct rcuo_head *head) {
    struct node *node = OBJECT_OF(head, struct node);
    struct life *life = node->life;
    if (node->number != LOAD(&life->ran)) ADD(&out_of_order, 1);
    if (!LOAD(&node->waits)) ADD(&twice, 1);
    ADD(&life->ran, 1);
    ADD(&ran, 1);
    STORE(&node->waits, 0); /* (from here on the thread may call with it again) */
}

/* While callbacks are waited for every other thread reports, and the others are offline. */
static void rest(const struct place *place) {
    bool leaves = place->registers && place->index % 2;
    if (leaves && rcuo_thread_offline() != RCUO_OK) abort();
    nap(1);
    if (leaves && rcuo_thread_online() != RCUO_OK) abort();
    if (place->registers && rcuo_quiescent_state() != RCUO_OK) abort();
}

static void call_next(struct place *place, struct life *life) {
    struct node *node = &place->nodes[life->called % WINDOW];
    while (LOAD(&node->waits)) rest(place);
    node->life = life;
    node->number = life->called++;
    STORE(&node->waits, 1);
    rcuo_call_rcu(&node->head, count_node);
    if (place->registers && life->called % 32 == 0 && rcuo_quiescent_state() != RCUO_OK) abort();
}

/* The first thread of a place fills its window, and waits until all have. */
static void fill_window(struct place *place, struct life *life) {
    while (life->called < WINDOW) call_next(place, life);
    ADD(&full, 1);
    while (!LOAD(&may_run)) rest(place);
}

static void *live(void *argument) {
    struct place *place = argument;
    struct life *life = &place->lives[place->threads % LIVES];
    while (LOAD(&life->ran) < life->called) nap(1);
    life->called = 0;
    STORE(&life->ran, 0);
    if (place->registers && rcuo_register() != RCUO_OK) abort();
    if (place->threads == 0) fill_window(place, life);
    while (life->called < CALLS) call_next(place, life);
    /* (a thread goes in one of three ways) */
    if (place->registers && place->threads % 3 == 0 && rcuo_unregister() != RCUO_OK) abort();
    if (place->registers && place->threads % 3 == 1 && rcuo_thread_offline() != RCUO_OK) abort();
    ADD(&ended, 1);
    return NULL;
}

/* All windows are full while this thread, which doesn't report, holds back all callbacks: so what waits at most is had at once. */
static void start_places(void) {
    is("register", rcuo_register(), RCUO_OK);
    for (unsigned long p = 0; p < THREADS; p++) {
        places[p].index = p;
        places[p].registers = p >= OUTSIDE;
        places[p].thread = start_thread(live, &places[p]);
    }
    while (LOAD(&full) < THREADS) nap(1);
    holds("nothing runs while this thread doesn't report", LOAD(&ran) == 0);
    STORE(&may_run, 1);
    is("unregister", rcuo_unregister(), RCUO_OK);
}

static long peak(void) {
    struct rusage used;
    return getrusage(RUSAGE_SELF, &used) == 0 ? used.ru_maxrss : -1;
}

/* Each thread is followed by another at its place, until so many callbacks ran. */
static void live_on(unsigned long callbacks, long *early) {
    for (unsigned long next = 0; LOAD(&ran) < callbacks; next++) {
        struct place *place = &places[next % THREADS];
        pthread_join(place->thread, NULL);
        place->threads++;
        place->thread = start_thread(live, place);
        if (!*early && LOAD(&ran) >= callbacks / 10) *early = peak();
    }
    for (int p = 0; p < THREADS; p++) pthread_join(places[p].thread, NULL);
}

int main(int count, char **words) {
    unsigned long callbacks = words_of(count, words, 10000000);
    struct rcuo_runtime *runtime = start_runtime(count > 2 ? (uint32_t)strtoul(words[2], NULL, 10) : 1);
    double began = seconds();
    long early = 0;
    mallopt(M_ARENA_MAX, 1); /* (else each new thread may take from another arena, all of which grow before they are flat) */
    start_places();
    live_on(callbacks, &early);
    is("a barrier", rcuo_runtime_barrier(), RCUO_OK);
    is("stop", rcuo_stop(runtime, NULL), RCUO_OK);
    long late = peak();
    printf("%lu callbacks of %lu threads in %.1f s, peak memory %ld KB after a tenth and %ld KB after all\n", ran, ended,
           seconds() - began, early, late);
    holds("none is lost", ran == ended * CALLS && ran >= callbacks);
    holds("none ran twice", twice == 0);
    holds("each thread's ran in order", out_of_order == 0);
    holds("the peak is flat", !MEASURES || (early > 0 && late - early <= slack_kilobytes));
    return tell();
}
