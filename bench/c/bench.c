/*
 * One program over librcuo and over liburcu (library.h), which `tools/bench` builds and compares.
 *
 *     bench calls THREADS CALLS [malloc] [each] [times]
 *     bench reports THREADS REPORTS
 *     bench periods THREADS PERIODS
 *     bench counts 1 CALLS [malloc]
 *
 * calls: each thread retires so many nodes, of a pool or by malloc, and reports after each 64; their callbacks run in one helper,
 * or `each` thread has its own. It prints nanoseconds until all were called and until all had run, and with `times` what a call
 * takes. reports: each thread reports so often, while no grace period is needed. periods: one thread more waits for so many grace
 * periods, one after another, while the others report. counts: batches of 1000 calls, each of whose callbacks run before the next; it
 * prints how often memory was asked for in the second half, within the calls and elsewhere, and `make_calls` is for a counter of
 * instructions. So of librcuo one thread makes all turns, and nothing depends on the schedule.
 */
#include "library.h"

#include <string.h>
#include <sys/resource.h>

#define CALLS_TO_A_REPORT 64
#define CALLS_TO_A_BATCH 1000

struct node {
    struct library_head head;
    uint64_t *ran; /* that of the node's thread */
};

/* What a thread does, and what came of it; each on lines of its own, and so is what its callbacks write in another thread. */
struct worker {
    _Alignas(128) unsigned number;
    uint64_t many;
    uint64_t spent;
    struct node *pool;
    uint32_t *times;
    _Alignas(128) uint64_t ran;
};

static struct worker workers[LIBRARY_THREADS];
static pthread_barrier_t gate;
static atomic_bool over;
static bool by_malloc, each, timed;

/* How often this program, with all its libraries, asked for memory: within calls, and elsewhere. */
static __thread bool is_calling;
static atomic_ulong asked_in_calls, asked_elsewhere;

#ifdef COUNTS
/* (glibc's own names of what is counted) */
void *__libc_malloc(size_t size);
void *__libc_calloc(size_t many, size_t size);
void *__libc_realloc(void *place, size_t size);

static void count_ask(void) {
    atomic_fetch_add_explicit(is_calling ? &asked_in_calls : &asked_elsewhere, 1, memory_order_relaxed);
}

void *malloc(size_t size) {
    count_ask();
    return __libc_malloc(size);
}

void *calloc(size_t many, size_t size) {
    count_ask();
    return __libc_calloc(many, size);
}

void *realloc(void *place, size_t size) {
    count_ask();
    return __libc_realloc(place, size);
}
#endif

static uint64_t nanoseconds(void) {
    struct timespec now;
    clock_gettime(CLOCK_MONOTONIC, &now);
    return (uint64_t)now.tv_sec * 1000000000 + (uint64_t)now.tv_nsec;
}

static void *allocate(size_t many, size_t size) {
    void *place = calloc(many ? many : 1, size);
    if (!place) abort();
    return place;
}

LIBRARY_CALLBACK(count_node) {
    struct node *node = (struct node *)(void *)head;
    ++*node->ran;
}

LIBRARY_CALLBACK(free_node) {
    struct node *node = (struct node *)(void *)head;
    ++*node->ran;
    free(node);
}

static struct node *next_node(struct worker *self, uint64_t number) {
    struct node *node = by_malloc ? malloc(sizeof *node) : &self->pool[number];
    if (!node) abort();
    node->ran = &self->ran;
    return node;
}

static void *call_all(void *argument) {
    struct worker *self = argument;
    library_register(self->number, each);
    pthread_barrier_wait(&gate);
    for (uint64_t i = 0; i < self->many; i++) {
        uint64_t began = timed ? nanoseconds() : 0;
        library_call(self->number, &next_node(self, i)->head, by_malloc ? free_node : count_node);
        if (timed) self->times[i] = (uint32_t)(nanoseconds() - began);
        if (i % CALLS_TO_A_REPORT == CALLS_TO_A_REPORT - 1) library_turn(self->number);
    }
    pthread_barrier_wait(&gate);
    library_unregister(self->number);
    return NULL;
}

static void *report_all(void *argument) {
    struct worker *self = argument;
    library_register(self->number, false);
    pthread_barrier_wait(&gate);
    uint64_t began = nanoseconds();
    for (uint64_t i = 0; i < self->many; i++) library_report(self->number);
    self->spent = nanoseconds() - began;
    library_unregister(self->number);
    return NULL;
}

static void *report_on(void *argument) {
    struct worker *self = argument;
    library_register(self->number, false);
    pthread_barrier_wait(&gate);
    while (!atomic_load_explicit(&over, memory_order_relaxed)) library_report(self->number);
    library_unregister(self->number);
    return NULL;
}

static int by_time(const void *one, const void *other) {
    uint32_t a = *(const uint32_t *)one, b = *(const uint32_t *)other;
    return (a > b) - (a < b);
}

/* Prints the time of a call: in the middle, the greatest of 99 and of 99.99 in 100, and the longest. */
static void print_times(unsigned threads, uint64_t calls) {
    size_t all = (size_t)threads * calls;
    uint32_t *times = allocate(all, sizeof *times);
    for (unsigned t = 0; t < threads; t++) memcpy(times + t * calls, workers[t].times, calls * sizeof *times);
    qsort(times, all, sizeof *times, by_time);
    printf(" p50 %u p99 %u p9999 %u longest %u", times[all / 2], times[all / 100 * 99], times[all / 10000 * 9999], times[all - 1]);
    free(times);
}

static uint64_t processor_nanoseconds(void) {
    struct rusage used;
    getrusage(RUSAGE_SELF, &used);
    struct timeval user = used.ru_utime, system = used.ru_stime;
    return (uint64_t)(user.tv_sec + system.tv_sec) * 1000000000 + (uint64_t)(user.tv_usec + system.tv_usec) * 1000;
}

static void start(pthread_t *threads, unsigned many, uint64_t rounds, void *(*run)(void *)) {
    pthread_barrier_init(&gate, NULL, many + 1);
    for (unsigned t = 0; t < many; t++) {
        workers[t].number = t;
        workers[t].many = rounds;
        if (pthread_create(&threads[t], NULL, run, &workers[t])) abort();
    }
    pthread_barrier_wait(&gate);
}

static int measure_calls(unsigned many, uint64_t calls) {
    pthread_t threads[LIBRARY_THREADS];
    uint64_t ran = 0;
    for (unsigned t = 0; t < many; t++) {
        workers[t].pool = by_malloc ? NULL : allocate(calls, sizeof(struct node));
        workers[t].times = timed ? allocate(calls, sizeof(uint32_t)) : NULL;
    }
    library_open(many, each);
    uint64_t used = processor_nanoseconds();
    start(threads, many, calls, call_all);
    uint64_t began = nanoseconds();
    pthread_barrier_wait(&gate);
    uint64_t called = nanoseconds() - began;
    library_barrier();
    uint64_t whole = nanoseconds() - began;
    used = processor_nanoseconds() - used;
    atomic_store(&over, true);
    for (unsigned t = 0; t < many; t++) pthread_join(threads[t], NULL);
    for (unsigned t = 0; t < many; t++) ran += workers[t].ran;
    printf("ran %lu called_ns %lu whole_ns %lu processor_ns %lu", ran, called, whole, used);
    if (timed) print_times(many, calls);
    printf("\n");
    library_close();
    return ran == many * calls ? 0 : 1;
}

static int measure_reports(unsigned many, uint64_t reports) {
    pthread_t threads[LIBRARY_THREADS];
    uint64_t spent = 0;
    library_open_bare(many);
    start(threads, many, reports, report_all);
    for (unsigned t = 0; t < many; t++) pthread_join(threads[t], NULL);
    for (unsigned t = 0; t < many; t++) spent += workers[t].spent;
    printf("reports %lu spent_ns %lu\n", many * reports, spent);
    library_close();
    return 0;
}

static int measure_periods(unsigned many, uint64_t periods) {
    pthread_t threads[LIBRARY_THREADS];
    library_open_bare(many + 1);
    start(threads, many, 0, report_on);
    library_register(many, false);
    uint64_t began = nanoseconds();
    for (uint64_t i = 0; i < periods; i++) library_synchronize(many);
    uint64_t spent = nanoseconds() - began;
    atomic_store(&over, true);
    library_unregister(many);
    for (unsigned t = 0; t < many; t++) pthread_join(threads[t], NULL);
    printf("periods %lu spent_ns %lu\n", periods, spent);
    library_close();
    return 0;
}

/* (a function of its own, so that a counter of instructions knows it) */
__attribute__((noinline, noclone)) static void make_calls(struct worker *self, uint64_t from) {
    is_calling = true;
    for (uint64_t i = from; i < from + CALLS_TO_A_BATCH; i++) {
        library_call(self->number, &next_node(self, i)->head, by_malloc ? free_node : count_node);
    }
    is_calling = false;
}

static int measure_counts(uint64_t calls) {
    struct worker *self = &workers[0];
    unsigned long in_calls = 0, elsewhere = 0;
    calls -= calls % (2 * CALLS_TO_A_BATCH);
    self->pool = by_malloc ? NULL : allocate(calls, sizeof(struct node));
    library_open_alone();
    for (uint64_t i = 0; i < calls; i += CALLS_TO_A_BATCH) {
        if (i == calls / 2) in_calls = asked_in_calls, elsewhere = asked_elsewhere;
        make_calls(self, i);
        library_run_all(&self->ran, i + CALLS_TO_A_BATCH);
    }
    in_calls = asked_in_calls - in_calls, elsewhere = asked_elsewhere - elsewhere;
    printf("ran %lu counted %lu in_calls %lu elsewhere %lu\n", self->ran, calls / 2, in_calls, elsewhere);
    library_close();
    return self->ran == calls ? 0 : 1;
}

int main(int count, char **words) {
    uint64_t threads = count > 3 ? strtoul(words[2], NULL, 10) : 0;
    uint64_t rounds = count > 3 ? strtoul(words[3], NULL, 10) : 0;
    if (threads < 1 || threads >= LIBRARY_THREADS || rounds < 1) {
        fprintf(stderr, "bench calls|reports|periods|counts THREADS ROUNDS [malloc] [each] [times], with 1 to 15 threads\n");
        return 2;
    }
    for (int i = 4; i < count; i++) {
        by_malloc |= strcmp(words[i], "malloc") == 0;
        each |= strcmp(words[i], "each") == 0;
        timed |= strcmp(words[i], "times") == 0;
    }
    if (strcmp(words[1], "reports") == 0) return measure_reports((unsigned)threads, rounds);
    if (strcmp(words[1], "periods") == 0) return measure_periods((unsigned)threads, rounds);
    if (strcmp(words[1], "counts") == 0) return measure_counts(rounds);
    return measure_calls((unsigned)threads, rounds);
}
