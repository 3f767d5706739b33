/*
 * Each allocation of a runtime and of the library, and each thread that a start makes, is refused in turn, once and from then on
 * until the program waits: a start is refused with nothing left of it, and else no call fails, all callbacks run once and in order,
 * and at the end nothing is left on the heap. Linked with
 * -Wl,--wrap=malloc,--wrap=realloc,--wrap=free,--wrap=posix_memalign,--wrap=pthread_create.
 */
#include "threads.h"

#include <errno.h>

void *__real_malloc(size_t size);
void *__real_realloc(void *at, size_t size);
void __real_free(void *at);
int __real_posix_memalign(void **at, size_t align, size_t size);
int __real_pthread_create(pthread_t *thread, const pthread_attr_t *attributes, void *(*run)(void *), void *argument);

/* (several threads allocate, so which one it is that is refused may differ from run to run) */
static long made, refuse_at, refuse_on, live, refused;

static bool is_refused(void) {
    long number = ADD(&made, 1), at = LOAD(&refuse_at);
    if (!at || number < at || (number > at && !LOAD(&refuse_on))) return false;
    ADD(&refused, 1);
    return true;
}

void *__wrap_malloc(size_t size) {
    if (is_refused()) return NULL;
    void *at = __real_malloc(size);
    if (at) ADD(&live, 1);
    return at;
}

void *__wrap_realloc(void *at, size_t size) {
    if (is_refused()) return NULL;
    void *again = __real_realloc(at, size);
    if (again && !at) ADD(&live, 1);
    return again;
}

void __wrap_free(void *at) {
    if (at) ADD(&live, -1);
    __real_free(at);
}

int __wrap_posix_memalign(void **at, size_t align, size_t size) {
    if (is_refused()) return ENOMEM;
    int error = __real_posix_memalign(at, align, size);
    if (!error) ADD(&live, 1);
    return error;
}

/* (the test's own threads are made) */
static bool is_starting;
static unsigned long refused_threads;

int __wrap_pthread_create(pthread_t *thread, const pthread_attr_t *attributes, void *(*run)(void *), void *argument) {
    if (!is_starting || !is_refused()) return __real_pthread_create(thread, attributes, run, argument);
    refused_threads++;
    return EAGAIN;
}

enum { CALLS = 60, OUTSIDE_CALLS = 20, AGAIN = 3 };

struct numbered {
    struct rcuo_head head;
    unsigned long number;
};

static struct numbered mine[CALLS], outside[OUTSIDE_CALLS];
static struct rcuo_head again; /* (which may run until stop) */
static unsigned long ran_mine, ran_outside, ran_again, ran_deferred, out_of_order;

static void run_mine(struct rcuo_head *head) {
    if (OBJECT_OF(head, struct numbered)->number != LOAD(&ran_mine)) ADD(&out_of_order, 1);
    ADD(&ran_mine, 1);
}

static void run_outside(struct rcuo_head *head) {
    if (OBJECT_OF(head, struct numbered)->number != LOAD(&ran_outside)) ADD(&out_of_order, 1);
    ADD(&ran_outside, 1);
}

static void run_again(struct rcuo_head *head) {
    if (ADD(&ran_again, 1) < AGAIN) rcuo_call_rcu(head, run_again);
}

static void run_deferred(void *argument) {
    ADD((unsigned long *)argument, 1);
}

static void *call_outside(void *none) {
    for (unsigned long i = 0; i < OUTSIDE_CALLS; i++) {
        outside[i].number = i;
        rcuo_call_rcu(&outside[i].head, run_outside);
    }
    return none;
}

/* A registered thread calls, reports, goes offline in the middle, and goes. */
static void call_mine(void) {
    for (unsigned long i = 0; i < CALLS; i++) {
        mine[i].number = i;
        rcuo_call_rcu(&mine[i].head, run_mine);
        if (i % 8 == 7) (void)rcuo_quiescent_state();
        if (i == CALLS / 3) (void)rcuo_thread_offline();
        if (i == CALLS / 2) (void)rcuo_thread_online();
    }
}

static void use_once(void) {
    is("register", rcuo_register(), RCUO_OK);
    pthread_t thread = start_thread(call_outside, NULL);
    rcuo_call_rcu(&again, run_again);
    call_mine();
    pthread_join(thread, NULL);
    is("synchronize", rcuo_synchronize(), RCUO_OK);
    is("defer", rcuo_defer(run_deferred, &ran_deferred), RCUO_OK);
    is("unregister", rcuo_unregister(), RCUO_OK);
    STORE(&refuse_on, 0);
    is("a barrier", rcuo_runtime_barrier(), RCUO_OK);
    holds("all of this thread has run after the barrier", ran_mine == CALLS && ran_deferred == 1);
    holds("all of the other has run after it", ran_outside == OUTSIDE_CALLS);
}

static enum rcuo_answer start_once(struct rcuo_runtime **runtime, uint32_t helpers) {
    struct rcuo_options options = {.threads = 4, .helpers = helpers};
    is_starting = true;
    enum rcuo_answer answer = rcuo_start(runtime, &options);
    is_starting = false;
    return answer;
}

/* A whole life of a runtime. */
static void live_once(uint32_t helpers) {
    struct rcuo_runtime *runtime;
    long at_first = LOAD(&live);
    ran_mine = ran_outside = ran_again = ran_deferred = 0;
    enum rcuo_answer answer = start_once(&runtime, helpers);
    if (answer == RCUO_MEMORY) {
        holds("nothing is left of a start that was refused", LOAD(&live) == at_first);
        STORE(&refuse_on, 0);
        STORE(&refuse_at, 0);
        answer = start_once(&runtime, helpers);
    }
    is("start", answer, RCUO_OK);
    use_once();
    do answer = rcuo_stop(runtime, NULL);
    while (answer == RCUO_MEMORY);
    is("stop", answer, RCUO_OK);
    holds("a callback that calls again ran as often", ran_again == AGAIN);
    holds("nothing is left on the heap", LOAD(&live) == at_first);
}

/* A stop whose every allocation is refused in turn, and which is made again. */
static void stop_refused(uint32_t helpers) {
    for (long n = 1, before = -1; before != LOAD(&refused); n++) {
        struct rcuo_runtime *runtime;
        long at_first = LOAD(&live);
        STORE(&refuse_at, 0);
        is("start", start_once(&runtime, helpers), RCUO_OK);
        before = LOAD(&refused);
        STORE(&made, 0);
        STORE(&refuse_at, n);
        enum rcuo_answer answer = rcuo_stop(runtime, NULL);
        STORE(&refuse_at, 0);
        if (answer == RCUO_MEMORY) answer = rcuo_stop(runtime, NULL);
        is("stop", answer, RCUO_OK);
        holds("nothing is left on the heap", LOAD(&live) == at_first);
    }
}

/* A helper that is refused, and added again. */
static void add_refused(void) {
    struct rcuo_options options = {.threads = 4, .helpers_most = 2};
    struct rcuo_runtime *runtime;
    pthread_t thread;
    uint32_t number = 0;
    long at_first = LOAD(&live);
    STORE(&refuse_at, 0);
    is("start", rcuo_start(&runtime, &options), RCUO_OK);
    is_starting = true;
    STORE(&made, 0);
    STORE(&refuse_at, 1);
    is("add a helper that is refused", rcuo_add_helper(NULL, &number), RCUO_MEMORY);
    is("it isn't there", rcuo_get_helper_thread(1, &thread), RCUO_NO_PROCESSOR);
    is("add it again", rcuo_add_helper(NULL, &number), RCUO_OK);
    is_starting = false;
    STORE(&refuse_at, 0);
    holds("it has its number", number == 1);
    is("stop", rcuo_stop(runtime, NULL), RCUO_OK);
    holds("nothing is left on the heap", LOAD(&live) == at_first);
}

static void *call_all_mine(void *none) {
    is("register", rcuo_register(), RCUO_OK);
    for (unsigned long i = 0; i < CALLS; i++) {
        mine[i].number = i;
        rcuo_call_rcu(&mine[i].head, run_mine);
    }
    is("unregister", rcuo_unregister(), RCUO_OK);
    return none;
}

/* Memory is refused while more callbacks than need none are to be given to a hand: they run once there is memory, whoever sleeps. */
static void give_refused(void) {
    struct rcuo_runtime *runtime;
    long at_first = LOAD(&live);
    ran_mine = 0;
    is("start", start_once(&runtime, 1), RCUO_OK);
    is("register", rcuo_register(), RCUO_OK);
    pthread_join(start_thread(call_all_mine, NULL), NULL); /* (their grace period waits for this thread) */
    nap(20);
    STORE(&made, 0);
    STORE(&refuse_on, 1);
    STORE(&refuse_at, 1);
    is("offline", rcuo_thread_offline(), RCUO_OK);
    nap(20); /* (the helper sleeps meanwhile) */
    STORE(&refuse_at, 0);
    STORE(&refuse_on, 0);
    is("a barrier", rcuo_runtime_barrier(), RCUO_OK);
    holds("all have run after it", ran_mine == CALLS);
    is("unregister", rcuo_unregister(), RCUO_OK);
    is("stop", rcuo_stop(runtime, NULL), RCUO_OK);
    holds("nothing is left on the heap", LOAD(&live) == at_first);
}

/* Lives of which the n-th allocation is refused, for n from 1 until none was, with the later ones or without them. */
static long refuse_each(uint32_t helpers, long on, long step) {
    long runs = 0, before = -1;
    for (long n = 1; before != LOAD(&refused) && !failed; n += step) {
        before = LOAD(&refused);
        STORE(&made, 0);
        STORE(&refuse_on, on);
        STORE(&refuse_at, n);
        live_once(helpers);
        runs++;
    }
    return runs;
}

int main(int count, char **words) {
    long step = (long)words_of(count, words, 1), runs = 0;
    for (uint32_t helpers = 1; helpers <= SEVERAL; helpers += SEVERAL - 1) {
        unsigned long before = refused_threads;
        for (long on = 0; on < 2; on++) runs += refuse_each(helpers, on, step);
        holds("each helper was refused", step > 1 || refused_threads - before >= 2 * helpers);
        STORE(&refuse_on, 0);
        stop_refused(helpers);
    }
    add_refused();
    give_refused();
    holds("each thread's ran in order", out_of_order == 0);
    printf("runs %ld, refused %ld, of these threads %lu\n", runs, LOAD(&refused), refused_threads);
    return tell();
}
