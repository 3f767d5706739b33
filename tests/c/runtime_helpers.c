/*
 * A runtime of several helpers: their names, processors and scheduling class, which of them runs whose callbacks, that one which is
 * held up holds up no other, helpers that are added, and threads that the system refuses.
 */
#include "threads.h"

#include <string.h>
#include <sys/wait.h>

/* ---- how they are ---- */

static bool has_name(uint32_t number, const char *name) {
    char said[16] = "";
    pthread_t thread;
    for (int i = 0; i < 1000 && strcmp(said, name); i++) { /* (a helper names itself) */
        if (rcuo_get_helper_thread(number, &thread) != RCUO_OK || pthread_getname_np(thread, said, sizeof said)) return false;
        nap(1);
    }
    return !strcmp(said, name);
}

static void test_names(void) {
    static const struct rcuo_helper each[SEVERAL] = {{NULL, NULL}, {"second", NULL}, {"of more than fifteen bytes", NULL}};
    struct rcuo_options options = {.name = "deferred-work", .helpers = SEVERAL, .each = each};
    struct rcuo_runtime *runtime;
    pthread_t thread;
    is("a helper where no runtime is", rcuo_get_helper_thread(0, &thread), RCUO_NO_PROCESSOR);
    is("start", rcuo_start(&runtime, &options), RCUO_OK);
    holds("the first has the common name with its number", has_name(0, "deferred-/0"));
    holds("the second has a name of its own", has_name(1, "second"));
    holds("the third has fifteen bytes of it", has_name(2, "of more than fi"));
    is("a helper that isn't there", rcuo_get_helper_thread(SEVERAL, &thread), RCUO_NO_PROCESSOR);
    is("a helper without a place for it", rcuo_get_helper_thread(0, NULL), RCUO_NULL);
    is("stop", rcuo_stop(runtime, NULL), RCUO_OK);
}

/* The processors that a thread may run on, of which the last stands for itself. */
static int last_processor(pthread_t thread, int *many) {
    cpu_set_t set;
    int last = -1;
    *many = 0;
    if (pthread_getaffinity_np(thread, sizeof set, &set)) abort();
    for (int p = 0; p < CPU_SETSIZE; p++) {
        if (!CPU_ISSET((size_t)p, &set)) continue;
        last = p;
        ++*many;
    }
    return last;
}

static void test_processors(void) {
    struct rcuo_helper each[2] = {{NULL, NULL}, {NULL, NULL}};
    struct rcuo_options options = {.helpers = 2, .each = each};
    struct rcuo_runtime *runtime;
    pthread_attr_t attributes;
    pthread_t thread;
    cpu_set_t set;
    int all, some;
    int processor = last_processor(pthread_self(), &all);
    CPU_ZERO(&set);
    CPU_SET((size_t)processor, &set);
    pthread_attr_init(&attributes);
    if (pthread_attr_setaffinity_np(&attributes, sizeof set, &set)) abort();
    each[1].attributes = &attributes;
    is("start", rcuo_start(&runtime, &options), RCUO_OK);
    is("the second helper", rcuo_get_helper_thread(1, &thread), RCUO_OK);
    holds("it may run on its own processor alone", last_processor(thread, &some) == processor && some == 1);
    is("the first helper", rcuo_get_helper_thread(0, &thread), RCUO_OK);
    holds("it may run on all", last_processor(thread, &some) == processor && some == all);
    is("stop", rcuo_stop(runtime, NULL), RCUO_OK);
    pthread_attr_destroy(&attributes);
}

static void *return_it(void *it) {
    return it;
}

/* Whether the system lets threads of these attributes be made, which takes a privilege. */
static bool may_have(const pthread_attr_t *attributes) {
    pthread_t thread;
    if (pthread_create(&thread, attributes, return_it, NULL)) return false;
    pthread_join(thread, NULL);
    return true;
}

static void test_class(void) {
    struct sched_param least = {.sched_priority = 1}, got;
    struct rcuo_options options = {.helpers = SEVERAL};
    struct rcuo_runtime *runtime;
    pthread_attr_t attributes;
    pthread_t thread;
    int class = -1;
    pthread_attr_init(&attributes);
    pthread_attr_setinheritsched(&attributes, PTHREAD_EXPLICIT_SCHED);
    pthread_attr_setschedpolicy(&attributes, SCHED_FIFO);
    pthread_attr_setschedparam(&attributes, &least);
    options.attributes = &attributes;
    bool may = may_have(&attributes);
    is("start with a scheduling class, where it may be had", rcuo_start(&runtime, &options), may ? RCUO_OK : RCUO_MEMORY);
    if (may) {
        is("the last helper", rcuo_get_helper_thread(SEVERAL - 1, &thread), RCUO_OK);
        holds("it has that class", !pthread_getschedparam(thread, &class, &got) && class == SCHED_FIFO && got.sched_priority == 1);
        is("stop", rcuo_stop(runtime, NULL), RCUO_OK);
    }
    pthread_attr_destroy(&attributes);
}

/* ---- whose callbacks they run ---- */

/* A thread that calls, and the helper that ran what it called. */
struct caller {
    struct rcuo_head head;
    pthread_t told, ran_in;
    bool told_itself;
    unsigned long ran;
};

static pthread_barrier_t gate;

static void note_helper(struct rcuo_head *head) {
    struct caller *caller = OBJECT_OF(head, struct caller);
    caller->ran_in = pthread_self();
    caller->told_itself = pthread_equal(rcuo_helper_thread(), pthread_self());
    STORE(&caller->ran, 1);
}

/* Is registered until all are. */
static void *call_registered(void *argument) {
    struct caller *caller = argument;
    if (rcuo_register() != RCUO_OK) abort();
    caller->told = rcuo_helper_thread();
    rcuo_call_rcu(&caller->head, note_helper);
    if (rcuo_thread_offline() != RCUO_OK) abort();
    pthread_barrier_wait(&gate);
    return NULL;
}

static void test_shared_out(void) {
    struct rcuo_runtime *runtime = start_runtime(SEVERAL);
    static struct caller callers[2 * SEVERAL];
    pthread_t threads[2 * SEVERAL], thread;
    unsigned many[SEVERAL] = {0};
    pthread_barrier_init(&gate, NULL, 2 * SEVERAL);
    for (int t = 0; t < 2 * SEVERAL; t++) threads[t] = start_thread(call_registered, &callers[t]);
    for (int t = 0; t < 2 * SEVERAL; t++) pthread_join(threads[t], NULL);
    is("a barrier", rcuo_runtime_barrier(), RCUO_OK);
    for (int t = 0; t < 2 * SEVERAL; t++) {
        holds("it ran in the helper that its caller was told", callers[t].ran && pthread_equal(callers[t].told, callers[t].ran_in));
        holds("in a callback that is itself", callers[t].told_itself);
        for (uint32_t n = 0; n < SEVERAL; n++) {
            is("a helper", rcuo_get_helper_thread(n, &thread), RCUO_OK);
            many[n] += pthread_equal(thread, callers[t].ran_in) != 0;
        }
    }
    for (uint32_t n = 0; n < SEVERAL; n++) holds("each helper has as many threads", many[n] == 2);
    pthread_barrier_destroy(&gate);
    is("stop", rcuo_stop(runtime, NULL), RCUO_OK);
}

/* ---- beside one that is held up ---- */

static unsigned long entered, may_end;

static void last_long(struct rcuo_head *head) {
    (void)head;
    (void)rcuo_thread_offline();
    STORE(&entered, 1);
    while (!LOAD(&may_end)) nap(1);
}

/* Of two helpers the one that doesn't run what this thread calls. */
static uint32_t other_helper(void) {
    pthread_t first;
    is("the first helper", rcuo_get_helper_thread(0, &first), RCUO_OK);
    return pthread_equal(first, rcuo_helper_thread()) ? 1 : 0;
}

static void test_held_up(void) {
    struct rcuo_runtime *runtime = start_runtime(2);
    struct rcuo_head head;
    unsigned long ran = 0;
    uint64_t cookie;
    bool elapsed = false;
    is("register", rcuo_register(), RCUO_OK);
    rcuo_call_rcu_in(other_helper(), &head, last_long);
    holds("a callback is entered", report_until(&entered, 1));
    rcuo_call_rcu(&new_counted(&ran)->head, count_and_free);
    holds("this thread's run beside it", report_until(&ran, 1));
    is("synchronize beside it", rcuo_synchronize(), RCUO_OK);
    is("start a poll beside it", rcuo_start_poll_synchronize(&cookie), RCUO_OK);
    is("synchronize after it", rcuo_synchronize(), RCUO_OK);
    is("poll", rcuo_poll_state_synchronize(cookie, &elapsed), RCUO_OK);
    holds("it has elapsed", elapsed);
    is("unregister", rcuo_unregister(), RCUO_OK);
    STORE(&may_end, 1);
    is("stop", rcuo_stop(runtime, NULL), RCUO_OK);
}

/* Callbacks of two helpers that wait for grace periods, each beside the other. */
struct waiting {
    struct rcuo_head head;
    unsigned long rounds, done;
};

static void wait_again(struct rcuo_head *head) {
    struct waiting *waiting = OBJECT_OF(head, struct waiting);
    for (unsigned long i = 0; i < waiting->rounds; i++) {
        if (rcuo_synchronize() != RCUO_OK) abort();
    }
    STORE(&waiting->done, 1);
}

static void test_both_wait(unsigned long rounds) {
    struct rcuo_runtime *runtime = start_runtime(2);
    struct waiting one = {.rounds = rounds}, other = {.rounds = rounds};
    is("register", rcuo_register(), RCUO_OK);
    rcuo_call_rcu_in(0, &one.head, wait_again);
    rcuo_call_rcu_in(1, &other.head, wait_again);
    holds("both are done", report_until(&one.done, 1) && report_until(&other.done, 1));
    is("unregister", rcuo_unregister(), RCUO_OK);
    is("stop", rcuo_stop(runtime, NULL), RCUO_OK);
}

/* ---- one that is added ---- */

static void *call_in_it(void *argument) {
    struct caller *caller = argument;
    uint32_t number = 0;
    pthread_t thread;
    static const struct rcuo_helper own = {"added", NULL};
    is("add a helper", rcuo_add_helper(&own, &number), RCUO_OK);
    is("it is there", rcuo_get_helper_thread(number, &thread), RCUO_OK);
    caller->told = thread;
    rcuo_call_rcu_in(number, &caller->head, note_helper);
    return NULL;
}

static void add_in_callback(struct rcuo_head *head) {
    uint32_t number;
    is("add a helper in a callback", rcuo_add_helper(NULL, &number), RCUO_RUNNING);
    STORE(&OBJECT_OF(head, struct waiting)->done, 1);
}

static void test_added(void) {
    struct rcuo_options options = {.threads = 2, .helpers_most = SEVERAL};
    struct rcuo_runtime *runtime;
    struct caller callers[SEVERAL - 1];
    struct waiting asks = {.done = 0};
    uint32_t number;
    pthread_attr_t attributes;
    struct rcuo_helper detached = {NULL, &attributes};
    pthread_attr_init(&attributes);
    pthread_attr_setdetachstate(&attributes, PTHREAD_CREATE_DETACHED);
    is("add a helper where no runtime is", rcuo_add_helper(NULL, &number), RCUO_NO_PROCESSOR);
    is("start", rcuo_start(&runtime, &options), RCUO_OK);
    is("a helper that isn't there yet", rcuo_get_helper_thread(1, &(pthread_t){0}), RCUO_NO_PROCESSOR);
    is("add a helper without a place for its number", rcuo_add_helper(NULL, NULL), RCUO_NULL);
    is("add one that can't be joined", rcuo_add_helper(&detached, &number), RCUO_SHAPE);
    pthread_attr_destroy(&attributes);
    for (int t = 0; t < SEVERAL - 1; t++) pthread_join(start_thread(call_in_it, &callers[t]), NULL);
    holds("the last has its name", has_name(SEVERAL - 1, "added"));
    is("add one more than there may be", rcuo_add_helper(NULL, &number), RCUO_FEW);
    rcuo_call_rcu(&asks.head, add_in_callback);
    is("a barrier", rcuo_runtime_barrier(), RCUO_OK);
    holds("a callback was answered", asks.done);
    for (int t = 0; t < SEVERAL - 1; t++) {
        holds("it ran in the helper in which it was called", callers[t].ran && pthread_equal(callers[t].told, callers[t].ran_in));
    }
    is("stop", rcuo_stop(runtime, NULL), RCUO_OK);
}

/* ---- where the system refuses threads ---- */

/* In a child, whose user (none else's, where this one is root) may have so many threads more. */
static int start_limited(rlim_t threads) {
    struct rcuo_options options = {.helpers = SEVERAL};
    struct rcuo_runtime *runtime;
    struct rlimit limit = {threads, threads};
    if (setrlimit(RLIMIT_NPROC, &limit)) return 9;
    if (geteuid() == 0 && (setgid(65534) || setuid(65534))) return 9;
    enum rcuo_answer answer = rcuo_start(&runtime, &options);
    if (answer != RCUO_OK) return answer == RCUO_MEMORY ? 1 : 9;
    if (rcuo_register() != RCUO_OK || rcuo_synchronize() != RCUO_OK || rcuo_unregister() != RCUO_OK) return 9;
    return rcuo_stop(runtime, NULL) == RCUO_OK ? 0 : 9;
}

/* 0 where it started and stopped, 1 where it was refused for want of threads. */
static int in_child(rlim_t threads) {
    int status = 0;
    pid_t child = fork();
    if (child == 0) _exit(start_limited(threads));
    if (waitpid(child, &status, 0) != child) abort();
    return WIFEXITED(status) ? WEXITSTATUS(status) : 9;
}

static void test_limits(void) {
    rlim_t threads = 1;
    int answer;
    while ((answer = in_child(threads)) == 1 && threads < 10000) threads++;
    holds("as many threads as there are helpers are refused one by one, and then it starts", answer == 0 && threads > SEVERAL);
}

int main(int count, char **words) {
    unsigned long rounds = words_of(count, words, 2000);
    test_limits(); /* (before this process has had threads, which a child under a sanitizer would miss) */
    test_names();
    test_processors();
    test_class();
    test_shared_out();
    test_held_up();
    test_both_wait(rounds);
    test_added();
    return tell();
}
