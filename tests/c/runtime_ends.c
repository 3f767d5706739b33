/*
 * How a runtime ends: by stop with nothing lost, beside another runtime, by fork in parent and child, and by the end of the
 * process with callbacks queued.
 */
#include "threads.h"

#include <sys/wait.h>

enum { MANY = 1000 };

static struct counted nodes[2][MANY];

static void call_many(struct counted *of, unsigned long *ran) {
    for (int i = 0; i < MANY; i++) {
        of[i].ran = ran;
        rcuo_call_rcu(&of[i].head, count_run);
    }
}

static void test_stop_runs_all(uint32_t helpers) {
    struct rcuo_runtime *runtime = start_runtime(helpers);
    unsigned long ran = 0;
    struct rcuo_head *back = &nodes[0][0].head;
    is("register", rcuo_register(), RCUO_OK);
    call_many(nodes[0], &ran);
    is("stop while this thread is registered", rcuo_stop(runtime, &back), RCUO_FULL);
    is("unregister", rcuo_unregister(), RCUO_OK);
    call_many(nodes[1], &ran);
    is("stop", rcuo_stop(runtime, &back), RCUO_OK);
    holds("all have run by then", ran == 2 * MANY);
    holds("none came back", back == NULL);
}

/* Calls again with its own head, so often. */
struct chain {
    struct rcuo_head head;
    unsigned long left, ran;
};

static void call_next(struct rcuo_head *head) {
    struct chain *chain = OBJECT_OF(head, struct chain);
    chain->ran++;
    if (chain->left && chain->left--) rcuo_call_rcu(head, call_next);
}

static void test_stop_with_chains(uint32_t helpers) {
    struct rcuo_runtime *runtime = start_runtime(helpers);
    struct chain finite, endless[2];
    struct rcuo_head *back = NULL;
    finite.left = 5;
    endless[0].left = endless[1].left = UINT64_MAX;
    finite.ran = endless[0].ran = endless[1].ran = 0;
    rcuo_call_rcu(&finite.head, call_next);
    rcuo_call_rcu(&endless[0].head, call_next);
    rcuo_call_rcu(&endless[1].head, call_next);
    is("stop with callbacks that call for ever", rcuo_stop(runtime, &back), RCUO_CLOSED);
    holds("what callbacks called ran", finite.ran == 6 && finite.left == 0);
    holds("those for ever ran more often", endless[0].ran > 6 && endless[1].ran > 6);
    bool both = back && back->next && !back->next->next && back != back->next;
    holds("both came back", both && (back == &endless[0].head || back == &endless[1].head));
    holds("and no other", both && (back->next == &endless[0].head || back->next == &endless[1].head));
}

/* Helpers end though they are asked as they go to sleep. */
static void test_stop_often(uint32_t helpers, unsigned long times) {
    unsigned long ran = 0;
    for (unsigned long i = 0; i < times; i++) {
        struct rcuo_runtime *runtime = start_runtime(helpers);
        struct timespec some = {0, (long)(i % 64) * 1000};
        rcuo_call_rcu(&new_counted(&ran)->head, count_and_free);
        nanosleep(&some, NULL);
        is("stop", rcuo_stop(runtime, NULL), RCUO_OK);
    }
    holds("each callback ran", ran == times);
}

static void test_several(void) {
    struct rcuo_runtime *one, *other;
    unsigned long ran[2] = {0, 0};
    is("start one", rcuo_start(&one, NULL), RCUO_OK);
    is("start another", rcuo_start(&other, NULL), RCUO_OK);
    is("register with the first", rcuo_register(), RCUO_OK);
    is("choose the other", rcuo_use(other), RCUO_OK);
    is("a report where this thread isn't registered", rcuo_quiescent_state(), RCUO_NO_PROCESSOR);
    is("register with the other", rcuo_register(), RCUO_OK);
    call_many(nodes[1], &ran[1]);
    is("choose the first again", rcuo_use(NULL), RCUO_OK);
    is("register twice", rcuo_register(), RCUO_FULL);
    call_many(nodes[0], &ran[0]);
    is("wait for the first's callbacks", rcuo_runtime_barrier(), RCUO_OK);
    holds("all of the first ran, and of the other those that its own readers let run", ran[0] == MANY);
    holds("the other waits for this thread", LOAD(&ran[1]) == 0);
    is("choose the other", rcuo_use(other), RCUO_OK);
    is("wait for its callbacks", rcuo_runtime_barrier(), RCUO_OK);
    holds("all of the other ran", ran[1] == MANY);
    is("unregister there", rcuo_unregister(), RCUO_OK);
    is("choose the first", rcuo_use(one), RCUO_OK);
    is("unregister there", rcuo_unregister(), RCUO_OK);
    is("stop the first", rcuo_stop(one, NULL), RCUO_OK);
    is("register with the one that is left", rcuo_register(), RCUO_OK);
    is("synchronize there", rcuo_synchronize(), RCUO_OK);
    is("unregister", rcuo_unregister(), RCUO_OK);
    is("stop the other", rcuo_stop(other, NULL), RCUO_OK);
    is("register with none", rcuo_register(), RCUO_NO_PROCESSOR);
}

static int status_of(pid_t child) {
    int status = 0;
    if (waitpid(child, &status, 0) != child) abort();
    return WIFEXITED(status) ? WEXITSTATUS(status) : -WTERMSIG(status);
}

static void *stay_offline(void *gate) {
    if (rcuo_register() != RCUO_OK || rcuo_thread_offline() != RCUO_OK) abort();
    pthread_barrier_wait(gate);
    pthread_barrier_wait(gate);
    return NULL;
}

/* What parent and child do after the fork: what was called before runs in both, and so does what is called after, by this thread and
 * in the helper of that number. */
static bool goes_on(uint32_t helper, unsigned long *ran) {
    static struct counted in_helper;
    in_helper.ran = ran;
    bool good = rcuo_runtime_barrier() == RCUO_OK && LOAD(ran) == MANY + 1;
    call_many(nodes[1], ran);
    rcuo_call_rcu_in(helper, &in_helper.head, count_run);
    good &= rcuo_synchronize() == RCUO_OK;
    good &= rcuo_unregister() == RCUO_OK;
    good &= rcuo_runtime_barrier() == RCUO_OK && LOAD(ran) == 2 * MANY + 2;
    return good;
}

/* A callback that waits for this thread, which is about to fork, and for the helper of another one, which lasts until that is asked to
 * stand still. */
static unsigned long entered, lasting;

static void wait_in_callback(struct rcuo_head *head) {
    STORE(&entered, 1);
    for (int i = 0; i < 20; i += LOAD(&lasting) != 0) {
        if (rcuo_synchronize() != RCUO_OK) abort();
    }
    count_run(head);
}

static void last_in_callback(struct rcuo_head *head) {
    STORE(&lasting, 1);
    nap(20);
    count_run(head);
}

static void test_fork(uint32_t helpers) {
    struct rcuo_options options = {.helpers = helpers, .helpers_most = helpers + 1};
    struct rcuo_runtime *runtime;
    unsigned long ran = 0, waited = 0;
    struct counted waiting, in_added;
    uint32_t added = 0;
    pthread_barrier_t gate;
    pthread_barrier_init(&gate, NULL, 2);
    STORE(&entered, 0);
    STORE(&lasting, 0);
    is("start", rcuo_start(&runtime, &options), RCUO_OK);
    is("add a helper", rcuo_add_helper(NULL, &added), RCUO_OK);
    pthread_t thread = start_thread(stay_offline, &gate);
    pthread_barrier_wait(&gate);
    is("register", rcuo_register(), RCUO_OK);
    waiting.ran = &waited;
    rcuo_call_rcu(&waiting.head, wait_in_callback);
    holds("a callback is entered", report_until(&entered, 1));
    call_many(nodes[0], &ran);
    in_added.ran = &ran;
    rcuo_call_rcu_in(added, &in_added.head, last_in_callback);
    holds("so is one in the added helper", report_until(&lasting, 1));
    rcuo_before_fork();
    pid_t child = fork();
    if (child == 0) {
        rcuo_after_fork_child();
        bool good = goes_on(added, &ran);
        _exit(good && rcuo_stop(runtime, NULL) == RCUO_OK ? 0 : 1);
    }
    rcuo_after_fork_parent();
    holds("the parent's runtime works on", goes_on(added, &ran));
    holds("the child's works, and ends", status_of(child) == 0);
    pthread_barrier_wait(&gate);
    pthread_join(thread, NULL);
    pthread_barrier_destroy(&gate);
    is("stop", rcuo_stop(runtime, NULL), RCUO_OK);
}

/* A process that ends while callbacks wait for a reader: its own thread. */
static void test_exit(void) {
    fflush(stdout);
    pid_t child = fork();
    if (child == 0) {
        static unsigned long ran;
        struct rcuo_runtime *runtime;
        if (rcuo_start(&runtime, NULL) != RCUO_OK || rcuo_register() != RCUO_OK) exit(1);
        call_many(nodes[0], &ran);
        exit(7);
    }
    holds("a process with callbacks queued ends at once", status_of(child) == 7);
}

int main(int count, char **words) {
    unsigned long times = words_of(count, words, 500);
    test_exit();
    test_several();
    for (uint32_t helpers = 1; helpers <= SEVERAL; helpers += SEVERAL - 1) {
        test_stop_runs_all(helpers);
        test_stop_with_chains(helpers);
        test_stop_often(helpers, times);
#ifndef __SANITIZE_THREAD__ /* (which knows no threads that a child starts) */
        test_fork(helpers);
#else
        (void)test_fork;
#endif
    }
    return tell();
}
