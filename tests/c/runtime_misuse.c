/*
 * What a runtime answers to bad input, each by its name; and that a call for which no answer is left says so and aborts.
 */
#define RCUO_DEBUG
#include "threads.h"

#include <signal.h>
#include <string.h>
#include <sys/resource.h>
#include <sys/wait.h>

static void none_ran(struct rcuo_head *head) {
    (void)head;
    abort();
}

/* Whether a child that does this says the line and aborts. */
static bool aborts_saying(void (*does)(void), const char *line) {
    int ends[2], status = 0;
    char said[200] = "";
    fflush(stdout);
    if (pipe(ends)) abort();
    pid_t child = fork();
    if (child == 0) {
        dup2(ends[1], 2);
        does();
        _exit(0);
    }
    close(ends[1]);
    if (read(ends[0], said, sizeof said - 1) < 0) abort();
    close(ends[0]);
    if (waitpid(child, &status, 0) != child) abort();
    return WIFSIGNALED(status) && WTERMSIG(status) == SIGABRT && !strcmp(said, line);
}

static struct rcuo_head head;

static void call_without_runtime(void) {
    rcuo_call_rcu(&head, none_ran);
}

static void ask_without_runtime(void) {
    (void)rcuo_helper_thread();
}

static void call_in_no_helper(void) {
    struct rcuo_runtime *runtime;
    if (rcuo_start(&runtime, NULL) == RCUO_OK) rcuo_call_rcu_in(1, &head, none_ran);
}

static void fork_in_callback(struct rcuo_head *it) {
    (void)it;
    rcuo_before_fork();
}

static void call_fork(void) {
    struct rcuo_runtime *runtime;
    if (rcuo_start(&runtime, NULL) != RCUO_OK) return;
    rcuo_call_rcu(&head, fork_in_callback);
    (void)rcuo_runtime_barrier();
}

/* Whose child may have no thread: as another user, since the limit doesn't bind the first. */
static void fork_without_threads(void) {
    static const struct rlimit none = {0, 0};
    struct rcuo_runtime *runtime;
    int status = 0;
    if (rcuo_start(&runtime, NULL) != RCUO_OK) return;
    rcuo_before_fork();
    pid_t child = fork();
    if (child == 0) {
        if (setrlimit(RLIMIT_NPROC, &none) || (geteuid() == 0 && setuid(65534))) _exit(0);
        rcuo_after_fork_child();
        _exit(0);
    }
    rcuo_after_fork_parent();
    if (waitpid(child, &status, 0) == child && WIFSIGNALED(status) && WTERMSIG(status) == SIGABRT) abort();
}

static void test_aborts(void) {
    holds("a call without a runtime says so", aborts_saying(call_without_runtime, "rcuo: rcuo_call_rcu: no runtime was started\n"));
    holds("so does who asks for its helper", aborts_saying(ask_without_runtime, "rcuo: rcuo_helper_thread: no runtime was started\n"));
    holds("a call in no helper says so", aborts_saying(call_in_no_helper, "rcuo: rcuo_call_rcu_in: there is no such helper\n"));
    holds("a fork in a callback says so", aborts_saying(call_fork, "rcuo: rcuo_before_fork: in a callback\n"));
    holds("a child without a helper says so", aborts_saying(fork_without_threads, "rcuo: rcuo_after_fork_child: a thread was refused\n"));
}

static void test_without_runtime(void) {
    uint64_t cookie;
    bool elapsed;
    is("register", rcuo_register(), RCUO_NO_PROCESSOR);
    is("unregister", rcuo_unregister(), RCUO_NO_PROCESSOR);
    is("a report", rcuo_quiescent_state(), RCUO_NO_PROCESSOR);
    is("offline", rcuo_thread_offline(), RCUO_NO_PROCESSOR);
    is("online", rcuo_thread_online(), RCUO_NO_PROCESSOR);
    is("synchronize", rcuo_synchronize(), RCUO_NO_PROCESSOR);
    is("a barrier", rcuo_runtime_barrier(), RCUO_NO_PROCESSOR);
    is("start a poll", rcuo_start_poll_synchronize(&cookie), RCUO_NO_PROCESSOR);
    is("poll", rcuo_poll_state_synchronize(0, &elapsed), RCUO_NO_PROCESSOR);
    is("defer", rcuo_defer(free, NULL), RCUO_NO_PROCESSOR);
    is("stop nothing", rcuo_stop(NULL, NULL), RCUO_NULL);
}

static void test_options(void) {
    struct rcuo_runtime *runtime = NULL;
    struct rcuo_options options = {.threads = RCUO_THREADS + 1};
    struct rcuo_helper each[2] = {{NULL, NULL}, {NULL, NULL}};
    pthread_attr_t attributes;
    is("start without a place for the runtime", rcuo_start(NULL, NULL), RCUO_NULL);
    is("start for too many threads", rcuo_start(&runtime, &options), RCUO_SHAPE);
    options.threads = RCUO_THREADS;
    options.helpers = 2;
    is("start with too many helpers beside so many threads", rcuo_start(&runtime, &options), RCUO_SHAPE);
    options.helpers = UINT32_MAX;
    is("start with far too many helpers", rcuo_start(&runtime, &options), RCUO_SHAPE);
    options.threads = 1;
    options.helpers = 0;
    pthread_attr_init(&attributes);
    pthread_attr_setstacksize(&attributes, SIZE_MAX / 4096 * 4096 / 2);
    options.attributes = &attributes;
    is("start where no thread can be had", rcuo_start(&runtime, &options), RCUO_MEMORY);
    pthread_attr_destroy(&attributes);
    pthread_attr_init(&attributes);
    pthread_attr_setdetachstate(&attributes, PTHREAD_CREATE_DETACHED);
    is("start with a helper that can't be joined", rcuo_start(&runtime, &options), RCUO_SHAPE);
    options.attributes = NULL;
    options.helpers = 2;
    options.each = each;
    each[1].attributes = &attributes;
    is("start with a second helper that can't be joined", rcuo_start(&runtime, &options), RCUO_SHAPE);
    options.helpers = 1;
    is("start with the first alone", rcuo_start(&runtime, &options), RCUO_OK);
    is("stop", rcuo_stop(runtime, NULL), RCUO_OK);
    options.each = NULL;
    runtime = NULL;
    pthread_attr_destroy(&attributes);
    holds("the place stays as it was", runtime == NULL);
    options.name = "a name of more than fifteen bytes";
    is("start for one thread", rcuo_start(&runtime, &options), RCUO_OK);
    is("stop", rcuo_stop(runtime, NULL), RCUO_OK);
}

/* Within a read section that is counted nothing is answered that would end it. */
static void test_sections(void) {
    rcuo_thread_read_lock();
    rcuo_thread_read_lock();
    rcuo_thread_read_unlock();
    is("a report in a read section", rcuo_quiescent_state(), RCUO_READING);
    is("offline in a read section", rcuo_thread_offline(), RCUO_READING);
    is("synchronize in a read section", rcuo_synchronize(), RCUO_READING);
    is("a barrier in a read section", rcuo_runtime_barrier(), RCUO_READING);
    is("unregister in a read section", rcuo_unregister(), RCUO_READING);
    rcuo_thread_read_unlock();
    is("a report after it", rcuo_quiescent_state(), RCUO_OK);
}

static void test_threads(void) {
    is("unregister who isn't registered", rcuo_unregister(), RCUO_NO_PROCESSOR);
    is("a report of who isn't registered", rcuo_quiescent_state(), RCUO_NO_PROCESSOR);
    is("offline of who isn't registered", rcuo_thread_offline(), RCUO_NO_PROCESSOR);
    is("register", rcuo_register(), RCUO_OK);
    is("register twice", rcuo_register(), RCUO_FULL);
    test_sections();
    is("defer nothing", rcuo_defer(NULL, NULL), RCUO_NULL);
    is("start a poll without a place for the cookie", rcuo_start_poll_synchronize(NULL), RCUO_NULL);
    is("poll without a place for the answer", rcuo_poll_state_synchronize(0, NULL), RCUO_NULL);
    is("unregister", rcuo_unregister(), RCUO_OK);
    is("unregister twice", rcuo_unregister(), RCUO_NO_PROCESSOR);
}

int main(void) {
    struct rcuo_runtime *runtime;
    test_aborts();
    test_without_runtime();
    test_options();
    is("start", rcuo_start(&runtime, NULL), RCUO_OK);
    test_threads();
    is("stop", rcuo_stop(runtime, NULL), RCUO_OK);
    return tell();
}
