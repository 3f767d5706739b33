/*
 * The functions of liburcu's QSBR flavour under liburcu's names, over the process's first managed runtime, which the first of
 * these calls starts where there is none. What each means is liburcu's (rcu-api.md of its documentation). Where a signature
 * leaves no answer, what can't be done is said on standard error, and the process aborts.
 */
#define _GNU_SOURCE
/* (so that liburcu's header declares all of its functions, and has none inline; and there are no read sections here) */
#define BUILD_QSBR_LIB
#define RCUO_DEBUG
#include <rcuo/runtime.h>
#include <rcuo/urcu-qsbr.h>

#include <errno.h>
#include <sched.h>
#include <stdio.h>
#include <stdlib.h>
#include <unistd.h>

/* A head of liburcu's is one of the runtime's: the link and the function. */
typedef char heads_are_alike[sizeof(struct rcu_head) == sizeof(struct rcuo_head) ? 1 : -1];

static pthread_once_t once = PTHREAD_ONCE_INIT;
static pthread_mutex_t atfork_lock = PTHREAD_MUTEX_INITIALIZER;
static struct urcu_atfork *table_atfork;
static unsigned long table_atfork_users;

static void check(const char *what, enum rcuo_answer answer) {
    if (answer == RCUO_OK) return;
    fprintf(stderr, "rcuo: %s: %s\n", what, rcuo_strerror(answer));
    abort();
}

/* liburcu has no limit on threads and helpers; here it is what a runtime has at most. */
enum { HELPERS = 12, THREADS = RCUO_PROCESSORS - 2 * HELPERS };

static void start_first(void) {
    static const struct rcuo_options options = {.threads = THREADS, .name = "urcu-qsbr", .helpers_most = HELPERS};
    struct rcuo_runtime *runtime;
    uint64_t cookie;
    if (rcuo_start_poll_synchronize(&cookie) == RCUO_NO_PROCESSOR) check("start", rcuo_start(&runtime, &options));
}

static void start(void) {
    pthread_once(&once, start_first);
}

/* ---- threads ---- */

void urcu_qsbr_register_thread(void) {
    start();
    check("rcu_register_thread", rcuo_register());
}

void urcu_qsbr_unregister_thread(void) {
    check("rcu_unregister_thread", rcuo_unregister());
}

void urcu_qsbr_read_lock(void) {
}

void urcu_qsbr_read_unlock(void) {
}

int urcu_qsbr_read_ongoing(void) {
    return rcuo_thread_is_online();
}

/* A report of an offline thread is none, as in liburcu's own use of it within its offline sections. */
void urcu_qsbr_quiescent_state(void) {
    enum rcuo_answer answer = rcuo_quiescent_state();
    if (answer != RCUO_AWAY) check("rcu_quiescent_state", answer);
}

void urcu_qsbr_thread_offline(void) {
    check("rcu_thread_offline", rcuo_thread_offline());
}

void urcu_qsbr_thread_online(void) {
    check("rcu_thread_online", rcuo_thread_online());
}

void urcu_qsbr_synchronize_rcu(void) {
    start();
    check("synchronize_rcu", rcuo_synchronize());
}

/* ---- callbacks ---- */

static struct call_rcu_data *chosen_data(void);
static uint32_t helper_of(const struct call_rcu_data *data);

void urcu_qsbr_call_rcu(struct rcu_head *head, void (*function)(struct rcu_head *head)) {
    struct rcuo_head *ours = (struct rcuo_head *)(void *)head;
    void (*run)(struct rcuo_head *) = (void (*)(struct rcuo_head *))(void (*)(void))function;
    start();
    uint32_t helper = helper_of(chosen_data());
    if (helper == 0) rcuo_call_rcu(ours, run);
    else rcuo_call_rcu_in(helper, ours, run);
}

void urcu_qsbr_barrier(void) {
    start();
    check("rcu_barrier", rcuo_runtime_barrier());
}

void urcu_qsbr_defer_rcu(void (*function)(void *), void *argument) {
    start();
    check("defer_rcu", rcuo_defer(function, argument));
}

int urcu_qsbr_defer_register_thread(void) {
    start();
    return 0;
}

void urcu_qsbr_defer_barrier(void) {
    urcu_qsbr_barrier();
}

void urcu_qsbr_defer_barrier_thread(void) {
    urcu_qsbr_barrier();
}

void urcu_qsbr_defer_unregister_thread(void) {
    urcu_qsbr_barrier();
}

/* ---- helpers ---- */

/* A name of a helper of its own, as long as there are helpers; then several names stand for one. It is never let go: who calls by
 * it may look at it while another frees it. */
struct call_rcu_data {
    uint32_t helper; /* its number in the runtime */
    struct call_rcu_data *next; /* of those that were freed */
};

/* That of who chose none: the runtime's first, which runs what a thread calls by its own place. */
static struct call_rcu_data default_data;
static __thread struct call_rcu_data *data_of_thread;

/* These change under the mutex. */
static pthread_mutex_t data_lock = PTHREAD_MUTEX_INITIALIZER;
static struct call_rcu_data *freed_data, **data_of_processor;
static long processors;
static uint32_t added;
static unsigned names;

static void *allocate(size_t size) {
    void *at = calloc(1, size);
    if (!at) check("create_call_rcu_data", RCUO_MEMORY);
    return at;
}

/* One that was freed, or another helper's, or one more for a helper that has one. */
static struct call_rcu_data *take_data(void) {
    struct call_rcu_data *data = freed_data;
    if (data) {
        freed_data = data->next;
        return data;
    }
    data = allocate(sizeof *data);
    enum rcuo_answer answer = rcuo_add_helper(NULL, &data->helper);
    if (answer == RCUO_OK) added++;
    else if (answer == RCUO_FEW) data->helper = added ? 1 + names++ % added : 0;
    else check("create_call_rcu_data", answer);
    return data;
}

/* Binds a helper to a processor, where that is there, else to none. */
static void bind_helper(uint32_t helper, int processor) {
    pthread_t thread;
    cpu_set_t set;
    CPU_ZERO(&set);
    for (size_t p = 0; p < CPU_SETSIZE; p++) {
        if (processor < 0 || p == (size_t)processor) CPU_SET(p, &set);
    }
    check("create_call_rcu_data", rcuo_get_helper_thread(helper, &thread));
    (void)pthread_setaffinity_np(thread, sizeof set, &set);
}

/* (a helper sleeps by futex whatever the flags say) */
struct call_rcu_data *urcu_qsbr_create_call_rcu_data(unsigned long flags, int processor) {
    (void)flags;
    start();
    pthread_mutex_lock(&data_lock);
    struct call_rcu_data *data = take_data();
    if (data->helper) bind_helper(data->helper, processor);
    pthread_mutex_unlock(&data_lock);
    return data;
}

/* What was called by it runs all the same, in its helper, which sleeps then until the name is handed out again. */
void urcu_qsbr_call_rcu_data_free(struct call_rcu_data *data) {
    if (!data || data == &default_data) return;
    pthread_mutex_lock(&data_lock);
    data->next = freed_data;
    freed_data = data;
    pthread_mutex_unlock(&data_lock);
}

struct call_rcu_data *urcu_qsbr_get_default_call_rcu_data(void) {
    start();
    return &default_data;
}

struct call_rcu_data *urcu_qsbr_get_cpu_call_rcu_data(int processor) {
    struct call_rcu_data **of_processor = __atomic_load_n(&data_of_processor, __ATOMIC_ACQUIRE);
    if (!of_processor || processor < 0 || processor >= processors) return NULL;
    return __atomic_load_n(&of_processor[processor], __ATOMIC_ACQUIRE);
}

struct call_rcu_data *urcu_qsbr_get_thread_call_rcu_data(void) {
    return data_of_thread;
}

/* Where neither the thread nor the processor that it runs on has one it is null. */
static struct call_rcu_data *chosen_data(void) {
    if (data_of_thread) return data_of_thread;
    if (!__atomic_load_n(&data_of_processor, __ATOMIC_ACQUIRE)) return NULL;
    return urcu_qsbr_get_cpu_call_rcu_data(sched_getcpu());
}

static uint32_t helper_of(const struct call_rcu_data *data) {
    return data ? data->helper : 0;
}

struct call_rcu_data *urcu_qsbr_get_call_rcu_data(void) {
    struct call_rcu_data *data = chosen_data();
    return data ? data : urcu_qsbr_get_default_call_rcu_data();
}

pthread_t urcu_qsbr_get_call_rcu_thread(struct call_rcu_data *data) {
    pthread_t thread;
    check("get_call_rcu_thread", rcuo_get_helper_thread(data->helper, &thread));
    return thread;
}

void urcu_qsbr_set_thread_call_rcu_data(struct call_rcu_data *data) {
    data_of_thread = data;
}

static int refuse(int error) {
    errno = error;
    return -error;
}

/* A place for each processor that the system may have. */
static void make_places(void) {
    if (data_of_processor) return;
    processors = sysconf(_SC_NPROCESSORS_CONF);
    if (processors < 1) processors = 1;
    __atomic_store_n(&data_of_processor, allocate((size_t)processors * sizeof *data_of_processor), __ATOMIC_RELEASE);
}

int urcu_qsbr_set_cpu_call_rcu_data(int processor, struct call_rcu_data *data) {
    int error = 0;
    pthread_mutex_lock(&data_lock);
    make_places();
    if (processor < 0 || processor >= processors) error = EINVAL;
    else if (data && data_of_processor[processor]) error = EEXIST;
    else __atomic_store_n(&data_of_processor[processor], data, __ATOMIC_RELEASE);
    pthread_mutex_unlock(&data_lock);
    return error ? refuse(error) : 0;
}

int urcu_qsbr_create_all_cpu_call_rcu_data(unsigned long flags) {
    long many = sysconf(_SC_NPROCESSORS_CONF);
    for (int p = 0; p < many; p++) {
        if (urcu_qsbr_get_cpu_call_rcu_data(p)) continue;
        struct call_rcu_data *data = urcu_qsbr_create_call_rcu_data(flags, p);
        /* (another thread may have been first) */
        if (urcu_qsbr_set_cpu_call_rcu_data(p, data) == -EEXIST) urcu_qsbr_call_rcu_data_free(data);
    }
    return 0;
}

void urcu_qsbr_free_all_cpu_call_rcu_data(void) {
    long many = sysconf(_SC_NPROCESSORS_CONF);
    for (int p = 0; p < many; p++) {
        struct call_rcu_data *data = urcu_qsbr_get_cpu_call_rcu_data(p);
        if (!data || urcu_qsbr_set_cpu_call_rcu_data(p, NULL)) continue;
        urcu_qsbr_call_rcu_data_free(data);
    }
}

/* ---- fork ---- */

void urcu_qsbr_register_rculfhash_atfork(struct urcu_atfork *atfork) {
    pthread_mutex_lock(&atfork_lock);
    if (table_atfork_users++ == 0) table_atfork = atfork;
    pthread_mutex_unlock(&atfork_lock);
}

void urcu_qsbr_unregister_rculfhash_atfork(struct urcu_atfork *atfork) {
    (void)atfork;
    pthread_mutex_lock(&atfork_lock);
    if (--table_atfork_users == 0) table_atfork = NULL;
    pthread_mutex_unlock(&atfork_lock);
}

void urcu_qsbr_call_rcu_before_fork(void) {
    pthread_mutex_lock(&atfork_lock);
    if (table_atfork) table_atfork->before_fork(table_atfork->priv);
    rcuo_before_fork();
}

void urcu_qsbr_call_rcu_after_fork_parent(void) {
    rcuo_after_fork_parent();
    if (table_atfork) table_atfork->after_fork_parent(table_atfork->priv);
    pthread_mutex_unlock(&atfork_lock);
}

void urcu_qsbr_call_rcu_after_fork_child(void) {
    rcuo_after_fork_child();
    if (table_atfork) table_atfork->after_fork_child(table_atfork->priv);
    pthread_mutex_unlock(&atfork_lock);
}

/* ---- the end of the process, at which nothing is to be done, and the table ---- */

void urcu_qsbr_exit(void);
void urcu_qsbr_exit(void) {
}

void urcu_qsbr_defer_exit(void);
void urcu_qsbr_defer_exit(void) {
}

DEFINE_RCU_FLAVOR(rcu_flavor);

/* ---- pointers, where a program doesn't inline them ---- */

void *rcu_dereference_sym(void *pointer);
void *rcu_dereference_sym(void *pointer) {
    return pointer;
}

void *rcu_set_pointer_sym(void **at, void *pointer);
void *rcu_set_pointer_sym(void **at, void *pointer) {
    __atomic_store_n(at, pointer, __ATOMIC_SEQ_CST);
    return pointer;
}

void *rcu_xchg_pointer_sym(void **at, void *pointer);
void *rcu_xchg_pointer_sym(void **at, void *pointer) {
    return __atomic_exchange_n(at, pointer, __ATOMIC_SEQ_CST);
}

void *rcu_cmpxchg_pointer_sym(void **at, void *from, void *to);
void *rcu_cmpxchg_pointer_sym(void **at, void *from, void *to) {
    __atomic_compare_exchange_n(at, &from, to, false, __ATOMIC_SEQ_CST, __ATOMIC_SEQ_CST);
    return from;
}
