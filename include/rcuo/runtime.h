/*
 * rcuo/runtime.h: a runtime that a program lives in. Threads come and go, helper threads run the callbacks and sleep where nothing
 * is to be done, and a program needs no slots, no turns and no moments of its own.
 *
 *     struct rcuo_runtime *runtime;
 *     rcuo_start(&runtime, NULL);             once, before the first thread reads
 *     rcuo_register();                        in each thread that reads
 *     rcuo_thread_read_lock();                ..  read shared data  ..  rcuo_thread_read_unlock();
 *     rcuo_quiescent_state();                 between read sections, often; or rcuo_thread_offline() before it blocks
 *     rcuo_call_rcu(&old->head, free_old);    in any thread: free_old(&old->head) runs after a grace period
 *     rcuo_unregister();
 *     rcuo_stop(runtime, NULL);               once, when all threads have unregistered
 *
 * It is a thin layer of C over the slots of rcuo.h, whose parts are proved; the layer itself is tested. Link with
 * `-lrcuo-runtime -lrcuo -pthread`.
 *
 * WHAT THE PROGRAM OWES. A thread reads shared data only while it is registered and online. It reports often, or is offline. A
 * head stays where it is until its function is entered, and waits for one call at a time. What is stopped isn't used any more.
 * Nothing here is called from a signal handler. In the child of a fork it is used where the three functions at the end were
 * called around the fork.
 *
 * SEVERAL RUNTIMES. A thread uses the runtime that `rcuo_use` chose for it, and without one the first that the process started.
 * In a callback that is the runtime that runs it.
 *
 * WHAT COMES BACK. Functions that can be refused answer an `enum rcuo_answer`, in which a registered thread is what the slots
 * call a processor: RCUO_NO_PROCESSOR where there is no runtime or the thread isn't registered, RCUO_FULL where it is already,
 * RCUO_READING within a read section that is counted (RCUO_DEBUG), RCUO_RUNNING in a callback. `rcuo_call_rcu` can't be refused:
 * where no runtime is there it says so on standard error and aborts.
 */
#ifndef RCUO_RUNTIME_H
#define RCUO_RUNTIME_H

#include <pthread.h>
#include <rcuo.h>

#ifdef __cplusplus
extern "C" {
#endif
#pragma GCC visibility push(default)

/* How many threads may be registered at once, with one helper: the slots of an open, but one for the calls of callbacks, and one for
 * those of threads that aren't registered. Each helper more takes two more. And how many helpers there may be. */
#define RCUO_THREADS (RCUO_PROCESSORS - 2)
#define RCUO_HELPERS (RCUO_PROCESSORS / 2 - 1)

struct rcuo_runtime;

/* A callback's place, within the object that it is called for. */
struct rcuo_head {
    struct rcuo_head *next;
    void (*function)(struct rcuo_head *head);
};

/* What a helper has of its own, where there are several. */
struct rcuo_helper {
    const char *name;                 /* of which 15 bytes are kept; null: that of the options, with its number */
    const pthread_attr_t *attributes; /* null: those of the options */
};

/* How a runtime is started. All zero it is as by default. Attributes are of a thread that can be joined, and stay where they
 * are until the stop: the child of a fork starts its helpers by them. */
struct rcuo_options {
    uint32_t threads;                 /* how many may be registered at once, up to RCUO_THREADS; 0: RCUO_THREADS_DEFAULT */
    const char *name;                 /* the helper's, of which 15 bytes are kept; null: "rcuo"; of several "rcuo/0" and so on */
    const pthread_attr_t *attributes; /* the helpers' processors, scheduling class and stack; null: as the starting thread */
    uint32_t helpers;                 /* how many there are at first, among which the threads are shared out; 0: one */
    const struct rcuo_helper *each;   /* what each of so many has of its own; null: nothing */
    uint32_t helpers_most;            /* how many there may be with those that are added; 0: `helpers` */
};

/* Each of `threads` costs memory, some 60 KB, and a look in each grace period, whether or not a thread is registered. */
#define RCUO_THREADS_DEFAULT 62

/* ---- the runtime ---- */

/* Starts a runtime with its helper threads. The first of a process is what all threads use that chose none. Answers RCUO_SHAPE
 * where an option is outside its limits, RCUO_MEMORY where memory or a thread was refused; then nothing is left of it. */
enum rcuo_answer rcuo_start(struct rcuo_runtime **runtime, const struct rcuo_options *options);

/* Waits until all callbacks have run, ends the helpers, and lets the runtime go. Callbacks that callbacks call meanwhile run
 * too, for sixteen rounds; those that are called then come back: `back`, which may be null, gets them by their `next`, and the
 * answer is RCUO_CLOSED. Answers RCUO_FULL where a thread is registered, RCUO_RUNNING in a callback, RCUO_MEMORY: the runtime
 * is as it was, and may be stopped again. */
enum rcuo_answer rcuo_stop(struct rcuo_runtime *runtime, struct rcuo_head **back);

/* From now on this thread uses that runtime; null: the first that the process started. A thread may be registered with
 * several. */
enum rcuo_answer rcuo_use(struct rcuo_runtime *runtime);

/* ---- threads ---- */

/* The thread reads from now on, and is online. A thread that ends is unregistered by that. Answers RCUO_FEW where as many are
 * registered as the options allow, RCUO_CLOSED where the runtime stops, RCUO_MEMORY. */
enum rcuo_answer rcuo_register(void);
enum rcuo_answer rcuo_unregister(void);

/* Until it is online again nobody waits for this thread, and it reads nothing. To be so twice is no fault. */
enum rcuo_answer rcuo_thread_offline(void);
enum rcuo_answer rcuo_thread_online(void);

/* Whether this thread may read: it is registered and online. In a callback it is so. */
bool rcuo_thread_is_online(void);

/* How many read sections of this thread are open, where every file counts them: where each file that includes this header
 * defines RCUO_DEBUG before, or is compiled with -DRCUO_DEBUG. A file that doesn't leaves its mark in the program, and then
 * nothing is refused for a section, since it may end in another file than it began in. (The mark of a library that is loaded by
 * dlopen comes too late to be seen.) */
extern __thread unsigned long rcuo_open_sections;

/* Begins and ends a read section. Sections may nest. The names without `thread` are those of rcuo.h, which take a slot. */
#ifdef RCUO_DEBUG
static inline void rcuo_thread_read_lock(void) {
    rcuo_open_sections++;
}

static inline void rcuo_thread_read_unlock(void) {
    rcuo_open_sections--;
}
#else
__attribute__((weak)) char rcuo_sections_uncounted;

static inline void rcuo_thread_read_lock(void) {
}

static inline void rcuo_thread_read_unlock(void) {
}
#endif

/* Where the runtime writes which grace period started last, and the last that this thread's report was made in; or no number,
 * where a report has more to do. */
struct rcuo_report {
    const uint64_t *period;
    uint64_t reported;
};
extern __thread struct rcuo_report rcuo_last_report;
enum rcuo_answer rcuo_report_all(void);

/* No read section of this thread is open. Answers RCUO_AWAY where it is offline. Where no grace period started since the last
 * report it is a load and a compare: then nobody waits for this thread. */
static inline enum rcuo_answer rcuo_quiescent_state(void) {
#ifdef RCUO_DEBUG
    if (rcuo_open_sections) return rcuo_report_all();
#endif
    /* (a period that is seen too late is reported in later, and one that is seen came after all that this thread read) */
    if (__atomic_load_n(rcuo_last_report.period, __ATOMIC_SEQ_CST) == rcuo_last_report.reported) return RCUO_OK;
    return rcuo_report_all();
}

/* ---- grace periods ---- */

/* Waits for a grace period. A thread that is registered and online is offline meanwhile. May be called in a callback. */
enum rcuo_answer rcuo_synchronize(void);

/* Asks for a grace period that begins after this call, and says later whether it has ended. */
enum rcuo_answer rcuo_start_poll_synchronize(uint64_t *cookie);
enum rcuo_answer rcuo_poll_state_synchronize(uint64_t cookie, bool *elapsed);

/* ---- callbacks ---- */

/* Calls `function(head)` after a grace period, in a helper. All calls of a thread, from its register to its unregister, run in one
 * helper, in the order of the calls; so do those of all threads that aren't registered, and those of callbacks run in the helper
 * of the callback. By any thread, registered or not, in a read section and in a callback, with its own head again. It never fails,
 * and takes no memory that it can't do without. */
void rcuo_call_rcu(struct rcuo_head *head, void (*function)(struct rcuo_head *head));

/* As `rcuo_call_rcu`, for what has no head: it allocates one. Where memory is refused it waits for a grace period and calls at
 * once, so it isn't for read sections. */
enum rcuo_answer rcuo_defer(void (*function)(void *argument), void *argument);

/* Waits until all callbacks have run that any thread called before. Not in a callback: RCUO_RUNNING. */
enum rcuo_answer rcuo_runtime_barrier(void);

/* The thread that runs the callbacks which this thread calls, in the runtime that it uses, which has to be there. */
pthread_t rcuo_helper_thread(void);

/* ---- helpers of one's own ---- */

/* Adds a helper to the runtime that this thread uses, and tells its number: it has no threads, and runs what is called in it. What
 * it has of its own may be null. Answers RCUO_FEW where there are as many as the options allow, RCUO_RUNNING in a callback,
 * RCUO_SHAPE, RCUO_MEMORY. */
enum rcuo_answer rcuo_add_helper(const struct rcuo_helper *own, uint32_t *number);

/* As `rcuo_call_rcu`, in the helper of this number, from 0 on, which has to be there. All calls in one helper by this run in the
 * order in which they were made. It takes a lock of that helper's. */
void rcuo_call_rcu_in(uint32_t helper, struct rcuo_head *head, void (*function)(struct rcuo_head *head));

/* The helper of this number. Answers RCUO_NO_PROCESSOR where there is none. */
enum rcuo_answer rcuo_get_helper_thread(uint32_t number, pthread_t *thread);

/* ---- fork ---- */

/* Before a fork, and after it in the parent and in the child, which has helpers of its own then: to be called around fork, or
 * given to pthread_atfork. In the child the forking thread alone is registered, and others that were must have been offline. Not
 * in a callback. The child aborts where it is refused a helper. */
void rcuo_before_fork(void);
void rcuo_after_fork_parent(void);
void rcuo_after_fork_child(void);

#pragma GCC visibility pop
#ifdef __cplusplus
}
#endif

#endif
