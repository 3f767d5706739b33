/*
 * A runtime starts, stops, and is there again after a fork.
 */
#define _POSIX_C_SOURCE 200809L
#include "internal.h"

#include <stdio.h>
#include <stdlib.h>
#include <string.h>

/* How many callbacks a group gives in a turn. */
enum { BATCH = 1000 };

/* For how many rounds of callbacks that callbacks called rcuo_stop waits before it shuts the runtime. */
enum { STOP_ROUNDS = 16 };

/* The process's runtimes, in the order in which they were started. */
struct rcuo_runtime *rcuo_first;
static pthread_mutex_t runtimes = PTHREAD_MUTEX_INITIALIZER;

void rcuo_die(const char *what, const char *why) {
    fprintf(stderr, "rcuo: %s: %s\n", what, why);
    abort();
}

/* ---- starting ---- */

static void link_runtime(struct rcuo_runtime *runtime) {
    pthread_mutex_lock(&runtimes);
    struct rcuo_runtime **at = &rcuo_first;
    while (*at) at = &(*at)->next;
    store(at, runtime);
    pthread_mutex_unlock(&runtimes);
}

static void unlink_runtime(struct rcuo_runtime *runtime) {
    pthread_mutex_lock(&runtimes);
    struct rcuo_runtime **at = &rcuo_first;
    while (*at != runtime) at = &(*at)->next;
    store(at, runtime->next);
    pthread_mutex_unlock(&runtimes);
}

/* Whose a member is: a helper's own, that of other threads' calls in it, or that of a thread: those are shared out among the
 * helpers that are there from the start on, and neighbours have different ones. */
static struct helper *helper_of(struct rcuo_runtime *runtime, uint32_t number, uint32_t helpers) {
    uint32_t threads = rcuo_first_thread_of(runtime);
    return &runtime->helpers[number < threads ? number % runtime->helpers_many : (number - threads) % helpers];
}

/* All members are away, and those for threads are free. The last is freed first. */
static void make_members(struct rcuo_runtime *runtime, uint32_t helpers) {
    for (uint32_t n = runtime->members_many; n-- > 0;) {
        struct member *member = &runtime->members[n];
        member->runtime = runtime;
        member->helper = helper_of(runtime, n, helpers);
        member->number = n;
        member->is_helpers = n < runtime->helpers_many;
        member->slot = &runtime->parts.processors[n];
        enum rcuo_answer answer = rcuo_leave(member->slot);
        if (answer != RCUO_OK) rcuo_die("a leave", rcuo_strerror(answer)); /* (nothing was called yet) */
        if (n >= rcuo_first_thread_of(runtime)) rcuo_free_member(member);
    }
}

/* A helper's name is its own, or that of all, with its number where there may be several. */
static void make_helper(struct rcuo_runtime *runtime, uint32_t number, const struct rcuo_options *options) {
    const char *name = options->name ? options->name : "rcuo";
    struct helper *helper = &runtime->helpers[number];
    helper->runtime = runtime;
    helper->number = number;
    helper->attributes = options->attributes;
    pthread_mutex_init(&helper->outside, NULL);
    if (runtime->helpers_many == 1) strncpy(helper->name, name, sizeof helper->name - 1);
    else snprintf(helper->name, sizeof helper->name, "%.9s/%hu", name, (unsigned short)number);
}

/* What a helper has of its own, before it starts. */
static void set_helper(struct helper *helper, const struct rcuo_helper *own) {
    if (own->attributes) helper->attributes = own->attributes;
    if (!own->name) return;
    memset(helper->name, 0, sizeof helper->name);
    strncpy(helper->name, own->name, sizeof helper->name - 1);
}

/* Closes what was opened, and lets it go. What hasn't run is put behind what came back before. */
static enum rcuo_answer close_parts(struct rcuo_runtime *runtime) {
    struct rcuo_job job;
    for (uint32_t n = 0; n < runtime->members_many; n++) (void)rcuo_return(&runtime->parts.processors[n]); /* (or it is back) */
    enum rcuo_answer answer = rcuo_close(&runtime->parts);
    if (answer != RCUO_OK) return answer;
    for (uint32_t n = 0; n < runtime->members_many; n++) {
        uint64_t at = 0;
        while (rcuo_next_back(&runtime->parts, n, &at, &job) == RCUO_OK) rcuo_append(&runtime->back, job.argument);
    }
    return rcuo_end(&runtime->parts);
}

/* The members, and behind them the helpers, stand in the runtime's own memory. */
static struct rcuo_runtime *make_runtime(uint32_t threads, uint32_t most, const struct rcuo_options *options) {
    struct rcuo_runtime *runtime;
    void *place;
    uint32_t members = 2 * most + threads;
    size_t size = sizeof *runtime + members * sizeof(struct member) + most * sizeof(struct helper);
    if (posix_memalign(&place, PAIR_OF_LINES, size)) return NULL;
    runtime = memset(place, 0, size);
    runtime->members_many = members;
    runtime->helpers_many = most;
    runtime->helpers = (struct helper *)(void *)&runtime->members[members];
    for (uint32_t n = 0; n < most; n++) make_helper(runtime, n, options);
    pthread_mutex_init(&runtime->registry, NULL);
    pthread_mutex_init(&runtime->control, NULL);
    return runtime;
}

static void free_runtime(struct rcuo_runtime *runtime) {
    for (uint32_t n = 0; n < runtime->helpers_many; n++) pthread_mutex_destroy(&runtime->helpers[n].outside);
    pthread_mutex_destroy(&runtime->registry);
    pthread_mutex_destroy(&runtime->control);
    free(runtime);
}

static enum rcuo_answer open_parts(struct rcuo_runtime *runtime) {
    struct rcuo_settings settings = RCUO_SETTINGS_DEFAULT;
    settings.processors = runtime->members_many;
    settings.offloadable = NULL;
    settings.blimit = BATCH;
    settings.qhimark = RCUO_HIGH_MARK;
    return rcuo_open(&settings, &runtime->parts);
}

/* Opens the parts and starts the helpers, or leaves neither. The helpers come first, and stand still until there are parts: so
 * whatever is refused, no part is to be closed, which takes memory. */
static enum rcuo_answer run_runtime(struct rcuo_runtime *runtime, uint32_t helpers) {
    rcuo_ask_helpers(runtime, PARK);
    enum rcuo_answer answer = rcuo_start_helpers(runtime, helpers);
    if (answer != RCUO_OK) return answer;
    answer = open_parts(runtime);
    if (answer != RCUO_OK) {
        rcuo_end_helpers(runtime, helpers);
        return answer;
    }
    make_members(runtime, helpers);
    rcuo_release_helpers(runtime);
    return RCUO_OK;
}

/* Whether the attributes are of a thread that can be joined. */
static bool can_join(const pthread_attr_t *attributes) {
    int state;
    return !attributes || (!pthread_attr_getdetachstate(attributes, &state) && state == PTHREAD_CREATE_JOINABLE);
}

static bool can_join_each(const struct rcuo_helper *each, uint32_t helpers) {
    for (uint32_t n = 0; each && n < helpers; n++) {
        if (!can_join(each[n].attributes)) return false;
    }
    return true;
}

enum rcuo_answer rcuo_start(struct rcuo_runtime **runtime, const struct rcuo_options *options) {
    static const struct rcuo_options none;
    if (!runtime) return RCUO_NULL;
    if (!options) options = &none;
    uint32_t threads = options->threads ? options->threads : RCUO_THREADS_DEFAULT;
    uint32_t helpers = options->helpers ? options->helpers : 1;
    uint32_t most = options->helpers_most ? options->helpers_most : helpers;
    if (threads > RCUO_THREADS || most > RCUO_HELPERS || threads + 2 * most > RCUO_PROCESSORS || helpers > most) return RCUO_SHAPE;
    if (!can_join(options->attributes) || !can_join_each(options->each, helpers)) return RCUO_SHAPE;
    struct rcuo_runtime *made = make_runtime(threads, most, options);
    if (!made) return RCUO_MEMORY;
    for (uint32_t n = 0; options->each && n < helpers; n++) set_helper(&made->helpers[n], &options->each[n]);
    enum rcuo_answer answer = run_runtime(made, helpers);
    if (answer != RCUO_OK) {
        free_runtime(made);
        return answer;
    }
    link_runtime(made);
    *runtime = made;
    return RCUO_OK;
}

enum rcuo_answer rcuo_add_helper(const struct rcuo_helper *own, uint32_t *number) {
    struct rcuo_runtime *runtime = rcuo_chosen_runtime();
    if (!number) return RCUO_NULL;
    if (!runtime) return RCUO_NO_PROCESSOR;
    if (rcuo_helping) return RCUO_RUNNING; /* (a fork has the mutex while it waits for helpers) */
    if (own && !can_join(own->attributes)) return RCUO_SHAPE;
    enum rcuo_answer answer = RCUO_FEW;
    pthread_mutex_lock(&runtimes);
    if (runtime->running < runtime->helpers_many) {
        struct helper *helper = &runtime->helpers[runtime->running];
        const pthread_attr_t *attributes = helper->attributes;
        if (own) set_helper(helper, own);
        answer = rcuo_start_helper(helper);
        if (answer != RCUO_OK) helper->attributes = attributes;
    }
    if (answer == RCUO_OK) {
        *number = runtime->running;
        store(&runtime->running, runtime->running + 1);
    }
    pthread_mutex_unlock(&runtimes);
    return answer;
}

/* ---- stopping ---- */

/* Takes the runtime from those who would register. Answers RCUO_FULL where a thread is. */
static enum rcuo_answer begin_stop(struct rcuo_runtime *runtime) {
    pthread_mutex_lock(&runtime->registry);
    bool used = runtime->registered;
    runtime->stopping |= !used;
    pthread_mutex_unlock(&runtime->registry);
    return used ? RCUO_FULL : RCUO_OK;
}

static bool are_same(const struct rcuo_counts *one, const struct rcuo_counts *other) {
    return !memcmp(one->counts, other->counts, one->processors * sizeof *one->counts);
}

/* Nobody owns it, and a helper may still tend it. */
static void wait_for_leave(struct member *member) {
    while (load(&member->state) != AWAY) {
        if (!rcuo_member_tend(member)) rcuo_sleep_millisecond();
    }
}

/* Waits until no callback is left, whether or not callbacks call others. (A helper's own member is here while it is awake.) */
static void run_all(struct rcuo_runtime *runtime) {
    struct rcuo_counts counts, before;
    rcuo_wait_for_callbacks(runtime, &counts);
    for (int round = 0; round < STOP_ROUNDS; round++) {
        before = counts;
        rcuo_wait_for_callbacks(runtime, &counts);
        if (are_same(&before, &counts)) break;
    }
    pthread_mutex_lock(&runtime->control);
    enum rcuo_answer answer = rcuo_shut(&runtime->parts.control, NULL);
    pthread_mutex_unlock(&runtime->control);
    if (answer != RCUO_OK) rcuo_die("rcuo_stop", rcuo_strerror(answer));
    rcuo_wait_for_callbacks(runtime, &counts);
    for (uint32_t n = runtime->helpers_many; n < runtime->members_many; n++) wait_for_leave(&runtime->members[n]);
}

enum rcuo_answer rcuo_stop(struct rcuo_runtime *runtime, struct rcuo_head **back) {
    if (!runtime) return RCUO_NULL;
    if (rcuo_is_helper_of(runtime)) return RCUO_RUNNING;
    enum rcuo_answer answer = begin_stop(runtime);
    if (answer != RCUO_OK) return answer;
    if (!(load(&runtime->asks) & STOP)) { /* (else memory was refused to a stop before this) */
        run_all(runtime);
        unlink_runtime(runtime); /* (a fork waits for each helper that it finds) */
        rcuo_end_helpers(runtime, runtime->running);
    }
    answer = close_parts(runtime);
    if (answer != RCUO_OK) return answer;
    if (rcuo_chosen == runtime) rcuo_use(NULL);
    struct rcuo_head *left = runtime->back.first;
    if (back) *back = left;
    free_runtime(runtime);
    return left ? RCUO_CLOSED : RCUO_OK;
}

/* ---- fork ---- */

/* Has the helpers stand still, and takes all that a thread takes for a while, so that in the child nothing is half done. The
 * helpers, and who has the driver, may want the registry, so these come first. */
void rcuo_before_fork(void) {
    if (rcuo_helping) rcuo_die("rcuo_before_fork", "in a callback");
    pthread_mutex_lock(&runtimes);
    for (struct rcuo_runtime *runtime = rcuo_first; runtime; runtime = runtime->next) {
        rcuo_ask_helpers(runtime, PARK);
        for (uint32_t parked; (parked = load(&runtime->parked)) < runtime->running;) {
            rcuo_report_members(); /* (a helper may be in a callback that waits for a grace period) */
            rcuo_futex_wait(&runtime->parked, parked, 1);
        }
        while (!compare_exchange(&runtime->driving, 0, 1)) rcuo_pause(0);
        for (uint32_t n = 0; n < runtime->helpers_many; n++) pthread_mutex_lock(&runtime->helpers[n].outside);
        pthread_mutex_lock(&runtime->control);
        pthread_mutex_lock(&runtime->registry);
    }
}

static void give_locks(struct rcuo_runtime *runtime) {
    store(&runtime->driving, 0);
    pthread_mutex_unlock(&runtime->registry);
    pthread_mutex_unlock(&runtime->control);
    for (uint32_t n = 0; n < runtime->helpers_many; n++) pthread_mutex_unlock(&runtime->helpers[n].outside);
}

void rcuo_after_fork_parent(void) {
    for (struct rcuo_runtime *runtime = rcuo_first; runtime; runtime = runtime->next) {
        give_locks(runtime);
        rcuo_release_helpers(runtime);
    }
    pthread_mutex_unlock(&runtimes);
}

/* The threads that aren't in the child are registered no more. One that was online may have been within a call on its slot. */
static void forget_others(struct rcuo_runtime *runtime) {
    for (uint32_t n = rcuo_first_thread_of(runtime); n < runtime->members_many; n++) {
        struct member *member = &runtime->members[n];
        if (!member->registered || member == rcuo_member_here(runtime)) continue;
        if (load(&member->state) == HERE) {
            runtime->lost = true;
            continue;
        }
        member->registered = false;
        runtime->registered--;
        rcuo_free_member(member);
    }
}

void rcuo_after_fork_child(void) {
    for (struct rcuo_runtime *runtime = rcuo_first; runtime; runtime = runtime->next) {
        forget_others(runtime);
        for (uint32_t n = 0; n < runtime->helpers_many; n++) store(&runtime->helpers[n].idle, 0);
        store(&runtime->waits, 0);
        store(&runtime->parked, 0);
        store(&runtime->barriers, 0);
        rcuo_release_helpers(runtime);
        give_locks(runtime);
        if (rcuo_start_helpers(runtime, runtime->running) != RCUO_OK) rcuo_die("rcuo_after_fork_child", "a thread was refused");
    }
    pthread_mutex_unlock(&runtimes);
}
