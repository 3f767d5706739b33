/*
 * What a thread calls: it registers, reports and goes, makes calls, and waits for grace periods and callbacks.
 */
#include "internal.h"

#include <stdlib.h>

static const uint64_t no_period;

__thread struct rcuo_runtime *rcuo_chosen;
__thread struct member *rcuo_self;
__thread unsigned long rcuo_open_sections;
__thread struct rcuo_report rcuo_last_report = {&no_period, MORE_TO_REPORT};

/* The members that this thread has, one in each runtime with which it is registered. */
static __thread struct member *members_here;

static pthread_key_t ends_key;
static pthread_once_t ends_once = PTHREAD_ONCE_INIT;
static int ends_error;

/* Whether a read section of this thread is open, as far as files count them. The mark of one that doesn't is defined by that file. */
extern char rcuo_sections_uncounted __attribute__((weak));
static bool is_reading(void) {
    return UNLIKELY(rcuo_open_sections) && !&rcuo_sections_uncounted;
}

struct rcuo_runtime *rcuo_chosen_runtime(void) {
    return rcuo_chosen ? rcuo_chosen : load(&rcuo_first);
}

struct member *rcuo_member_here(struct rcuo_runtime *runtime) {
    if (runtime && rcuo_is_helper_of(runtime)) return &runtime->members[rcuo_helping->number];
    for (struct member *member = members_here; member; member = member->next) {
        if (member->runtime == runtime) return member;
    }
    return NULL;
}

/* ---- registering ---- */

/* The period's word is its runtime's, which may be stopped when the thread isn't registered there. */
static void forget_self(void) {
    rcuo_self = NULL;
    rcuo_last_report.period = &no_period;
    rcuo_report_more();
}

/* Gives a member back, which is this thread's and in no list. Whoever has it next may find it as this thread left it. */
static void give_member(struct member *member) {
    struct rcuo_runtime *runtime = member->runtime;
    if (rcuo_is_here(member)) rcuo_member_offline(member);
    pthread_mutex_lock(&runtime->registry);
    member->registered = false;
    runtime->registered--;
    rcuo_free_member(member);
    pthread_mutex_unlock(&runtime->registry);
}

/* A thread ends. */
static void give_all(void *none) {
    (void)none;
    forget_self();
    while (members_here) {
        struct member *member = members_here;
        members_here = member->next;
        give_member(member);
    }
}

static void make_key(void) {
    ends_error = pthread_key_create(&ends_key, give_all);
}

static enum rcuo_answer take_member(struct rcuo_runtime *runtime, struct member **member) {
    enum rcuo_answer answer = RCUO_OK;
    pthread_mutex_lock(&runtime->registry);
    *member = runtime->free;
    if (runtime->stopping) answer = RCUO_CLOSED;
    else if (!*member) answer = RCUO_FEW;
    if (answer == RCUO_OK) {
        runtime->free = (*member)->next;
        runtime->registered++;
        (*member)->registered = true;
    }
    pthread_mutex_unlock(&runtime->registry);
    return answer;
}

enum rcuo_answer rcuo_register(void) {
    struct rcuo_runtime *runtime = rcuo_chosen_runtime();
    struct member *member;
    if (!runtime) return RCUO_NO_PROCESSOR;
    if (rcuo_member_here(runtime)) return RCUO_FULL;
    pthread_once(&ends_once, make_key);
    /* (a value that isn't null has the thread's end call `give_all`) */
    if (ends_error || pthread_setspecific(ends_key, &ends_key)) return RCUO_MEMORY;
    enum rcuo_answer answer = take_member(runtime, &member);
    if (answer != RCUO_OK) return answer;
    rcuo_member_online(member);
    member->next = members_here;
    members_here = member;
    rcuo_self = member;
    return RCUO_OK;
}

enum rcuo_answer rcuo_unregister(void) {
    struct member *member = rcuo_self;
    if (!member) return RCUO_NO_PROCESSOR;
    if (rcuo_is_helper_of(member->runtime)) return RCUO_RUNNING;
    if (is_reading()) return RCUO_READING;
    struct member **at = &members_here;
    while (*at != member) at = &(*at)->next;
    *at = member->next;
    forget_self();
    give_member(member);
    return RCUO_OK;
}

enum rcuo_answer rcuo_use(struct rcuo_runtime *runtime) {
    forget_self();
    rcuo_chosen = runtime;
    rcuo_self = rcuo_member_here(rcuo_chosen_runtime());
    return RCUO_OK;
}

/* ---- reports ---- */

enum rcuo_answer rcuo_report_all(void) {
    struct member *self = rcuo_self;
    if (!self) return RCUO_NO_PROCESSOR;
    if (is_reading()) return RCUO_READING;
    if (!rcuo_is_here(self)) return RCUO_AWAY;
    rcuo_member_report(self);
    if (self->owes) rcuo_member_settle(self);
    if (self->owes) return RCUO_OK;
    rcuo_last_report.period = &self->runtime->period;
    rcuo_last_report.reported = self->reported;
    return RCUO_OK;
}

void rcuo_report_members(void) {
    for (struct member *member = members_here; member; member = member->next) {
        if (rcuo_is_here(member)) rcuo_member_report(member);
    }
}

enum rcuo_answer rcuo_thread_offline(void) {
    struct member *self = rcuo_self;
    if (!self) return RCUO_NO_PROCESSOR;
    if (is_reading()) return RCUO_READING;
    rcuo_report_more();
    if (rcuo_is_here(self)) rcuo_member_offline(self);
    return RCUO_OK;
}

enum rcuo_answer rcuo_thread_online(void) {
    struct member *self = rcuo_self;
    if (!self) return RCUO_NO_PROCESSOR;
    if (!rcuo_is_here(self)) rcuo_member_online(self);
    return RCUO_OK;
}

bool rcuo_thread_is_online(void) {
    return rcuo_is_here(rcuo_self);
}

pthread_t rcuo_helper_thread(void) {
    struct rcuo_runtime *runtime = rcuo_chosen_runtime();
    if (!runtime) rcuo_die("rcuo_helper_thread", "no runtime was started");
    return rcuo_self ? rcuo_self->helper->thread : runtime->helpers[0].thread;
}

enum rcuo_answer rcuo_get_helper_thread(uint32_t number, pthread_t *thread) {
    struct rcuo_runtime *runtime = rcuo_chosen_runtime();
    if (!thread) return RCUO_NULL;
    if (!runtime || number >= load(&runtime->running)) return RCUO_NO_PROCESSOR;
    *thread = runtime->helpers[number].thread;
    return RCUO_OK;
}

/* ---- calls ---- */

static void call_offline(struct member *member, struct rcuo_head *head) {
    rcuo_member_online(member);
    rcuo_member_call(member, head);
    rcuo_member_offline(member);
}

/* The mutex hands the member on. It doesn't leave after each call: the helper, which is told of the call, does that. */
static void call_from_outside(uint32_t number, struct rcuo_head *head) {
    struct rcuo_runtime *runtime = rcuo_chosen_runtime();
    if (!runtime) rcuo_die("rcuo_call_rcu", "no runtime was started");
    if (number >= load(&runtime->running)) rcuo_die("rcuo_call_rcu_in", "there is no such helper");
    struct helper *helper = &runtime->helpers[number];
    struct member *member = rcuo_outside_of(helper);
    pthread_mutex_lock(&helper->outside);
    rcuo_member_online(member);
    rcuo_member_call(member, head);
    rcuo_member_go(member);
    pthread_mutex_unlock(&helper->outside);
}

void rcuo_call_rcu(struct rcuo_head *head, void (*function)(struct rcuo_head *head)) {
    struct member *self = rcuo_self;
    head->function = function;
    rcuo_report_more(); /* (a tick is owed) */
    if (LIKELY(rcuo_is_here(self))) rcuo_member_call(self, head);
    else if (self) call_offline(self, head);
    else call_from_outside(0, head);
}

void rcuo_call_rcu_in(uint32_t helper, struct rcuo_head *head, void (*function)(struct rcuo_head *head)) {
    head->function = function;
    call_from_outside(helper, head);
}

struct deferred {
    struct rcuo_head head;
    void (*function)(void *argument);
    void *argument;
};

static void run_deferred(struct rcuo_head *head) {
    struct deferred deferred = *(struct deferred *)(void *)head;
    free(head);
    deferred.function(deferred.argument);
}

enum rcuo_answer rcuo_defer(void (*function)(void *argument), void *argument) {
    if (!function) return RCUO_NULL;
    if (!rcuo_chosen_runtime()) return RCUO_NO_PROCESSOR;
    struct deferred *deferred = malloc(sizeof *deferred);
    if (!deferred) {
        enum rcuo_answer answer = rcuo_synchronize();
        if (answer == RCUO_OK) function(argument);
        return answer;
    }
    deferred->function = function;
    deferred->argument = argument;
    rcuo_call_rcu(&deferred->head, run_deferred);
    return RCUO_OK;
}

/* ---- waiting ---- */

/* Asks for a grace period by the thread's own slot, or by control's. Whether the helper sleeps is looked at after it. */
static void ask_for_period(struct rcuo_runtime *runtime, uint64_t *cookie) {
    enum rcuo_answer answer;
    if (rcuo_is_here(rcuo_self)) {
        answer = rcuo_start_poll(rcuo_self->slot, cookie);
    } else {
        pthread_mutex_lock(&runtime->control);
        answer = rcuo_start_poll(&runtime->parts.control, cookie);
        pthread_mutex_unlock(&runtime->control);
    }
    if (answer != RCUO_OK) rcuo_die("a grace period", rcuo_strerror(answer));
}

static void refuse_lost(struct rcuo_runtime *runtime) {
    if (runtime->lost) rcuo_die("a grace period", "a thread was online in the parent of this process, and would be waited for");
}

enum rcuo_answer rcuo_synchronize(void) {
    struct rcuo_runtime *runtime = rcuo_chosen_runtime();
    struct member *self = rcuo_self;
    uint64_t cookie;
    if (!runtime) return RCUO_NO_PROCESSOR;
    if (is_reading()) return RCUO_READING;
    refuse_lost(runtime);
    ask_for_period(runtime, &cookie);
    bool here = rcuo_is_here(self);
    rcuo_wait_for_number(runtime, cookie, self);
    if (here && !rcuo_is_here(self)) rcuo_member_online(self);
    return RCUO_OK;
}

enum rcuo_answer rcuo_start_poll_synchronize(uint64_t *cookie) {
    struct rcuo_runtime *runtime = rcuo_chosen_runtime();
    if (!cookie) return RCUO_NULL;
    if (!runtime) return RCUO_NO_PROCESSOR;
    ask_for_period(runtime, cookie);
    rcuo_wake_helper(&runtime->helpers[0]); /* (whose last look before it sleeps is a turn of the driver) */
    return RCUO_OK;
}

enum rcuo_answer rcuo_poll_state_synchronize(uint64_t cookie, bool *elapsed) {
    struct rcuo_runtime *runtime = rcuo_chosen_runtime();
    if (!elapsed) return RCUO_NULL;
    if (!runtime) return RCUO_NO_PROCESSOR;
    *elapsed = load(&runtime->number) >= cookie;
    return RCUO_OK;
}

/* Waits until the heads went in that memory was refused to before. Their owners and the helper try again and again. */
static void wait_for_queues(struct rcuo_runtime *runtime) {
    for (uint32_t n = 0; n < runtime->members_many; n++) {
        struct member *member = &runtime->members[n];
        uint64_t queued = load(&member->queued);
        while (load(&member->taken) < queued) rcuo_sleep_millisecond();
    }
}

static bool have_run(struct rcuo_runtime *runtime, const struct rcuo_counts *counts) {
    bool passed = false;
    pthread_mutex_lock(&runtime->control);
    enum rcuo_answer answer = rcuo_poll(&runtime->parts.control, counts, &passed);
    pthread_mutex_unlock(&runtime->control);
    if (answer != RCUO_OK) rcuo_die("a barrier", rcuo_strerror(answer));
    return passed;
}

/* Opens a barrier, and waits until what it counts has run. The helper looks whether anybody sleeps here after it finished
 * callbacks; who sleeps said so before it looked which have run. */
void rcuo_wait_for_callbacks(struct rcuo_runtime *runtime, struct rcuo_counts *counts) {
    refuse_lost(runtime);
    wait_for_queues(runtime);
    pthread_mutex_lock(&runtime->control);
    enum rcuo_answer answer = rcuo_barrier(&runtime->parts.control, counts);
    pthread_mutex_unlock(&runtime->control);
    if (answer != RCUO_OK) rcuo_die("a barrier", rcuo_strerror(answer));
    add(&runtime->urges, 1); /* (after the barrier urged: `rcuo_member_settle`) */
    add(&runtime->barriers, 1);
    for (;;) {
        uint32_t ran = load(&runtime->ran);
        if (have_run(runtime, counts)) break;
        rcuo_futex_wait(&runtime->ran, ran, 0);
    }
    subtract(&runtime->barriers, 1);
}

enum rcuo_answer rcuo_runtime_barrier(void) {
    struct rcuo_runtime *runtime = rcuo_chosen_runtime();
    struct member *self = rcuo_self;
    struct rcuo_counts counts;
    if (!runtime) return RCUO_NO_PROCESSOR;
    if (rcuo_is_helper_of(runtime)) return RCUO_RUNNING;
    if (is_reading()) return RCUO_READING;
    bool here = rcuo_is_here(self);
    if (here) rcuo_member_offline(self);
    rcuo_wait_for_callbacks(runtime, &counts);
    if (here) rcuo_member_online(self);
    return RCUO_OK;
}
