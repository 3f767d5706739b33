/*
 * A member of a runtime: how calls are made by its processor, what they owe later, and how it comes and goes.
 */
#define _GNU_SOURCE
#include "internal.h"

#include <sched.h>
#include <time.h>

/* How many callbacks are released at once in a moment, and at how many the bypass list is (docs/c.md, "The managed runtime"). What is
 * counted by them says when the helper is told, and nothing else: a release that is missed here is told of by the tick, which
 * is owed. */
enum { DIRECT = 16, HIGH_MARK = RCUO_HIGH_MARK };

/* For how many calls the clock isn't read. */
enum { CALLS_A_MOMENT = 64 };

/* A moment is a millisecond of the coarse clock, which costs less to read than the fine one, and moves each few of them. */
static uint64_t moment_now(void) {
    struct timespec now;
    clock_gettime(CLOCK_MONOTONIC_COARSE, &now);
    return (uint64_t)now.tv_sec * 1000 + (uint64_t)now.tv_nsec / 1000000;
}

/* ---- heads that wait ---- */

void rcuo_append(struct queue *queue, struct rcuo_head *head) {
    head->next = NULL;
    if (queue->first) queue->last->next = head;
    else queue->first = head;
    queue->last = head;
}

static void queue_head(struct member *member, struct rcuo_head *head) {
    rcuo_append(&member->waiting, head);
    member->owes = true;
    /* (before the call returns, so that a barrier which comes after it counts the head) */
    store(&member->queued, member->queued + 1);
}

/* The runtime was shut: the head comes back by rcuo_stop. */
static void hand_back(struct rcuo_runtime *runtime, struct rcuo_head *head) {
    pthread_mutex_lock(&runtime->registry);
    rcuo_append(&runtime->back, head);
    pthread_mutex_unlock(&runtime->registry);
}

/* ---- what the helper is told ---- */

/* Tells the helper that something of this member may have come to its group. It was put there before. The helper takes the bit
 * before it draws; so either it draws this too, or the bit is not there for us and is set again. Where the bit is there still,
 * whoever set it has woken the helper or will. */
static void announce(struct member *member) {
    struct pending *pending = rcuo_pending_of(member);
    uint64_t bit = rcuo_bit_of(member);
    if (load(&pending->bits) & bit) return;
    __atomic_fetch_or(&pending->bits, bit, __ATOMIC_SEQ_CST);
    rcuo_wake_helper(member->helper);
}

/* Whether a plain call in this moment releases the bypass list. */
static bool releases(struct member *member, uint64_t moment) {
    if (moment != member->moment) {
        member->moment = moment;
        member->direct = 1;
        member->kept = 0;
        return true;
    }
    if (member->kept == 0 && member->direct < DIRECT) {
        member->direct++;
        return true;
    }
    if (++member->kept < HIGH_MARK) return false;
    member->kept = 0;
    return true;
}

/* ---- calls ---- */

/* (a job needs a function, and the helper calls the head's own) */
static void run_head(void *argument) {
    struct rcuo_head *head = argument;
    head->function(head);
}

/* The moment of a call: that of the call or the tick before it, for some calls. So most calls don't read the clock. A report
 * does, and ticks in a new moment. The helper's moments are the rounds that it makes: each has a tick. */
static uint64_t moment_of(struct member *member) {
    if (member->is_helpers || ++member->calls < CALLS_A_MOMENT) return member->moment;
    member->calls = 0;
    return moment_now();
}

/* Hands a head to the processor, or answers RCUO_MEMORY. */
static enum rcuo_answer accept_head(struct member *member, struct rcuo_head *head) {
    uint64_t moment = moment_of(member);
    enum rcuo_answer answer = rcuo_call(member->slot, moment, run_head, head, NULL);
    if (LIKELY(answer == RCUO_OK)) {
        member->owes = true;
        if (releases(member, moment)) announce(member);
        return answer;
    }
    if (answer == RCUO_CLOSED) {
        hand_back(member->runtime, head);
        return RCUO_OK;
    }
    if (answer != RCUO_MEMORY) rcuo_die("rcuo_call_rcu", rcuo_strerror(answer));
    return answer;
}

/* Hands in what waits, in order. Answers whether nothing waits any more. */
static bool flush(struct member *member) {
    while (member->waiting.first) {
        struct rcuo_head *head = member->waiting.first;
        struct rcuo_head *next = head->next; /* (an accepted head is the helper's, which may let it go at once) */
        if (accept_head(member, head) != RCUO_OK) return false;
        member->waiting.first = next;
        /* (after the call was accepted, so that a barrier which sees it taken counts the callback) */
        store(&member->taken, member->taken + 1);
    }
    return true;
}

void rcuo_member_call(struct member *member, struct rcuo_head *head) {
    if (UNLIKELY(member->waiting.first) && !flush(member)) {
        queue_head(member, head);
        return;
    }
    if (UNLIKELY(accept_head(member, head) != RCUO_OK)) queue_head(member, head);
}

/* Makes the tick that is owed, in a new moment or where a barrier urges: it releases the bypass list. */
static void tick(struct member *member, uint64_t moment) {
    struct rcuo_job job;
    struct rcuo_lists lists;
    enum rcuo_answer answer = rcuo_begin(member->slot, moment, &job);
    if (answer != RCUO_NONE_LEFT) rcuo_die("a tick", rcuo_strerror(answer));
    answer = rcuo_lists(member->slot, &lists);
    if (answer != RCUO_OK) rcuo_die("the lists", rcuo_strerror(answer));
    member->moment = moment;
    member->calls = 0;
    member->direct = 0;
    member->kept = (uint32_t)lists.bypass; /* (at most HIGH_MARK) */
    member->owes = lists.bypass != 0 || member->waiting.first;
    announce(member);
}

/* Reports, unless it did since the last grace period that is known to have started: then nothing is owed. */
void rcuo_member_report(struct member *member) {
    uint64_t counted, period = load(&member->runtime->period);
    if (LIKELY(period == member->reported)) return;
    enum rcuo_answer answer = rcuo_quiescent(member->slot, &counted);
    if (answer != RCUO_OK) rcuo_die("a report", rcuo_strerror(answer));
    member->reported = period;
    if (counted) rcuo_wake_reported(member);
}

/* What a report of a member that made calls does beside it. A barrier raises `urges` after it urged the processors, so whoever
 * sees the rise is urged in the tick. */
void rcuo_member_settle(struct member *member) {
    if (member->waiting.first) (void)flush(member);
    uint64_t moment = member->is_helpers ? member->moment + 1 : moment_now();
    uint64_t urges = load(&member->runtime->urges);
    if (moment == member->moment && urges == member->urged) return;
    member->urged = urges;
    tick(member, moment);
}

/* ---- coming and going ---- */

/* Leaves, with nothing left in the bypass list and the queue, or answers false: then the processor is here. */
static bool leave(struct member *member) {
    if (!flush(member)) return false;
    enum rcuo_answer answer = rcuo_leave(member->slot);
    if (answer == RCUO_MEMORY) return false;
    if (answer != RCUO_OK) rcuo_die("a leave", rcuo_strerror(answer));
    if (member->owes) announce(member);
    member->owes = false;
    member->kept = 0;
    return true;
}

/* The slot is anybody's from this store on, who takes it by a compare-exchange: its owner, who comes back, or who waits for a grace
 * period that waits for it, and tends it. Who sleeps for that is woken. */
static void let_go(struct member *member) {
    store(&member->state, LEAVING);
    rcuo_wake_reported(member);
}

void rcuo_member_go(struct member *member) {
    let_go(member);
    announce(member);
}

/* A leave costs more than all else here. Where nothing is owed nobody needs it until a grace period does. */
void rcuo_member_offline(struct member *member) {
    if (LIKELY(!member->owes)) {
        let_go(member);
    } else if (LIKELY(leave(member))) {
        store(&member->state, AWAY);
        rcuo_wake_reported(member);
    } else {
        rcuo_member_go(member);
    }
}

void rcuo_member_online(struct member *member) {
    for (;;) {
        uint32_t state = load(&member->state);
        if (LIKELY(state == AWAY)) break;
        if (state == LEAVING && compare_exchange(&member->state, LEAVING, HERE)) {
            /* It has read nothing yet. A thread that is offline often, and never long enough to be tended, isn't waited for either. */
            rcuo_member_report(member);
            return;
        }
        sched_yield(); /* (another has it, for some calls) */
    }
    enum rcuo_answer answer = rcuo_return(member->slot);
    if (answer != RCUO_OK) rcuo_die("a return", rcuo_strerror(answer));
    store(&member->state, HERE);
}

void rcuo_free_member(struct member *member) {
    member->next = member->runtime->free;
    member->runtime->free = member;
}

/* Where memory is refused it reports and ticks at least, which wants none: so grace periods go on, after which there is memory
 * again, if there is any. */
bool rcuo_member_tend(struct member *member) {
    if (load(&member->state) != LEAVING) return true;
    if (!compare_exchange(&member->state, LEAVING, HELD)) return true; /* (its owner is back, or another tends it) */
    if (!leave(member)) {
        member->reported = 0; /* (no period's number) */
        rcuo_member_report(member);
        tick(member, member->moment + 1);
        rcuo_member_go(member);
        return false;
    }
    store(&member->state, AWAY);
    rcuo_wake_reported(member);
    return true;
}
