/*
 * The helper threads, which run the callbacks, each those of its own members; and who makes the driver's turns: a helper, or a
 * thread that waits for a grace period, by turns. And how both sleep.
 */
#define _GNU_SOURCE
#include "internal.h"

#include <limits.h>
#include <linux/futex.h>
#include <sched.h>
#include <signal.h>
#include <sys/prctl.h>
#include <sys/syscall.h>
#include <time.h>
#include <unistd.h>

__thread struct helper *rcuo_helping;

/* For how many rounds a helper, and who waits for a grace period, look again for a report before they sleep; and for how many a
 * helper does where no grace period is needed. */
enum { ROUNDS = 100, IDLE_ROUNDS = 16 };

/* ---- sleeping ---- */

/* Sleeps while the word has this value, at most so many milliseconds, or for any time where that is 0. It may come back for no
 * reason (a signal, another's wake), so callers look again. */
void rcuo_futex_wait(uint32_t *word, uint32_t value, long milliseconds) {
    struct timespec most = {milliseconds / 1000, milliseconds % 1000 * 1000000};
    syscall(SYS_futex, word, FUTEX_WAIT_PRIVATE, value, milliseconds ? &most : NULL, NULL, 0);
}

void rcuo_futex_wake(uint32_t *word) {
    syscall(SYS_futex, word, FUTEX_WAKE_PRIVATE, INT_MAX, NULL, NULL, 0);
}

void rcuo_sleep_millisecond(void) {
    uint32_t none = 0;
    rcuo_futex_wait(&none, 0, 1);
}

/* Lets a round of looking pass: at first without giving the processor away. */
void rcuo_pause(unsigned round) {
#if defined(__x86_64__) || defined(__i386__)
    for (int i = 0; i < 8; i++) __builtin_ia32_pause();
#endif
    if (round % 16 == 15) sched_yield();
}

/* Wakes a helper where it sleeps since nothing is to be done. The caller's step was made before. The exchange lets one of many
 * wakers make the system call. */
void rcuo_wake_helper(struct helper *helper) {
    if (UNLIKELY(load(&helper->idle)) && exchange(&helper->idle, 0)) rcuo_futex_wake(&helper->idle);
}

/* Wakes all who sleep for a report. */
void rcuo_wake_waiting(struct rcuo_runtime *runtime) {
    if (exchange(&runtime->waits, 0)) rcuo_futex_wake(&runtime->waits);
}

/* Asks something of the helpers, and wakes them from whichever sleep. They look at `asks` after they said that they sleep. */
void rcuo_ask_helpers(struct rcuo_runtime *runtime, enum ask ask) {
    __atomic_fetch_or(&runtime->asks, (uint32_t)ask, __ATOMIC_SEQ_CST);
    for (uint32_t n = 0; n < runtime->helpers_many; n++) rcuo_wake_helper(&runtime->helpers[n]);
    rcuo_wake_waiting(runtime);
}

void rcuo_release_helpers(struct rcuo_runtime *runtime) {
    __atomic_fetch_and(&runtime->asks, ~(uint32_t)PARK, __ATOMIC_SEQ_CST);
    rcuo_futex_wake(&runtime->asks);
}

/* ---- the driver ---- */

static bool waits_for(const struct rcuo_driver_turn *turn, uint32_t waits) {
    return turn->step == RCUO_WAITS && turn->number + 1 == waits;
}

/* A turn of the driver, by whoever has it. What it tells is written where others read it: `number` by those who wait for the
 * end of a grace period, `period` by those who report. */
static struct rcuo_driver_turn turn_once(struct rcuo_runtime *runtime) {
    struct rcuo_driver_turn turn;
    enum rcuo_answer answer = rcuo_driver_turn(&runtime->parts.driver, &turn);
    if (answer != RCUO_OK) rcuo_die("the driver", rcuo_strerror(answer));
    if (turn.step == RCUO_ENDED) store(&runtime->number, turn.number);
    if (turn.step == RCUO_STARTED) store(&runtime->period, turn.number);
    return turn;
}

/* The same, until it waits for nobody whose owner went: those are left for, or at least reported for. */
static struct rcuo_driver_turn turn_driver(struct rcuo_runtime *runtime) {
    for (;;) {
        struct rcuo_driver_turn turn = turn_once(runtime);
        if (turn.step != RCUO_WAITS) return turn;
        struct member *member = &runtime->members[turn.number];
        if (LIKELY(load(&member->state) != LEAVING)) return turn;
        (void)rcuo_member_tend(member); /* (what is left to do there is the helper's) */
    }
}

/* A turn of the driver, if nobody else makes one. With `sleeps` it says that its caller sleeps for the report that it answers,
 * and looks again: if the report came before the look, the caller doesn't sleep; else the reporter comes to the word after it.
 *
 * The word `waits` is set by whoever has the driver alone, and so names the processor that the driver waits for. Where the
 * driver waits for it no more the sleepers are woken before another is named, since their reporter may find the other's name. */
static bool drive(struct rcuo_runtime *runtime, bool sleeps, struct rcuo_driver_turn *turn) {
    if (load_relaxed(&runtime->driving) || !compare_exchange(&runtime->driving, 0, 1)) return false;
    *turn = turn_driver(runtime);
    uint32_t waits = load(&runtime->waits);
    if (waits && !waits_for(turn, waits)) rcuo_wake_waiting(runtime);
    if (sleeps && turn->step == RCUO_WAITS) {
        waits = (uint32_t)turn->number + 1;
        store(&runtime->waits, waits);
        *turn = turn_driver(runtime);
        if (!waits_for(turn, waits)) rcuo_wake_waiting(runtime);
    }
    store(&runtime->driving, 0);
    return true;
}

/* Waits until the grace period of a cookie has ended, and makes the driver's turns meanwhile: so it needs no helper, which may
 * be in a long callback, or be the caller. The caller's own member, if it has one that is here, reports, and leaves before the
 * caller sleeps. */
void rcuo_wait_for_number(struct rcuo_runtime *runtime, uint64_t cookie, struct member *self) {
    struct rcuo_driver_turn turn;
    unsigned round = 0;
    while (load(&runtime->number) < cookie) {
        if (rcuo_is_here(self)) {
            if (round < ROUNDS) rcuo_member_report(self);
            else rcuo_member_offline(self);
        }
        bool sleeps = round >= ROUNDS;
        bool drove = drive(runtime, sleeps, &turn);
        if (drove && turn.step != RCUO_WAITS) round = 0;
        else if (drove && sleeps) rcuo_futex_wait(&runtime->waits, (uint32_t)turn.number + 1, 0);
        else rcuo_pause(round++);
    }
}

/* ---- callbacks ---- */

static struct member *own_of(struct helper *helper) {
    return &helper->runtime->members[helper->number];
}

/* While callbacks run the helper's member is here, so that a callback may read. It reports before each, and forgets what the one
 * before it chose. */
static void be_here(struct helper *helper) {
    struct member *self = own_of(helper);
    rcuo_chosen = helper->runtime;
    rcuo_self = self;
    rcuo_open_sections = 0;
    rcuo_report_more();
    if (LIKELY(rcuo_is_here(self))) rcuo_member_report(self);
    else rcuo_member_online(self);
}

/* Runs what a hand has and may run. Answers how many ran. */
static uint64_t run_hand(struct helper *helper, struct rcuo_slot *hand) {
    struct rcuo_job job;
    uint64_t ran = 0;
    enum rcuo_answer answer = rcuo_begin(hand, 0, &job);
    for (; answer == RCUO_OK; ran++) {
        be_here(helper);
        job.function(job.argument);
        answer = rcuo_next(hand, 0, &job); /* (one was begun, so it has ended) */
    }
    if (answer == RCUO_MEMORY) helper->refused = true;
    return ran;
}

/* Leaves for a member whose owner went, and makes a turn of its group and of its hand. Answers whether anything moved. */
static bool serve(struct helper *helper, uint32_t number) {
    struct rcuo_parts *parts = &helper->runtime->parts;
    struct member *member = &helper->runtime->members[number];
    struct rcuo_group_turn turn;
    bool tended = rcuo_member_tend(member);
    enum rcuo_answer answer = rcuo_group_turn(&parts->groups[number], &turn);
    if (answer != RCUO_OK) rcuo_die("a group", rcuo_strerror(answer));
    uint64_t ran = run_hand(helper, &parts->hands[number]);
    member->drawn += turn.took - ran;
    if (turn.held || !tended) helper->refused = true;
    if (member->drawn || turn.took || !tended) helper->active[number % WORDS] |= rcuo_bit_of(member);
    else helper->active[number % WORDS] &= ~rcuo_bit_of(member);
    return turn.took || turn.gave || ran;
}

/* Takes the bits of the members that have something new, each before the look at what it has (`announce` of member.c), and serves
 * these and those that had something before. */
static bool serve_all(struct helper *helper) {
    bool moved = false;
    for (uint32_t w = 0; w < WORDS; w++) {
        if (load(&helper->pending[w].bits)) helper->active[w] |= exchange(&helper->pending[w].bits, 0);
        for (uint64_t left = helper->active[w]; left; left &= left - 1) {
            moved |= serve(helper, (uint32_t)__builtin_ctzll(left) * WORDS + w);
        }
    }
    return moved;
}

/* Who waits in a barrier looks again after callbacks ran. */
static void tell_barriers(struct rcuo_runtime *runtime) {
    if (!load(&runtime->barriers)) return;
    add(&runtime->ran, 1);
    rcuo_futex_wake(&runtime->ran);
}

/* Between callbacks the helper's member reports, and hands over what callbacks called. */
static void rest(struct helper *helper) {
    struct member *self = own_of(helper);
    if (!rcuo_is_here(self)) return;
    rcuo_member_report(self);
    if (self->owes) rcuo_member_settle(self);
}

/* ---- a helper ---- */

static bool has_pending(struct helper *helper) {
    for (uint32_t w = 0; w < WORDS; w++) {
        if (load(&helper->pending[w].bits)) return true;
    }
    return false;
}

/* Whether callbacks of its members were drawn and haven't run. */
static bool has_active(const struct helper *helper) {
    uint64_t any = 0;
    for (uint32_t w = 0; w < WORDS; w++) any |= helper->active[w];
    return any != 0;
}

/* Whether the helper sees to it that grace periods end: where callbacks of its members wait; and the first for those who ask for
 * one without a callback. Who waits for one otherwise makes the driver's turns. */
static bool needs_driver(const struct helper *helper) {
    return helper->number == 0 || has_active(helper);
}

/* Whether a last look, made after the helper said that it sleeps, found nothing new: the caller has had the driver. Another
 * thread may have ended a grace period since callbacks were looked at; then those that waited for it may run. */
static bool has_nothing_new(struct helper *helper) {
    return load(&helper->runtime->number) == helper->served && !load(&helper->runtime->asks);
}

/* Sleeps where a last look finds nothing: until the report that the driver waits for, or, where no grace period is needed,
 * until a call; or for a millisecond where memory was refused. While the driver waits calls wake nobody: they can't run before
 * this grace period ends, and the helper draws them then. */
static void sleep_helper(struct helper *helper) {
    struct rcuo_runtime *runtime = helper->runtime;
    struct rcuo_driver_turn turn = {RCUO_IDLE, 0};
    long most = helper->refused ? 1 : 0;
    store(&helper->idle, 1);
    if (needs_driver(helper) && !drive(runtime, true, &turn)) {
        rcuo_pause(0);
    } else if (has_nothing_new(helper)) {
        if (turn.step == RCUO_WAITS) {
            store(&helper->idle, 0);
            rcuo_futex_wait(&runtime->waits, (uint32_t)turn.number + 1, most);
        } else if (turn.step == RCUO_IDLE && !has_pending(helper)) {
            /* (callbacks that no grace period is needed for wait for memory: a group gives more than sixteen in a list of their own) */
            rcuo_futex_wait(&helper->idle, 1, has_active(helper) ? 1 : most);
        }
    }
    store(&helper->idle, 0);
}

/* Looks a last time, or leaves first: then what that released is looked at before. */
static void leave_or_sleep(struct helper *helper) {
    struct member *self = own_of(helper);
    if (rcuo_is_here(self)) rcuo_member_offline(self);
    else sleep_helper(helper);
}

/* Stands still while a fork is made, or while no part is there yet. Other helpers may be in a callback that waits for a grace period,
 * so it leaves before. */
static void park(struct helper *helper) {
    struct rcuo_runtime *runtime = helper->runtime;
    struct member *self = own_of(helper);
    if (rcuo_is_here(self)) rcuo_member_offline(self);
    add(&runtime->parked, 1);
    rcuo_futex_wake(&runtime->parked);
    for (uint32_t asks = load(&runtime->asks); asks & PARK; asks = load(&runtime->asks)) rcuo_futex_wait(&runtime->asks, asks, 0);
    subtract(&runtime->parked, 1);
}

/* One round. Answers after how many rounds like it the helper sleeps: 0 where anything moved. */
static unsigned help_once(struct helper *helper) {
    struct rcuo_runtime *runtime = helper->runtime;
    struct rcuo_driver_turn turn = {RCUO_IDLE, 0};
    helper->refused = false;
    helper->served = load(&runtime->number);
    bool moved = serve_all(helper);
    if (moved) tell_barriers(runtime);
    rest(helper);
    bool drove = !needs_driver(helper) || drive(runtime, false, &turn);
    if (moved || !drove || turn.step == RCUO_STARTED || turn.step == RCUO_ENDED) return 0;
    return turn.step == RCUO_IDLE ? IDLE_ROUNDS : ROUNDS;
}

static void *help(void *argument) {
    struct helper *helper = argument;
    prctl(PR_SET_NAME, helper->name);
    rcuo_helping = helper;
    rcuo_chosen = helper->runtime;
    for (unsigned round = 0;;) {
        uint32_t asks = load(&helper->runtime->asks);
        if (asks & PARK) {
            park(helper);
            continue;
        }
        if (asks & STOP) return NULL;
        unsigned most = help_once(helper);
        if (most == 0) round = 0;
        else if (round < most) rcuo_pause(round++);
        else leave_or_sleep(helper);
    }
}

/* A helper takes no signals. */
enum rcuo_answer rcuo_start_helper(struct helper *helper) {
    sigset_t all, before;
    sigfillset(&all);
    pthread_sigmask(SIG_SETMASK, &all, &before);
    int error = pthread_create(&helper->thread, helper->attributes, help, helper);
    pthread_sigmask(SIG_SETMASK, &before, NULL);
    return error ? RCUO_MEMORY : RCUO_OK;
}

enum rcuo_answer rcuo_start_helpers(struct rcuo_runtime *runtime, uint32_t many) {
    for (uint32_t n = 0; n < many; n++) {
        enum rcuo_answer answer = rcuo_start_helper(&runtime->helpers[n]);
        if (answer != RCUO_OK) {
            rcuo_end_helpers(runtime, n);
            return answer;
        }
    }
    store(&runtime->running, many);
    return RCUO_OK;
}

void rcuo_end_helpers(struct rcuo_runtime *runtime, uint32_t many) {
    rcuo_ask_helpers(runtime, STOP);
    rcuo_release_helpers(runtime);
    for (uint32_t n = 0; n < many; n++) pthread_join(runtime->helpers[n].thread, NULL);
}
