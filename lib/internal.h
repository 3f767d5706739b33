/*
 * What the files of the runtime share.
 *
 * WHO USES WHICH SLOT. A slot of rcuo.h is used by one thread at a time, and here:
 *   - processors[n] belongs to member n: to the thread that took the member, from `take_member` until it gives it back, both
 *     under the registry mutex. While the member's state is LEAVING it is nobody's, and whoever makes it HERE or HELD by a
 *     compare-exchange has it. The first members are the helpers' own, one each, and those after them, one for each helper too,
 *     are those of whoever holds that helper's mutex `outside`.
 *   - groups[n] and hands[n] belong to the helper of member n.
 *   - the driver belongs to whoever set the word `driving`.
 *   - control belongs to whoever holds the mutex `control`.
 *
 * ORDER. The library's steps are sequentially consistent, and so are the steps on words here that are written `load`, `store` and
 * so on without another word. So all of them have one order, and the pattern "make a step, then look whether the other sleeps",
 * against "say that I sleep, then look for steps", never loses a wake: whichever of the two looks comes last sees the other's
 * step.
 */
#ifndef RCUO_INTERNAL_H
#define RCUO_INTERNAL_H

/* (no file of the runtime has read sections, so none leaves the mark of one that doesn't count them) */
#ifndef RCUO_DEBUG
#define RCUO_DEBUG
#endif
#include <rcuo/runtime.h>

/* Words that different threads write stand in different pairs of cache lines. */
#define PAIR_OF_LINES 128
#define ALONE __attribute__((aligned(PAIR_OF_LINES)))

#define LIKELY(x) __builtin_expect(!!(x), 1)
#define UNLIKELY(x) __builtin_expect(!!(x), 0)

/* ---- words that threads share ---- */

#define load(at) __atomic_load_n(at, __ATOMIC_SEQ_CST)
#define load_relaxed(at) __atomic_load_n(at, __ATOMIC_RELAXED)
#define store(at, value) __atomic_store_n(at, value, __ATOMIC_SEQ_CST)
#define store_relaxed(at, value) __atomic_store_n(at, value, __ATOMIC_RELAXED)
#define exchange(at, value) __atomic_exchange_n(at, value, __ATOMIC_SEQ_CST)
#define add(at, value) __atomic_add_fetch(at, value, __ATOMIC_SEQ_CST)
#define subtract(at, value) __atomic_sub_fetch(at, value, __ATOMIC_SEQ_CST)

static inline bool compare_exchange(uint32_t *at, uint32_t from, uint32_t to) {
    return __atomic_compare_exchange_n(at, &from, to, false, __ATOMIC_SEQ_CST, __ATOMIC_SEQ_CST);
}

/* ---- members ---- */

/* At how many callbacks a bypass list is released whatever the moment. */
#define RCUO_HIGH_MARK 1000

/* Heads that wait in the order of their calls. */
struct queue {
    struct rcuo_head *first;
    struct rcuo_head *last;
};

/* Whose the processor of a member is. */
enum state {
    AWAY,    /* its owner's, or nobody's where no thread has the member; the processor is away */
    HERE,    /* its owner's, who is online */
    LEAVING, /* nobody's: its owner went without leaving, so the processor is still here; whoever wants it takes it */
    HELD     /* that of a thread that leaves for it */
};

struct helper;

struct member {
    ALONE struct rcuo_runtime *runtime;
    struct helper *helper; /* whose its group and its hand are */
    struct rcuo_slot *slot;
    struct member *next; /* of its thread's members, or of the free ones */
    uint32_t number;
    uint32_t state;  /* an enum state */
    bool is_helpers; /* it is a helper's own */
    bool registered; /* a thread has it; under the registry mutex */

    /* These are for whoever has the slot. */
    bool owes;              /* callbacks may wait in the bypass list, or heads in the queue */
    uint32_t calls;         /* how many calls there were since the clock was read */
    uint64_t reported;      /* the runtime's `period` at the last report */
    uint64_t moment;        /* the last that was handed in */
    uint64_t urged;         /* the urge that was heeded last */
    uint32_t direct;        /* how many calls of that moment were released at once */
    uint32_t kept;          /* how many callbacks the bypass list has */
    struct queue waiting;   /* heads that were refused for memory, which go in first */
    uint64_t queued, taken; /* how many ever waited there, and how many of them were taken out: words that a barrier reads */

    ALONE uint64_t drawn; /* how many callbacks its group or its hand has: the helper's */
};

/* ---- helpers ---- */

/* The members that have something for their helper are bits of these words: member n is bit n / WORDS of word n % WORDS, so that
 * the first members have words of their own. */
#define WORDS (RCUO_PROCESSORS / 64)

struct pending {
    ALONE uint64_t bits;
};

struct helper {
    struct rcuo_runtime *runtime;
    uint32_t number;
    const pthread_attr_t *attributes;
    pthread_t thread;
    pthread_mutex_t outside;
    char name[16];

    ALONE uint32_t idle; /* a futex: 1 while it sleeps since nothing is to be done */

    struct pending pending[WORDS];

    /* The rest is its own. */
    ALONE uint64_t active[WORDS]; /* the members whose group or hand has callbacks */
    uint64_t served;              /* the grace-period number before they were looked at last */
    bool refused;                 /* memory was refused to a group */
};

/* What the helpers are asked for. */
enum ask { STOP = 1, PARK = 2 };

/* ---- the runtime ---- */

struct rcuo_runtime {
    struct rcuo_runtime *next; /* of the process's runtimes */
    uint32_t members_many;
    uint32_t helpers_many; /* how many there may be */
    uint32_t running;      /* so many there are, the first; rises under the mutex of all runtimes */
    struct helper *helpers;
    struct member *free;
    uint32_t registered; /* how many threads are; under the registry mutex */
    bool stopping;       /* under the registry mutex */
    bool lost;           /* a fork left a thread behind that was online */
    pthread_mutex_t registry, control;
    struct queue back; /* heads that were called after the runtime was shut; under the registry mutex */

    ALONE uint32_t driving; /* 1 while somebody has the driver */
    uint64_t number;        /* the grace-period number as the last end of one told it */

    ALONE uint64_t period; /* and as the last start: who reported since needs no report */

    ALONE uint32_t waits; /* a futex: 1 + the processor whose report is slept for, or 0 */
    ALONE uint32_t asks;  /* a futex: bits of enum ask */
    uint32_t parked;      /* a futex: how many helpers stand still, for a fork */
    uint64_t urges;       /* how many barriers were opened */

    ALONE uint32_t barriers; /* how many threads sleep until callbacks ran */
    uint32_t ran;            /* a futex: rises when some did while one sleeps */

    ALONE struct rcuo_parts parts;

    struct member members[];
};

/* Of this thread: which helper it is; the runtime that it chose, or null for the process's first; and the member by which it
 * uses that one, or null where it isn't registered there. */
extern __thread struct helper *rcuo_helping;
extern __thread struct rcuo_runtime *rcuo_chosen;
extern __thread struct member *rcuo_self;
/* The first of the process's runtimes. */
extern struct rcuo_runtime *rcuo_first;

/* The members by which threads call in a helper, and not by their own, come after the helpers' own; then come those of threads. */
static inline struct member *rcuo_outside_of(struct helper *helper) {
    return &helper->runtime->members[helper->runtime->helpers_many + helper->number];
}

static inline uint32_t rcuo_first_thread_of(const struct rcuo_runtime *runtime) {
    return 2 * runtime->helpers_many;
}

/* Whether this thread runs callbacks of that runtime. */
static inline bool rcuo_is_helper_of(const struct rcuo_runtime *runtime) {
    return rcuo_helping && rcuo_helping->runtime == runtime;
}

/* A report of this thread has more to do than a look. */
#define MORE_TO_REPORT UINT64_MAX
static inline void rcuo_report_more(void) {
    rcuo_last_report.reported = MORE_TO_REPORT;
}

/* Says what can't be answered, and aborts. */
void rcuo_die(const char *what, const char *why) __attribute__((noreturn, cold));

/* These are of member.c. The caller is the member's owner, and but for `online` the member is HERE. */
void rcuo_member_call(struct member *member, struct rcuo_head *head);
void rcuo_member_report(struct member *member);
void rcuo_member_settle(struct member *member);
void rcuo_member_online(struct member *member);
void rcuo_member_offline(struct member *member);
/* The owner goes, and lets its helper leave for it. */
void rcuo_member_go(struct member *member);
/* Leaves for an owner who went, by any thread. Answers whether there is nothing left to do. */
bool rcuo_member_tend(struct member *member);
/* Puts a member among the free ones, under the registry mutex. */
void rcuo_free_member(struct member *member);
void rcuo_append(struct queue *queue, struct rcuo_head *head);

/* These are of helper.c. */
/* Starts a helper, as it was made. */
enum rcuo_answer rcuo_start_helper(struct helper *helper);
/* Starts the first so many helpers, or leaves none, and whoever was asked to stand still does so. */
enum rcuo_answer rcuo_start_helpers(struct rcuo_runtime *runtime, uint32_t many);
/* Ends the first so many helpers, which have nothing left to do. */
void rcuo_end_helpers(struct rcuo_runtime *runtime, uint32_t many);
void rcuo_wake_helper(struct helper *helper);
void rcuo_ask_helpers(struct rcuo_runtime *runtime, enum ask ask);
/* Lets those go on that were asked to stand still. */
void rcuo_release_helpers(struct rcuo_runtime *runtime);
void rcuo_wake_waiting(struct rcuo_runtime *runtime);
void rcuo_wait_for_number(struct rcuo_runtime *runtime, uint64_t cookie, struct member *self);
void rcuo_futex_wait(uint32_t *word, uint32_t value, long milliseconds);
void rcuo_futex_wake(uint32_t *word);
void rcuo_sleep_millisecond(void);
void rcuo_pause(unsigned round);

/* These are of thread.c. */
struct rcuo_runtime *rcuo_chosen_runtime(void);
void rcuo_wait_for_callbacks(struct rcuo_runtime *runtime, struct rcuo_counts *counts);
struct member *rcuo_member_here(struct rcuo_runtime *runtime); /* the member that this thread has there, or null */
void rcuo_report_members(void);                                /* reports as all that this thread has */

/* A report or a leave of this member may be what somebody sleeps for. It was made before, and comes before this load in the order
 * of all steps; who sleeps said so before it looked whether the report is there (`drive` of helper.c). */
static inline void rcuo_wake_reported(struct member *member) {
    struct rcuo_runtime *runtime = member->runtime;
    if (UNLIKELY(load(&runtime->waits) == member->number + 1)) rcuo_wake_waiting(runtime);
}

/* Whether the caller's own member is here: nobody else makes HERE of another state, or another of HERE. */
static inline bool rcuo_is_here(struct member *member) {
    return member && load_relaxed(&member->state) == HERE;
}

static inline struct pending *rcuo_pending_of(struct member *member) {
    return &member->helper->pending[member->number % WORDS];
}

static inline uint64_t rcuo_bit_of(struct member *member) {
    return UINT64_C(1) << member->number / WORDS;
}

#endif
