/*
 * rcuo.h: deferred work with the behaviour of RCU callback offloading, for programs in C and C++.
 *
 * WHAT THE PROGRAM OWES. The library is proved (README.md, "What is proved"), for programs that keep to this:
 *   - Each slot is used by one thread at a time. It may pass to another thread by a lock, by the start or the end of a
 *     thread, or by a sequentially consistent atomic.
 *   - A slot isn't copied, moved or written to while it is full. It is zero before `rcuo_open`.
 *   - `rcuo_close` gets the slots that one `rcuo_open` filled, each in its place.
 *   - Nothing is read as a processor that is away (`rcuo_leave`), until it is back.
 *   - A function that was given to `rcuo_call` may be called, with its argument, by the thread that begins it.
 *   - malloc, realloc and free come from one allocator, and the library isn't called from a signal handler, nor in the
 *     child of a fork of a program with threads.
 * All else is tested: a call on a slot that is empty, or of another kind, or on a null pointer, and so on, is answered by
 * name and changes nothing.
 *
 * WHAT IT IS. A program opens a runtime for up to 1,024 processors, here objects that it owns: a thread reads shared data and
 * calls `rcuo_call` by its processor's slot, and reports quiescent states between its read sections. A callback runs once a
 * grace period that began after the call has ended, that is, once each processor has reported or was away. A thread that may
 * block leaves before (`rcuo_leave`). A local processor's callbacks run in its own thread; those of an offloaded one in the
 * thread of its hand. Callbacks of one processor run one at a time, in the order of their calls.
 *
 * No call blocks, takes a lock or starts a thread. Parts with nothing to do say so, and the program decides how to wait.
 * Calls that may take memory are marked; RCUO_MEMORY says that it was refused, and that nothing was lost.
 *
 * WHAT A MOMENT IS. A time of the program's own clock, in any unit: milliseconds, ticks, or the rounds of a loop. Calls and
 * begins hand one in. An offloaded processor decides by it which callbacks wait in its bypass list, to be released together:
 *   - Sixteen plain calls in one moment are released at once. Those after them wait for a begin of the processor (`rcuo_begin`,
 *     `rcuo_run`) or a plain call in another moment, or until `qhimark` callbacks wait.
 *   - Lazy calls wait for a begin ten moments after the first of them or later (or in a moment before it), for a plain call in
 *     any moment, or until `qhimark` callbacks wait.
 *   - The first begin after a barrier was opened, or after the processor was asked to be local, releases all.
 * So a constant moment has each callback after the sixteenth wait: let it move on, as by `rcuo_run(slot, ++moment, 16, NULL)`.
 * A local processor heeds no moment, and 0 will do. The rules, word by word: docs/specification/rules.md, "Bypass lists".
 *
 * RCUO_DEBUG. In a file that defines it before it includes this header (or by -DRCUO_DEBUG) `rcuo_read_lock` counts the read
 * sections of its slot, and a report or a close within one answers RCUO_READING. Files with it and files without may be mixed,
 * and NDEBUG means nothing here: `rcuo_read_unlock` takes back what was counted, wherever it was compiled. So the count is never
 * above the number of open sections, and a report outside of all of them is never refused for it. Where every file that calls
 * `rcuo_read_lock` defines it, each report within a section is refused; else one may go unnoticed.
 */
#ifndef RCUO_H
#define RCUO_H

#include <stdbool.h>
#include <stddef.h>
#include <stdint.h>

#ifdef __cplusplus
extern "C" {
#endif

/* The version of this header. */
#define RCUO_VERSION_MAJOR 0
#define RCUO_VERSION_MINOR 1
#define RCUO_VERSION_PATCH 0
#define RCUO_VERSION "0.1.0"
#define RCUO_VERSION_NUMBER (RCUO_VERSION_MAJOR * 1000000 + RCUO_VERSION_MINOR * 1000 + RCUO_VERSION_PATCH)

/* The version of the library that is linked, or was loaded: it belongs to this header where it is RCUO_VERSION_NUMBER. */
uint32_t rcuo_version(void);

/* How many processors a runtime has at most. */
#define RCUO_PROCESSORS 1024

/* What calls answer. 1 to 7 are the refusals of the specification, under their numbers. */
enum rcuo_answer {
    RCUO_OK = 0,
    RCUO_SPENT = 1,           /* a grace period is needed that can't be numbered: close, and open the next runtime */
    RCUO_MEMORY = 2,          /* memory was refused */
    RCUO_CLOSED = 3,          /* the processor was shut */
    RCUO_LIMIT = 4,           /* the processor accepted as many callbacks as its limit allows */
    RCUO_NOT_OFFLOADABLE = 5, /* the processor isn't offloadable */
    RCUO_NO_PROCESSOR = 6,    /* there is no such processor */
    RCUO_AHEAD = 7,           /* the ticket's callback isn't counted by this barrier */
    RCUO_EMPTY = 8,           /* the slot is empty */
    RCUO_OTHER = 9,           /* the slot has a part of another kind */
    RCUO_RUNNING = 10,        /* a callback was begun and isn't finished */
    RCUO_NOT_RUNNING = 11,    /* no callback was begun */
    RCUO_FULL = 12,           /* a slot has a part already */
    RCUO_FOREIGN = 13,        /* a slot's part is of another open, or of another place */
    RCUO_SHAPE = 14,          /* a number is outside the limits */
    RCUO_FEW = 15,            /* there are fewer slots than parts */
    RCUO_READING = 16,        /* a read section is open */
    RCUO_NONE_LEFT = 17,      /* no callback is ready here; after a close, no further record or job is left */
    RCUO_TURN = 18,           /* it isn't the turn of the first callback here, or, of a hand, its wait isn't over */
    RCUO_AGAIN = 19,          /* another thread's step was in the way: begin again */
    RCUO_NULL = 20,           /* a pointer is null */
    RCUO_AWAY = 21,           /* the processor is away */
    RCUO_NOT_AWAY = 22        /* the processor isn't away */
};

/* What an answer means, in words. */
static inline const char *rcuo_strerror(enum rcuo_answer answer) {
    switch (answer) {
    case RCUO_OK: return "done";
    case RCUO_SPENT: return "no further grace period can be numbered";
    case RCUO_MEMORY: return "memory was refused";
    case RCUO_CLOSED: return "the processor was shut";
    case RCUO_LIMIT: return "the processor accepted as many callbacks as its limit allows";
    case RCUO_NOT_OFFLOADABLE: return "the processor isn't offloadable";
    case RCUO_NO_PROCESSOR: return "there is no such processor";
    case RCUO_AHEAD: return "the callback isn't counted by this barrier";
    case RCUO_EMPTY: return "the slot is empty";
    case RCUO_OTHER: return "the slot has a part of another kind";
    case RCUO_RUNNING: return "a callback was begun and isn't finished";
    case RCUO_NOT_RUNNING: return "no callback was begun";
    case RCUO_FULL: return "a slot has a part already";
    case RCUO_FOREIGN: return "a slot's part is of another open, or of another place";
    case RCUO_SHAPE: return "a number is outside the limits";
    case RCUO_FEW: return "there are fewer slots than parts";
    case RCUO_READING: return "a read section is open";
    case RCUO_NONE_LEFT: return "none is ready here, or none is left";
    case RCUO_TURN: return "it isn't the turn of the first callback here, or its wait isn't over";
    case RCUO_AGAIN: return "another thread's step was in the way";
    case RCUO_NULL: return "a pointer is null";
    case RCUO_AWAY: return "the processor is away";
    case RCUO_NOT_AWAY: return "the processor isn't away";
    }
    return "no answer of this library";
}

/* A place for one part of a runtime. Opaque; all zero it is empty. */
struct rcuo_slot {
    uint64_t full;
    void *part;
    uint64_t reading;
    uint64_t filling[5];
};

/* The slots of a runtime. All zero they are empty: `static struct rcuo_parts parts;`, or `= {0}`. After `rcuo_open` exactly
 * these are full: `processors[p]` for each processor p; `hands[p]` for each offloadable processor p; `groups[g]` for each
 * group g with an offloadable processor, where processor p is of group p / stride; the driver and control. */
struct rcuo_parts {
    struct rcuo_slot control;
    struct rcuo_slot driver;
    struct rcuo_slot processors[RCUO_PROCESSORS];
    struct rcuo_slot groups[RCUO_PROCESSORS];
    struct rcuo_slot hands[RCUO_PROCESSORS];
};

/* What a runtime is opened with. */
struct rcuo_settings {
    uint64_t processors; /* how many, 1 to 1024 */
    uint64_t stride;     /* how many neighbours make a group, 1 to 1024 */
    uint64_t blimit;     /* how many callbacks a group gives a hand in one turn at most; 1 to 1000000 */
    uint64_t qhimark;    /* at how many callbacks a bypass list is released at once; 1 to 1000000 */
    uint64_t limit;      /* how many callbacks a processor accepts in its life, up to 2^53; 0: 2^53, which no program reaches */
    const uint64_t *offloadable; /* bit p % 64 of word p / 64: processor p starts offloaded, has a hand, and may be switched. A
                                  * bit for each processor, and 0 above them. Null: all processors */
    const uint64_t *away; /* the same bits: processor p is away at first, as after `rcuo_leave`, so that no grace period waits for
                           * it until `rcuo_return`. Null: none */
    uint32_t records;    /* 0: no record is kept of a callback that ran, and memory doesn't grow with what ran; else each is kept
                          * until `rcuo_close`, to be read by `rcuo_next_ran` */
};

/* No processor, for `offloadable` and `away`. */
__attribute__((unused)) static const uint64_t rcuo_none[RCUO_PROCESSORS / 64] = {0};

/* One local processor, which is here and accepts callbacks without end, and no records: `struct rcuo_settings settings =
 * RCUO_SETTINGS_DEFAULT;`, and then what is to differ, as `settings.processors = 4;`. */
#define RCUO_SETTINGS_DEFAULT {1, 1, 10, 10000, 0, rcuo_none, rcuo_none, 0}

/* A callback's function. */
typedef void rcuo_function(void *argument);

/* A callback: a key, which only the program knows the meaning of, and what is to be called. */
struct rcuo_job {
    uint64_t key;
    rcuo_function *function;
    void *argument;
};

/* An accepted callback: its processor, and its number there, from 0 in the order of acceptance. */
struct rcuo_ticket {
    uint64_t processor;
    uint64_t number;
};

/* A number for each processor: what a barrier counts, or what `rcuo_shut` answers. */
struct rcuo_counts {
    uint64_t processors;
    uint64_t counts[RCUO_PROCESSORS];
};

/* What a turn of the driver did. */
enum rcuo_step {
    RCUO_IDLE = 0,    /* no grace period is in progress, and none is needed */
    RCUO_STARTED = 1, /* it started the grace period of this number */
    RCUO_ENDED = 2,   /* it ended one; the number is this one now */
    RCUO_WAITS = 3    /* it waits for this processor, the first that still owes a report */
};

struct rcuo_driver_turn {
    uint64_t step; /* an enum rcuo_step */
    uint64_t number;
};

/* What a turn of a group did: how many callbacks it drew, how many it gave to hands, how many wait with it in batches. */
struct rcuo_group_turn {
    uint64_t took;
    uint64_t gave;
    uint64_t held;
};

/* Where a processor's new callbacks go. */
enum rcuo_mode {
    RCUO_LOCAL = 0,
    RCUO_OFFLOADING = 1,
    RCUO_OFFLOADED = 2,
    RCUO_DEOFFLOADING = 3
};

/* What a processor shows of its callbacks: its mode, how many it accepted, how many its bypass list has, and its own list: how
 * many are done, wait, wait next, and are new; with the numbers that the second and third wait for. */
struct rcuo_lists {
    uint64_t mode; /* an enum rcuo_mode */
    uint64_t accepted;
    uint64_t bypass;
    uint64_t lengths[4];
    uint64_t numbers[2];
};

/* What is kept of a callback that ran. */
struct rcuo_record {
    uint64_t number;     /* its number */
    uint64_t stamp;      /* the grace-period number that its processor saw after it was accepted */
    uint64_t ready;      /* the number by which it ran: a grace period that began after the stamp had ended */
    struct rcuo_job job; /* what ran */
};

/* What `rcuo_open` makes of the settings. */
struct rcuo_shape {
    uint64_t processors;
    uint64_t stride;
    uint64_t blimit;
    uint64_t qhimark;
    uint64_t limit;
    uint64_t offloadable[RCUO_PROCESSORS / 64];
    bool all;     /* each processor is offloadable, whatever the words say */
    bool records; /* the record of each callback that ran is kept until the runtime closes */
};

/*
 * The exports of the library. Programs call the functions below, which test for null pointers first.
 */
uint32_t rcuo_slot_open(const struct rcuo_shape *shape, uint64_t number, struct rcuo_parts *parts);
uint32_t rcuo_slot_close(struct rcuo_parts *parts);
uint32_t rcuo_slot_call(struct rcuo_slot *slot, bool lazy, uint64_t moment, uint64_t key, rcuo_function *function, void *argument,
                        struct rcuo_ticket *ticket);
uint32_t rcuo_slot_quiescent(struct rcuo_slot *slot, uint64_t *counted);
uint32_t rcuo_slot_start_poll(struct rcuo_slot *slot, uint64_t *cookie);
uint32_t rcuo_slot_poll_state(struct rcuo_slot *slot, uint64_t cookie, bool *elapsed);
uint32_t rcuo_slot_leave(struct rcuo_slot *slot);
uint32_t rcuo_slot_return(struct rcuo_slot *slot);
uint32_t rcuo_slot_begin(struct rcuo_slot *slot, uint64_t moment, struct rcuo_job *job);
uint32_t rcuo_slot_finish(struct rcuo_slot *slot);
uint32_t rcuo_slot_next(struct rcuo_slot *slot, uint64_t moment, struct rcuo_job *job);
uint32_t rcuo_slot_driver_turn(struct rcuo_slot *slot, struct rcuo_driver_turn *turn);
uint32_t rcuo_slot_group_turn(struct rcuo_slot *slot, struct rcuo_group_turn *turn);
uint32_t rcuo_slot_switch(struct rcuo_slot *slot, uint64_t processor, bool on);
uint32_t rcuo_slot_barrier(struct rcuo_slot *slot, struct rcuo_counts *barrier);
uint32_t rcuo_slot_poll(struct rcuo_slot *slot, const struct rcuo_counts *barrier, bool *passed);
uint32_t rcuo_slot_shut(struct rcuo_slot *slot, struct rcuo_counts *counts);
uint32_t rcuo_slot_halt(struct rcuo_slot *slot);
uint32_t rcuo_slot_halted(struct rcuo_slot *slot, bool *halted);
uint32_t rcuo_slot_lists(struct rcuo_slot *slot, struct rcuo_lists *lists);
uint32_t rcuo_slot_accepted(struct rcuo_slot *slot, uint64_t *accepted);
uint32_t rcuo_slot_left(struct rcuo_slot *slot, uint64_t *left);
uint32_t rcuo_slot_record(struct rcuo_slot *slot, uint64_t processor, uint64_t at, struct rcuo_record *record);
uint32_t rcuo_slot_back(struct rcuo_slot *slot, uint64_t processor, uint64_t at, struct rcuo_job *job);
uint32_t rcuo_slot_reports(struct rcuo_slot *slot, uint64_t processor, uint64_t *reports);
uint32_t rcuo_slot_end(struct rcuo_slot *slot);

/* ThreadSanitizer doesn't see the library's atomic steps. In a program that is compiled with it each call says that it comes
 * after those that ended before it began, and before those that begin after it. */
#if defined(__SANITIZE_THREAD__)
#define RCUO_TELLS_ORDER 1
#elif defined(__has_feature)
#if __has_feature(thread_sanitizer)
#define RCUO_TELLS_ORDER 1
#endif
#endif
#ifdef RCUO_TELLS_ORDER
void __tsan_acquire(void *at);
void __tsan_release(void *at);
static inline void rcuo_tell_order(void) {
    __tsan_acquire((void *)(uintptr_t)rcuo_slot_open);
    __tsan_release((void *)(uintptr_t)rcuo_slot_open);
}
static inline enum rcuo_answer rcuo_after_call(uint32_t answer) {
    rcuo_tell_order();
    return (enum rcuo_answer)answer;
}
#define RCUO_CALL(call) (rcuo_tell_order(), rcuo_after_call(call))
#else
#define RCUO_CALL(call) ((enum rcuo_answer)(call))
#endif

/* ---- open and close ---- */

/* Whether bits name a processor above those that there are. (Of more than RCUO_PROCESSORS there is no bit to be read.) */
static inline bool rcuo_names_more(const uint64_t *bits, uint64_t processors) {
    return bits && processors < RCUO_PROCESSORS && processors % 64 && bits[processors / 64] >> processors % 64;
}

/* Has those processors leave that are to be away at first. Nothing was called yet, so nothing keeps one here. */
static inline enum rcuo_answer rcuo_open_away(const struct rcuo_settings *settings, struct rcuo_parts *parts) {
    uint64_t processor;
    for (processor = 0; settings->away && processor < settings->processors; processor++) {
        enum rcuo_answer answer = RCUO_OK;
        if (settings->away[processor / 64] >> processor % 64 & 1) {
            answer = RCUO_CALL(rcuo_slot_leave(&parts->processors[processor]));
        }
        if (answer != RCUO_OK) return answer;
    }
    return RCUO_OK;
}

/* Opens a runtime into empty slots. Takes memory.
 * Answers RCUO_FULL where a slot has a part, RCUO_SHAPE where a setting is outside its limits, RCUO_MEMORY; then nothing
 * was made, and the slots are as they were. */
static inline enum rcuo_answer rcuo_open(const struct rcuo_settings *settings, struct rcuo_parts *parts) {
    struct rcuo_shape shape;
    uint64_t word;
    enum rcuo_answer answer;
    if (!settings || !parts) return RCUO_NULL;
    if (rcuo_names_more(settings->away, settings->processors)) return RCUO_SHAPE;
    shape.processors = settings->processors;
    shape.stride = settings->stride;
    shape.blimit = settings->blimit;
    shape.qhimark = settings->qhimark;
    shape.limit = settings->limit;
    shape.all = !settings->offloadable;
    shape.records = settings->records != 0;
    for (word = 0; word < RCUO_PROCESSORS / 64; word++) {
        shape.offloadable[word] = settings->offloadable && 64 * word < settings->processors ? settings->offloadable[word] : 0;
    }
    /* (while the runtime is open no other has its control slot, so the slot's address is the open's number) */
    answer = RCUO_CALL(rcuo_slot_open(&shape, (uint64_t)(uintptr_t)parts, parts));
    return answer == RCUO_OK ? rcuo_open_away(settings, parts) : answer;
}

/* Closes a runtime, whose threads have ended: what is left of it, the records of the callbacks that ran, where these are kept
 * (`records` of the settings), and the jobs of those that didn't, is then read by `rcuo_next_ran` and `rcuo_next_back`. Shut
 * first to know that nothing more is accepted. Takes memory.
 * Answers RCUO_EMPTY where a slot is missing, RCUO_FOREIGN where one has a part of another open or of another place,
 * RCUO_OTHER where one has a part of another kind, RCUO_RUNNING where a callback was begun and isn't finished, RCUO_AWAY where
 * a processor is away (`rcuo_return` first), RCUO_READING where a read section is counted (RCUO_DEBUG), RCUO_MEMORY; then
 * nothing was lost, and the call may be made again. */
static inline enum rcuo_answer rcuo_close(struct rcuo_parts *parts) {
    if (!parts) return RCUO_NULL;
    return RCUO_CALL(rcuo_slot_close(parts));
}

/* After a close: the next record of a callback of this processor that ran, in the order of the callbacks' numbers. `at` is 0
 * at first. RCUO_NONE_LEFT after the last, and at once where no record was kept. */
static inline enum rcuo_answer rcuo_next_ran(struct rcuo_parts *parts, uint64_t processor, uint64_t *at, struct rcuo_record *record) {
    if (!parts || !at || !record) return RCUO_NULL;
    enum rcuo_answer answer = RCUO_CALL(rcuo_slot_record(&parts->control, processor, *at, record));
    if (answer == RCUO_OK) ++*at;
    return answer;
}

/* After a close: the next job of this processor that didn't run, in the order of the callbacks' numbers. `at` is 0 at first.
 * RCUO_NONE_LEFT after the last. No callback's function is called any more: whether the program calls it or lets it be is
 * its own affair. */
static inline enum rcuo_answer rcuo_next_back(struct rcuo_parts *parts, uint64_t processor, uint64_t *at, struct rcuo_job *job) {
    if (!parts || !at || !job) return RCUO_NULL;
    enum rcuo_answer answer = RCUO_CALL(rcuo_slot_back(&parts->control, processor, *at, job));
    if (answer == RCUO_OK) ++*at;
    return answer;
}

/* After a close: how many reports of this processor were counted by a grace period. */
static inline enum rcuo_answer rcuo_reports(struct rcuo_parts *parts, uint64_t processor, uint64_t *reports) {
    if (!parts || !reports) return RCUO_NULL;
    return RCUO_CALL(rcuo_slot_reports(&parts->control, processor, reports));
}

/* After a close: lets go what is left, after which all slots are empty. */
static inline enum rcuo_answer rcuo_end(struct rcuo_parts *parts) {
    if (!parts) return RCUO_NULL;
    return RCUO_CALL(rcuo_slot_end(&parts->control));
}

/* ---- a processor: for the thread that owns it ---- */

/* Accepts a callback, which runs once a grace period that began after this call has ended. `moment`: see above. The ticket may
 * be null. A callback that the processor's own thread runs, as it runs those of a local one, may call this on its processor; one
 * that a hand's thread runs may not, since the slot is not that thread's. Takes memory.
 * Answers RCUO_LIMIT, RCUO_MEMORY, RCUO_CLOSED: the job is still the caller's, and nothing changed. */
static inline enum rcuo_answer rcuo_call_job(struct rcuo_slot *processor, uint64_t moment, const struct rcuo_job *job, bool lazy,
                                             struct rcuo_ticket *ticket) {
    struct rcuo_ticket unused;
    if (!processor || !job || !job->function) return RCUO_NULL;
    return RCUO_CALL(rcuo_slot_call(processor, lazy, moment, job->key, job->function, job->argument, ticket ? ticket : &unused));
}

static inline enum rcuo_answer rcuo_call(struct rcuo_slot *processor, uint64_t moment, rcuo_function *function, void *argument,
                                         struct rcuo_ticket *ticket) {
    struct rcuo_job job;
    job.key = 0;
    job.function = function;
    job.argument = argument;
    return rcuo_call_job(processor, moment, &job, false, ticket);
}

/* As `rcuo_call`, but an offloaded processor may hold the callback back longer. */
static inline enum rcuo_answer rcuo_call_lazy(struct rcuo_slot *processor, uint64_t moment, rcuo_function *function, void *argument,
                                              struct rcuo_ticket *ticket) {
    struct rcuo_job job;
    job.key = 0;
    job.function = function;
    job.argument = argument;
    return rcuo_call_job(processor, moment, &job, true, ticket);
}

/* Begins and ends a read section of the thread that owns this processor. What it reaches within is not let go by a callback
 * before the section ends, since the processor makes no report meanwhile. Sections may nest. That the program keeps to this is
 * tested where RCUO_DEBUG is defined (see above). */
static inline void rcuo_read_lock(struct rcuo_slot *processor) {
#ifdef RCUO_DEBUG
    if (processor) processor->reading++;
#else
    (void)processor;
#endif
}

static inline void rcuo_read_unlock(struct rcuo_slot *processor) {
    /* (in every file: a section that another file began may have been counted) */
    if (processor && processor->reading) processor->reading--;
}

/* Publishes a pointer to what was written before, and reads such a pointer. */
#define rcuo_assign_pointer(at, value) __atomic_store_n(&(at), (value), __ATOMIC_RELEASE)
#define rcuo_dereference(at) __atomic_load_n(&(at), __ATOMIC_ACQUIRE)

/* Reports a quiescent state: no read section of this thread is open. `counted`, which may be null, gets the number of the
 * grace period that counted it, or 0.
 * Answers RCUO_READING within a read section that is counted (RCUO_DEBUG). */
static inline enum rcuo_answer rcuo_quiescent(struct rcuo_slot *processor, uint64_t *counted) {
    uint64_t unused;
    if (!processor) return RCUO_NULL;
    return RCUO_CALL(rcuo_slot_quiescent(processor, counted ? counted : &unused));
}

/* The processor is away from now on, as before its thread blocks: no grace period waits for it. Until `rcuo_return` nothing is
 * read as it, and a call, a report, a begin or a barrier by it answers RCUO_AWAY. What its bypass list holds is released first;
 * callbacks in its own list wait until it is back, so a barrier waits for those of a local processor that is away, and not for
 * those of an offloaded one.
 * Answers RCUO_MEMORY where its lane has no room for what its bypass list holds: it is still here. RCUO_RUNNING where a callback
 * was begun and isn't finished. RCUO_READING within a read section that is counted (RCUO_DEBUG). RCUO_AWAY where it is away. */
static inline enum rcuo_answer rcuo_leave(struct rcuo_slot *processor) {
    if (!processor) return RCUO_NULL;
    return RCUO_CALL(rcuo_slot_leave(processor));
}

/* The processor is back: from now on grace periods wait for its reports again. Answers RCUO_NOT_AWAY where it wasn't away. */
static inline enum rcuo_answer rcuo_return(struct rcuo_slot *processor) {
    if (!processor) return RCUO_NULL;
    return RCUO_CALL(rcuo_slot_return(processor));
}

/* How many callbacks it accepted. */
static inline enum rcuo_answer rcuo_accepted(struct rcuo_slot *processor, uint64_t *accepted) {
    if (!processor || !accepted) return RCUO_NULL;
    return RCUO_CALL(rcuo_slot_accepted(processor, accepted));
}

/* How many callbacks it still accepts at most: the setting `limit` less those that it accepted. At 0 each call answers
 * RCUO_LIMIT. */
static inline enum rcuo_answer rcuo_left(struct rcuo_slot *processor, uint64_t *left) {
    if (!processor || !left) return RCUO_NULL;
    return RCUO_CALL(rcuo_slot_left(processor, left));
}

/* What it shows of its callbacks. */
static inline enum rcuo_answer rcuo_lists(struct rcuo_slot *processor, struct rcuo_lists *lists) {
    if (!processor || !lists) return RCUO_NULL;
    return RCUO_CALL(rcuo_slot_lists(processor, lists));
}

/* ---- grace periods without a callback: by a processor or by control ---- */

/* Asks for a grace period that begins after this call. `cookie` gets what `rcuo_poll_state` takes, by any slot of the same open:
 * the grace-period number at which it will have ended. Takes no memory. */
static inline enum rcuo_answer rcuo_start_poll(struct rcuo_slot *slot, uint64_t *cookie) {
    if (!slot || !cookie) return RCUO_NULL;
    return RCUO_CALL(rcuo_slot_start_poll(slot, cookie));
}

/* Whether the grace period of a cookie has ended. Where it has, each processor passed a grace period that began after the
 * `rcuo_start_poll`: what was removed before that is read by no one. A cookie is a number, and of another open it says nothing. */
static inline enum rcuo_answer rcuo_poll_state(struct rcuo_slot *slot, uint64_t cookie, bool *elapsed) {
    if (!slot || !elapsed) return RCUO_NULL;
    return RCUO_CALL(rcuo_slot_poll_state(slot, cookie, elapsed));
}

/* ---- running callbacks: a processor runs its own, by the thread that owns it; a hand those of an offloaded one ---- */

/* Begins a callback: the turn's look, and then the claim of the first callback whose wait is over. The thread now calls
 * `job->function(job->argument)`, and then `rcuo_finish`; until then no later callback of the processor runs anywhere. Of a
 * processor this is its tick, which it needs even where it has nothing to run: it asks for grace periods, releases its bypass
 * list and heeds a switch. `moment`: see above; a hand needs none. Takes memory.
 * Answers RCUO_NONE_LEFT where none is ready here: of a processor none in its own list is done, though some may wait there; a
 * hand holds none and drew none. RCUO_TURN where it isn't the turn of the first one here, whose claim was lost, or, of a hand,
 * its wait isn't over. RCUO_AGAIN where another thread's step kept a hand from drawing. RCUO_MEMORY where there is no room for
 * the record. In these cases the tick, or the hand's look and draw, was made all the same.
 * Answers RCUO_RUNNING where one was begun before. Then nothing was done. */
static inline enum rcuo_answer rcuo_begin(struct rcuo_slot *slot, uint64_t moment, struct rcuo_job *job) {
    if (!slot || !job) return RCUO_NULL;
    return RCUO_CALL(rcuo_slot_begin(slot, moment, job));
}

/* Ends the callback that was begun, and keeps its record, where records are kept. Answers RCUO_NOT_RUNNING where none was. */
static inline enum rcuo_answer rcuo_finish(struct rcuo_slot *slot) {
    if (!slot) return RCUO_NULL;
    return RCUO_CALL(rcuo_slot_finish(slot));
}

/* Ends the callback that was begun and begins another: `rcuo_finish`, and then `rcuo_begin`, in one call.
 * Answers RCUO_NOT_RUNNING where none was begun: then nothing was done. Else the callback has ended, and the answer is that of
 * `rcuo_begin`. */
static inline enum rcuo_answer rcuo_next(struct rcuo_slot *slot, uint64_t moment, struct rcuo_job *job) {
    if (!slot || !job) return RCUO_NULL;
    return RCUO_CALL(rcuo_slot_next(slot, moment, job));
}

/* Begins, calls and finishes callbacks of a processor or a hand, at most so many. `ran`, which may be null, gets how many ran.
 * Answers RCUO_OK where so many ran, else what `rcuo_begin` answered last. */
static inline enum rcuo_answer rcuo_run(struct rcuo_slot *slot, uint64_t moment, uint64_t most, uint64_t *ran) {
    uint64_t done = 0;
    struct rcuo_job job;
    enum rcuo_answer answer = most ? rcuo_begin(slot, moment, &job) : RCUO_OK;
    while (answer == RCUO_OK && done < most) {
        job.function(job.argument);
        answer = done + 1 < most ? rcuo_next(slot, moment, &job) : rcuo_finish(slot);
        if (answer != RCUO_NOT_RUNNING) done++; /* (it has ended, whatever came next) */
    }
    if (ran) *ran = done;
    return answer;
}

/* ---- turns of the other parts, each for one thread at a time ---- */

/* A turn of the driver, which starts and ends all grace periods. Answers RCUO_SPENT where a grace period is needed that can't
 * be numbered. */
static inline enum rcuo_answer rcuo_driver_turn(struct rcuo_slot *driver, struct rcuo_driver_turn *turn) {
    struct rcuo_driver_turn unused;
    if (!driver) return RCUO_NULL;
    return RCUO_CALL(rcuo_slot_driver_turn(driver, turn ? turn : &unused));
}

/* Whether control was told to halt: by the driver, a group, a hand or a processor, each in its own thread.
 * Answers RCUO_RUNNING where a callback of the hand or of the processor was begun and isn't finished. */
static inline enum rcuo_answer rcuo_halted(struct rcuo_slot *slot, bool *halted) {
    if (!slot || !halted) return RCUO_NULL;
    return RCUO_CALL(rcuo_slot_halted(slot, halted));
}

/* A turn of a group: it draws what its processors released, and gives what is done to their hands. Takes memory; what it
 * can't get waits for the next turn. */
static inline enum rcuo_answer rcuo_group_turn(struct rcuo_slot *group, struct rcuo_group_turn *turn) {
    struct rcuo_group_turn unused;
    if (!group) return RCUO_NULL;
    return RCUO_CALL(rcuo_slot_group_turn(group, turn ? turn : &unused));
}

/* ---- control ---- */

/* Asks that a processor be offloaded, or local, which its next tick (`rcuo_begin`) heeds.
 * Answers RCUO_NO_PROCESSOR, RCUO_NOT_OFFLOADABLE. */
static inline enum rcuo_answer rcuo_offload(struct rcuo_slot *control, uint64_t processor) {
    if (!control) return RCUO_NULL;
    return RCUO_CALL(rcuo_slot_switch(control, processor, true));
}

static inline enum rcuo_answer rcuo_deoffload(struct rcuo_slot *control, uint64_t processor) {
    if (!control) return RCUO_NULL;
    return RCUO_CALL(rcuo_slot_switch(control, processor, false));
}

/* Opens a barrier for all callbacks accepted before this call, by control or by a processor, and urges every processor to
 * release its bypass list. The barrier is a value: it may be copied, and takes nothing. */
static inline enum rcuo_answer rcuo_barrier(struct rcuo_slot *slot, struct rcuo_counts *barrier) {
    if (!slot || !barrier) return RCUO_NULL;
    return RCUO_CALL(rcuo_slot_barrier(slot, barrier));
}

/* Whether a barrier's callbacks have all run, by control or by a processor, whoever opened it.
 * Answers RCUO_FOREIGN where the barrier counts other processors than there are, RCUO_RUNNING where a callback of the
 * processor was begun and isn't finished. */
static inline enum rcuo_answer rcuo_poll(struct rcuo_slot *slot, const struct rcuo_counts *barrier, bool *passed) {
    if (!slot || !barrier || !passed) return RCUO_NULL;
    return RCUO_CALL(rcuo_slot_poll(slot, barrier, passed));
}

/* Whether a barrier counts the callback of a ticket: RCUO_OK, RCUO_NO_PROCESSOR, or RCUO_AHEAD. */
static inline enum rcuo_answer rcuo_counts_ticket(const struct rcuo_counts *barrier, struct rcuo_ticket ticket) {
    if (!barrier) return RCUO_NULL;
    if (ticket.processor >= barrier->processors || ticket.processor >= RCUO_PROCESSORS) return RCUO_NO_PROCESSOR;
    return ticket.number < barrier->counts[ticket.processor] ? RCUO_OK : RCUO_AHEAD;
}

/* Shuts every processor: from now on each call answers RCUO_CLOSED. `counts`, which may be null, gets how many callbacks
 * each accepted in all. */
static inline enum rcuo_answer rcuo_shut(struct rcuo_slot *control, struct rcuo_counts *counts) {
    struct rcuo_counts unused;
    if (!control) return RCUO_NULL;
    return RCUO_CALL(rcuo_slot_shut(control, counts ? counts : &unused));
}

/* Sets the halt word, which `rcuo_halted` reads. No call heeds it by itself. */
static inline enum rcuo_answer rcuo_halt(struct rcuo_slot *control) {
    if (!control) return RCUO_NULL;
    return RCUO_CALL(rcuo_slot_halt(control));
}

#ifdef __cplusplus
}
#endif

#endif
