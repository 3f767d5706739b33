/*
 * Random calls of the library in one thread, beside a plain model: what each callback must wait for, in which order they run,
 * which calls are refused, what a barrier waits for, and what is left at the end. Where records are kept, the law of the core is
 * checked on the history that is made of them (law.h), and that it is broken once two of them are swapped.
 *
 *     model [--seconds N] [--seed S]
 *
 * A run is of one runtime; runs follow each other with rising seeds until the time is over (or one run for --seed). What
 * differs is printed with the seed, and ends it with status 1.
 *
 * Compiled by clang with -fsanitize=fuzzer -DFUZZED it is a target of libFuzzer: the choices of a run are the bytes of its
 * input.
 */
#define RCUO_DEBUG
#include <rcuo.h>

#include "law.h"

#include <stdio.h>
#include <stdlib.h>
#include <string.h>
#include <time.h>

enum { MOST = 5, MOST_CALLS = 64 };

/* A callback as the model knows it: how often each processor had been quiescent when it was accepted. */
struct callback {
    uint64_t key;
    uint64_t quiets[MOST];
};

/* A processor as the model knows it. */
struct cpu {
    struct callback callbacks[MOST_CALLS];
    uint64_t accepted, begun, finished;
    uint64_t quiets; /* its reports, and the times that it was away and is back */
    unsigned reading;
    bool offloadable, away;
    struct rcuo_slot *runs; /* whose claim runs, if one does */
};

static struct rcuo_parts parts;
static struct rcuo_settings settings;
static uint64_t offloadable; /* what the settings point to */
static struct cpu cpus[MOST];
static bool is_shut, halted;
static struct rcuo_counts barrier;
static bool is_barrier_open, has_barrier_passed;
static struct left left_over; /* what close answers, by which the law is checked */
static struct callback cookie; /* as a callback that was accepted when the poll was started; its key is the cookie */
static bool is_polling;
static uint64_t moment, next_key, seed, state, steps, ran_in_all, came_back_in_all, laws;
static unsigned long differences;

#ifdef FUZZED
static const uint8_t *chosen;
static size_t choices;

/* The next byte, or two of them; 0 at the end of the input. */
static uint64_t any(uint64_t below) {
    uint64_t choice = 0;
    for (int bytes = below > 256 ? 2 : 1; bytes && choices; bytes--, choices--) choice = choice << 8 | *chosen++;
    return choice % below;
}
#else
static uint64_t any(uint64_t below) {
    state ^= state << 13;
    state ^= state >> 7;
    state ^= state << 17;
    return state % below;
}
#endif

static void differs(const char *what, uint64_t got, uint64_t wanted) {
    fprintf(stderr, "seed %llu, step %llu: %s is %llu, and not %llu\n", (unsigned long long)seed, (unsigned long long)steps, what,
            (unsigned long long)got, (unsigned long long)wanted);
    differences++;
}

static void same(const char *what, uint64_t got, uint64_t wanted) {
    if (got != wanted) differs(what, got, wanted);
}

static void never_called(void *argument) { (void)argument; }

/* ---- calls ---- */

static void call(uint64_t p) {
    struct cpu *cpu = &cpus[p];
    struct rcuo_job job = {next_key, never_called, cpu};
    struct rcuo_ticket ticket = {99, 99};
    enum rcuo_answer answer = rcuo_call_job(&parts.processors[p], moment, &job, any(2), &ticket);
    if (cpu->away) {
        same("a call while away", answer, RCUO_AWAY);
        return;
    }
    if (cpu->accepted == settings.limit) {
        same("a call at the limit", answer, RCUO_LIMIT);
        return;
    }
    if (is_shut) {
        same("a call after shut", answer, RCUO_CLOSED);
        return;
    }
    same("a call", answer, RCUO_OK);
    if (answer != RCUO_OK) return;
    same("the ticket's processor", ticket.processor, p);
    same("the ticket's number", ticket.number, cpu->accepted);
    struct callback *made = &cpu->callbacks[cpu->accepted++];
    made->key = next_key++;
    for (uint64_t q = 0; q < settings.processors; q++) made->quiets[q] = cpus[q].quiets;
}

static void report(uint64_t p) {
    enum rcuo_answer answer = rcuo_quiescent(&parts.processors[p], NULL);
    same("a report", answer, cpus[p].reading ? RCUO_READING : cpus[p].away ? RCUO_AWAY : RCUO_OK);
    if (answer == RCUO_OK) cpus[p].quiets++;
}

static void leave(uint64_t p) {
    struct cpu *cpu = &cpus[p];
    struct rcuo_slot *slot = &parts.processors[p];
    enum rcuo_answer wanted = cpu->reading ? RCUO_READING : cpu->away ? RCUO_AWAY : cpu->runs == slot ? RCUO_RUNNING : RCUO_OK;
    same("a leave", rcuo_leave(slot), wanted);
    cpu->away = cpu->away || wanted == RCUO_OK;
}

static void come_back(uint64_t p) {
    struct cpu *cpu = &cpus[p];
    same("a return", rcuo_return(&parts.processors[p]), cpu->away ? RCUO_OK : RCUO_NOT_AWAY);
    cpu->quiets += cpu->away;
    cpu->away = false;
}

static void read_or_end(uint64_t p) {
    if (cpus[p].away) return;
    if (any(2)) {
        rcuo_read_lock(&parts.processors[p]);
        cpus[p].reading++;
    } else if (cpus[p].reading) {
        rcuo_read_unlock(&parts.processors[p]);
        cpus[p].reading--;
    }
}

/* What a begin, by the processor or its hand, answered: what it hands out is the next callback, and each processor has reported or
 * was away since it was accepted. */
static void check_begun(uint64_t p, struct rcuo_slot *slot, enum rcuo_answer answer, const struct rcuo_job *job) {
    struct cpu *cpu = &cpus[p];
    if (answer == RCUO_TURN || answer == RCUO_NONE_LEFT || answer == RCUO_AGAIN) return;
    same("a begin", answer, RCUO_OK);
    if (answer != RCUO_OK) return;
    if (cpu->runs) differs("a callback beside one that runs", 1, 0);
    if (cpu->begun == cpu->accepted) {
        differs("a callback that wasn't accepted", 1, 0);
        return;
    }
    struct callback *begun = &cpu->callbacks[cpu->begun++];
    same("the job's key", job->key, begun->key);
    same("the job's function", job->function == never_called, true);
    same("the job's argument", job->argument == cpu, true);
    for (uint64_t q = 0; q < settings.processors; q++) {
        if (cpus[q].quiets <= begun->quiets[q] && !cpus[q].away) differs("a callback before its grace period", q, 0);
    }
    cpu->runs = slot;
}

static void begin(uint64_t p, struct rcuo_slot *slot) {
    struct cpu *cpu = &cpus[p];
    struct rcuo_job job;
    enum rcuo_answer answer = rcuo_begin(slot, moment, &job);
    if (cpu->runs == slot) same("a begin while one runs", answer, RCUO_RUNNING);
    else if (cpu->away && slot == &parts.processors[p]) same("a begin while away", answer, RCUO_AWAY);
    else check_begun(p, slot, answer, &job);
}

static void finish(uint64_t p, struct rcuo_slot *slot) {
    struct cpu *cpu = &cpus[p];
    enum rcuo_answer answer = rcuo_finish(slot);
    same("a finish", answer, cpu->runs == slot ? RCUO_OK : RCUO_NOT_RUNNING);
    if (cpu->runs != slot) return;
    cpu->runs = NULL;
    cpu->finished++;
}

/* A finish and a begin in one call. */
static void go_on(uint64_t p, struct rcuo_slot *slot) {
    struct cpu *cpu = &cpus[p];
    struct rcuo_job job;
    enum rcuo_answer answer = rcuo_next(slot, moment, &job);
    if (cpu->runs != slot) {
        same("a next where none runs", answer, RCUO_NOT_RUNNING);
        return;
    }
    cpu->runs = NULL;
    cpu->finished++;
    check_begun(p, slot, answer, &job);
}

static void turn_others(void) {
    struct rcuo_driver_turn turn;
    same("a turn of the driver", rcuo_driver_turn(&parts.driver, &turn), RCUO_OK);
    for (uint64_t g = 0; g < RCUO_PROCESSORS; g++) {
        if (parts.groups[g].full) same("a turn of a group", rcuo_group_turn(&parts.groups[g], NULL), RCUO_OK);
    }
}

/* The halt word, as a part that isn't running a callback sees it. */
static void ask_halted(void) {
    uint64_t p = any(settings.processors);
    struct rcuo_slot *slots[] = {&parts.driver, &parts.processors[p], &parts.hands[p], &parts.groups[p / settings.stride]};
    struct rcuo_slot *slot = slots[any(4)];
    bool is_so = false;
    if (!slot->full) {
        same("halted by an empty slot", rcuo_halted(slot, &is_so), RCUO_EMPTY);
        return;
    }
    if (cpus[p].runs == slot) {
        same("halted while a callback runs", rcuo_halted(slot, &is_so), RCUO_RUNNING);
        return;
    }
    if (cpus[p].away && slot == &parts.processors[p]) {
        same("halted while away", rcuo_halted(slot, &is_so), RCUO_AWAY);
        return;
    }
    same("halted", rcuo_halted(slot, &is_so), RCUO_OK);
    same("whether it is halted", is_so, halted);
}

static void control(uint64_t p) {
    struct rcuo_counts counts;
    bool is_so = false;
    switch (any(8)) {
    case 0:
    case 1:
        same("a switch", any(2) ? rcuo_offload(&parts.control, p) : rcuo_deoffload(&parts.control, p),
             p >= settings.processors ? RCUO_NO_PROCESSOR : cpus[p].offloadable ? RCUO_OK : RCUO_NOT_OFFLOADABLE);
        break;
    case 2:
        if (cpus[0].runs == &parts.processors[0]) {
            same("a barrier by a processor whose callback runs", rcuo_barrier(&parts.processors[0], &counts), RCUO_RUNNING);
            break;
        }
        if (cpus[0].away) same("a barrier by a processor that is away", rcuo_barrier(&parts.processors[0], &counts), RCUO_AWAY);
        same("a barrier", rcuo_barrier(cpus[0].away || any(2) ? &parts.control : &parts.processors[0], &barrier), RCUO_OK);
        is_barrier_open = true;
        has_barrier_passed = false;
        same("the barrier's processors", barrier.processors, settings.processors);
        for (uint64_t q = 0; q < settings.processors; q++) same("what a barrier counts", barrier.counts[q], cpus[q].accepted);
        break;
    case 3:
    case 4:
        if (!is_barrier_open) break;
        {
            struct rcuo_slot *by = any(2) ? &parts.control : &parts.processors[0];
            if (cpus[0].runs == by) {
                same("a poll by a processor whose callback runs", rcuo_poll(by, &barrier, &is_so), RCUO_RUNNING);
                break;
            }
            if (cpus[0].away && by == &parts.processors[0]) {
                same("a poll by a processor that is away", rcuo_poll(by, &barrier, &is_so), RCUO_AWAY);
                break;
            }
            same("a poll", rcuo_poll(by, &barrier, &is_so), RCUO_OK);
        }
        {
            bool over = true;
            for (uint64_t q = 0; q < settings.processors; q++) over = over && cpus[q].finished >= barrier.counts[q];
            same("whether it passes", is_so, over);
            if (is_so && !has_barrier_passed && left_over.barriers < LAW_BARRIERS) {
                has_barrier_passed = true;
                memcpy(left_over.counts[left_over.barriers++], barrier.counts, sizeof left_over.counts[0]);
            }
        }
        break;
    case 5:
        ask_halted();
        if (any(20) == 0) {
            same("a halt", rcuo_halt(&parts.control), RCUO_OK);
            halted = true;
        }
        break;
    case 6:
        if (any(40)) break;
        same("a shut", rcuo_shut(&parts.control, &counts), RCUO_OK);
        is_shut = true;
        for (uint64_t q = 0; q < settings.processors; q++) same("what a shut counts", counts.counts[q], cpus[q].accepted);
        break;
    default:
        break;
    }
}

static void look(uint64_t p) {
    uint64_t accepted = 0;
    struct rcuo_lists lists;
    if (cpus[p].away) {
        same("what is shown of one that is away", rcuo_lists(&parts.processors[p], &lists), RCUO_AWAY);
        return;
    }
    same("accepted", rcuo_accepted(&parts.processors[p], &accepted), RCUO_OK);
    same("how many were accepted", accepted, cpus[p].accepted);
    same("left", rcuo_left(&parts.processors[p], &accepted), RCUO_OK);
    same("how many are left", accepted, settings.limit - cpus[p].accepted);
    same("lists", rcuo_lists(&parts.processors[p], &lists), RCUO_OK);
    same("how many its lists say", lists.accepted, cpus[p].accepted);
}

/* A call on a slot that isn't of its kind. */
static void misuse(void) {
    struct rcuo_job job;
    switch (any(4)) {
    case 0: same("a call by control", rcuo_call(&parts.control, 0, never_called, NULL, NULL), RCUO_OTHER); break;
    case 1: same("a begin by the driver", rcuo_begin(&parts.driver, 0, &job), RCUO_OTHER); break;
    case 2: same("a turn of control", rcuo_driver_turn(&parts.control, NULL), RCUO_OTHER); break;
    case 3: same("open again", rcuo_open(&settings, &parts), RCUO_FULL); break;
    }
}

/* A grace period without a callback: it isn't over before each processor reported or was away since. */
static void poll_grace_period(uint64_t p) {
    struct rcuo_slot *slot = cpus[p].away || cpus[p].runs == &parts.processors[p] || any(2) ? &parts.control : &parts.processors[p];
    bool over = false;
    if (!is_polling) {
        same("the start of a poll", rcuo_start_poll(slot, &cookie.key), RCUO_OK);
        for (uint64_t q = 0; q < settings.processors; q++) cookie.quiets[q] = cpus[q].quiets;
        is_polling = true;
        return;
    }
    same("a poll of a cookie", rcuo_poll_state(slot, cookie.key, &over), RCUO_OK);
    for (uint64_t q = 0; over && q < settings.processors; q++) {
        if (cpus[q].quiets <= cookie.quiets[q] && !cpus[q].away) differs("a cookie before its grace period", q, 0);
    }
    is_polling = !over;
}

/* ---- a run ---- */

static void step(void) {
    uint64_t p = any(settings.processors);
    struct rcuo_slot *slot = cpus[p].offloadable && any(2) ? &parts.hands[p] : &parts.processors[p];
    steps++;
    moment += any(3);
    switch (any(16)) {
    case 0:
    case 1: call(p); break;
    case 2:
    case 3: report(p); break;
    case 4: read_or_end(p); break;
    case 5:
    case 6: begin(p, slot); break;
    case 7:
    case 8: finish(p, slot); break;
    case 9: turn_others(); break;
    case 10: control(any(settings.processors + 2)); break;
    case 11: any(2) ? look(p) : misuse(); break;
    case 12: leave(p); break;
    case 13: come_back(p); break;
    case 14: poll_grace_period(p); break;
    case 15: go_on(p, slot); break;
    }
}

/* The law holds of what is left, and no longer where two callbacks of a processor ran in the other order. */
static void check_law(void) {
    law_witness(&left_over);
    const char *broken = law_broken(&left_over);
    if (broken) fprintf(stderr, "the law is broken: %s\n", broken);
    same("how many laws are broken", broken != NULL, 0);
    for (uint64_t p = 0; p < left_over.processors; p++) {
        struct account *account = &left_over.accounts[p];
        if (account->ran < 2) continue;
        uint64_t key = account->ran_keys[0];
        account->ran_keys[0] = account->ran_keys[1];
        account->ran_keys[1] = key;
        law_witness(&left_over);
        same("whether swapped records break the law", law_broken(&left_over) != NULL, 1);
        break;
    }
    laws++;
}

/* What close answers: a section, or a callback that runs, is in the way; then those that ran, and those that didn't. */
static void end(void) {
    bool reads = false, runs = false, away = false;
    for (uint64_t p = 0; p < settings.processors; p++) {
        reads = reads || cpus[p].reading;
        runs = runs || cpus[p].runs;
        away = away || cpus[p].away;
    }
    if (reads || runs || away) {
        enum rcuo_answer answer = rcuo_close(&parts);
        if (!((reads && answer == RCUO_READING) || (runs && answer == RCUO_RUNNING) || (away && answer == RCUO_AWAY))) {
            differs("close in the midst", answer, RCUO_RUNNING);
        }
    }
    for (uint64_t p = 0; p < settings.processors; p++) {
        for (; cpus[p].reading; cpus[p].reading--) rcuo_read_unlock(&parts.processors[p]);
        if (cpus[p].runs) finish(p, cpus[p].runs);
        if (cpus[p].away) come_back(p);
    }
    same("close", rcuo_close(&parts), RCUO_OK);
    for (uint64_t p = 0; p < settings.processors; p++) {
        struct rcuo_record record;
        struct rcuo_job job;
        struct account *account = &left_over.accounts[p];
        uint64_t ran = 0, back = 0, finished = cpus[p].finished;
        account->accepted = cpus[p].accepted;
        for (uint64_t k = 0; k < account->accepted; k++) account->keys[k] = cpus[p].callbacks[k].key, account->stamps[k] = UINT64_MAX;
        while (rcuo_next_ran(&parts, p, &ran, &record) == RCUO_OK) {
            same("a record's number", record.number, ran - 1);
            same("a record's key", record.job.key, cpus[p].callbacks[ran - 1].key);
            if (record.ready < record.stamp) differs("a record's wait", record.ready, record.stamp);
            if (ran > finished) break;
            account->ran_keys[ran - 1] = record.job.key;
            account->stamps[ran - 1] = record.stamp;
            account->readies[ran - 1] = record.ready;
        }
        account->ran = ran;
        same("reports", rcuo_reports(&parts, p, &account->reports), RCUO_OK);
        same("how many records there are", ran, settings.records ? finished : 0);
        while (rcuo_next_back(&parts, p, &back, &job) == RCUO_OK) {
            if (finished + back > cpus[p].accepted) break;
            same("the key of a job that came back", job.key, cpus[p].callbacks[finished + back - 1].key);
            account->back_keys[back - 1] = job.key;
        }
        account->back = back;
        same("how many came back", finished + back, cpus[p].accepted);
        ran_in_all += finished;
        came_back_in_all += back;
    }
    same("the end", rcuo_end(&parts), RCUO_OK);
    if (settings.records && !differences) check_law();
}

static void run(uint64_t number) {
    seed = number;
    state = number * 0x9e3779b97f4a7c15u + 1;
    for (int i = 0; i < 8; i++) any(2);
    memset(cpus, 0, sizeof cpus);
    is_shut = halted = is_barrier_open = has_barrier_passed = is_polling = false;
    moment = 0;
    settings.processors = 1 + any(MOST);
    left_over.processors = settings.processors;
    left_over.barriers = 0;
    settings.stride = 1 + any(3);
    settings.blimit = 1 + any(5);
    settings.qhimark = 1 + any(8);
    settings.limit = 1 + any(MOST_CALLS);
    offloadable = any(UINT64_C(1) << settings.processors);
    settings.offloadable = &offloadable;
    settings.records = (uint32_t)any(2);
    for (uint64_t p = 0; p < settings.processors; p++) cpus[p].offloadable = offloadable >> p & 1;
    same("open", rcuo_open(&settings, &parts), RCUO_OK);
    for (uint64_t left = 50 + any(2000); left && !differences; left--) step();
    if (!differences) end();
}

#ifdef FUZZED
int LLVMFuzzerTestOneInput(const uint8_t *data, size_t size);
int LLVMFuzzerTestOneInput(const uint8_t *data, size_t size) {
    chosen = data, choices = size;
    run(0);
    if (differences) abort();
    return 0;
}
#else
int main(int argc, char **argv) {
    long seconds = 5;
    uint64_t first = 1, runs = 0;
    bool is_one = false;
    for (int i = 1; i + 1 < argc; i += 2) {
        if (!strcmp(argv[i], "--seconds")) seconds = atol(argv[i + 1]);
        if (!strcmp(argv[i], "--seed")) first = strtoull(argv[i + 1], NULL, 10), is_one = true;
    }
    time_t began = time(NULL);
    do run(first + runs++);
    while (!is_one && !differences && time(NULL) - began < seconds);
    printf("runs %llu, steps %llu, ran %llu, handed back %llu, laws %llu, differences %lu\n", (unsigned long long)runs, (unsigned long long)steps,
           (unsigned long long)ran_in_all, (unsigned long long)came_back_in_all, (unsigned long long)laws, differences);
    return differences != 0;
}
#endif
