/* Each kind of bad input, by name: it is answered so, and changes nothing. */
#define RCUO_DEBUG
#include "expect.h"

#include <string.h>

static int calls;
static void count(void *argument) {
    (void)argument;
    calls++;
}

static struct rcuo_parts parts, others;
static const uint64_t second[] = {2}, third[] = {4}, above[17] = {[16] = 1};
static const struct rcuo_settings good = {
    .processors = 2, .stride = 1, .blimit = 8, .qhimark = 8, .limit = 4, .offloadable = second, .records = 1};

static void null_pointers(void) {
    struct rcuo_slot empty = {0};
    struct rcuo_job job = {0, count, NULL};
    uint64_t number;
    is("open of no settings", rcuo_open(NULL, &parts), RCUO_NULL);
    is("open into nothing", rcuo_open(&good, NULL), RCUO_NULL);
    is("close of nothing", rcuo_close(NULL), RCUO_NULL);
    is("call by nothing", rcuo_call(NULL, 0, count, NULL, NULL), RCUO_NULL);
    is("call of no function", rcuo_call(&empty, 0, NULL, NULL, NULL), RCUO_NULL);
    is("call of no job", rcuo_call_job(&empty, 0, NULL, false, NULL), RCUO_NULL);
    is("quiescent of nothing", rcuo_quiescent(NULL, NULL), RCUO_NULL);
    is("start of a poll by nothing", rcuo_start_poll(NULL, &number), RCUO_NULL);
    is("start of a poll into nothing", rcuo_start_poll(&empty, NULL), RCUO_NULL);
    is("poll of a cookie by nothing", rcuo_poll_state(NULL, 0, &(bool){false}), RCUO_NULL);
    is("poll of a cookie into nothing", rcuo_poll_state(&empty, 0, NULL), RCUO_NULL);
    is("leave of nothing", rcuo_leave(NULL), RCUO_NULL);
    is("return of nothing", rcuo_return(NULL), RCUO_NULL);
    is("accepted of nothing", rcuo_accepted(NULL, &number), RCUO_NULL);
    is("accepted into nothing", rcuo_accepted(&empty, NULL), RCUO_NULL);
    is("left of nothing", rcuo_left(NULL, &number), RCUO_NULL);
    is("left into nothing", rcuo_left(&empty, NULL), RCUO_NULL);
    is("lists of nothing", rcuo_lists(NULL, NULL), RCUO_NULL);
    is("begin of nothing", rcuo_begin(NULL, 0, &job), RCUO_NULL);
    is("begin into nothing", rcuo_begin(&empty, 0, NULL), RCUO_NULL);
    is("finish of nothing", rcuo_finish(NULL), RCUO_NULL);
    is("next of nothing", rcuo_next(NULL, 0, &job), RCUO_NULL);
    is("next into nothing", rcuo_next(&empty, 0, NULL), RCUO_NULL);
    is("run of nothing", rcuo_run(NULL, 0, 1, NULL), RCUO_NULL);
    is("turn of no driver", rcuo_driver_turn(NULL, NULL), RCUO_NULL);
    is("turn of no group", rcuo_group_turn(NULL, NULL), RCUO_NULL);
    is("halted of nothing", rcuo_halted(NULL, NULL), RCUO_NULL);
    is("offload by nothing", rcuo_offload(NULL, 0), RCUO_NULL);
    is("deoffload by nothing", rcuo_deoffload(NULL, 0), RCUO_NULL);
    is("barrier by nothing", rcuo_barrier(NULL, NULL), RCUO_NULL);
    is("poll by nothing", rcuo_poll(NULL, NULL, NULL), RCUO_NULL);
    is("ticket of no barrier", rcuo_counts_ticket(NULL, (struct rcuo_ticket){0, 0}), RCUO_NULL);
    is("shut by nothing", rcuo_shut(NULL, NULL), RCUO_NULL);
    is("halt by nothing", rcuo_halt(NULL), RCUO_NULL);
    is("record of nothing", rcuo_next_ran(NULL, 0, NULL, NULL), RCUO_NULL);
    is("job of nothing", rcuo_next_back(NULL, 0, NULL, NULL), RCUO_NULL);
    is("reports of nothing", rcuo_reports(NULL, 0, NULL), RCUO_NULL);
    is("end of nothing", rcuo_end(NULL), RCUO_NULL);
}

/* Every call on a slot, each of which is to answer the same. */
static void all_calls(const char *what, struct rcuo_slot *slot, enum rcuo_answer processor, enum rcuo_answer runs, enum rcuo_answer finishes,
                      enum rcuo_answer group, enum rcuo_answer driver, enum rcuo_answer control, enum rcuo_answer opens, enum rcuo_answer halts) {
    struct rcuo_job job;
    struct rcuo_lists lists;
    struct rcuo_counts counts;
    memset(&counts, 0, sizeof counts);
    counts.processors = 2;
    uint64_t number;
    bool is_so;
    is(what, rcuo_quiescent(slot, NULL), processor);
    is(what, rcuo_accepted(slot, &number), processor);
    is(what, rcuo_left(slot, &number), processor);
    is(what, rcuo_lists(slot, &lists), processor);
    is(what, rcuo_begin(slot, 0, &job), runs);
    is(what, rcuo_finish(slot), finishes);
    is(what, rcuo_next(slot, 0, &job), finishes);
    is(what, rcuo_group_turn(slot, NULL), group);
    is(what, rcuo_driver_turn(slot, NULL), driver);
    is(what, rcuo_halted(slot, &is_so), halts);
    is(what, rcuo_offload(slot, 1), control);
    is(what, rcuo_deoffload(slot, 1), control);
    is(what, rcuo_poll(slot, &counts, &is_so), opens);
    is(what, rcuo_barrier(slot, &counts), opens);
}

static void empty_slots(void) {
    struct rcuo_slot empty = {0};
    is("call by an empty slot", rcuo_call(&empty, 0, count, NULL, NULL), RCUO_EMPTY);
    all_calls("an empty slot", &empty, RCUO_EMPTY, RCUO_EMPTY, RCUO_EMPTY, RCUO_EMPTY, RCUO_EMPTY, RCUO_EMPTY, RCUO_EMPTY, RCUO_EMPTY);
    is("start of a poll by an empty slot", rcuo_start_poll(&empty, &(uint64_t){0}), RCUO_EMPTY);
    is("poll of a cookie by an empty slot", rcuo_poll_state(&empty, 0, &(bool){false}), RCUO_EMPTY);
    is("leave of an empty slot", rcuo_leave(&empty), RCUO_EMPTY);
    is("return of an empty slot", rcuo_return(&empty), RCUO_EMPTY);
    is("shut by an empty slot", rcuo_shut(&empty, NULL), RCUO_EMPTY);
    is("halt by an empty slot", rcuo_halt(&empty), RCUO_EMPTY);
    is("close of empty slots", rcuo_close(&parts), RCUO_EMPTY);
    is("end of empty slots", rcuo_end(&parts), RCUO_EMPTY);
}

static void settings_outside(void) {
    struct rcuo_settings bad = good;
    bad.processors = 0;
    is("no processor", rcuo_open(&bad, &parts), RCUO_SHAPE);
    bad.processors = 1025, bad.offloadable = above;
    is("1025 processors", rcuo_open(&bad, &parts), RCUO_SHAPE);
    bad.offloadable = NULL;
    is("1025 processors, all offloadable", rcuo_open(&bad, &parts), RCUO_SHAPE);
    bad.processors = UINT64_MAX;
    is("as many processors as can be said", rcuo_open(&bad, &parts), RCUO_SHAPE);
    bad = good, bad.offloadable = third;
    is("a processor that isn't there", rcuo_open(&bad, &parts), RCUO_SHAPE);
    bad = good, bad.away = third;
    is("a processor that isn't there, away", rcuo_open(&bad, &parts), RCUO_SHAPE);
    bad = good, bad.stride = 0;
    is("no stride", rcuo_open(&bad, &parts), RCUO_SHAPE);
    bad = good, bad.stride = 1025;
    is("a stride too long", rcuo_open(&bad, &parts), RCUO_SHAPE);
    bad = good, bad.blimit = 0;
    is("no blimit", rcuo_open(&bad, &parts), RCUO_SHAPE);
    bad.blimit = 1000001;
    is("a blimit too high", rcuo_open(&bad, &parts), RCUO_SHAPE);
    bad = good, bad.qhimark = 0;
    is("no qhimark", rcuo_open(&bad, &parts), RCUO_SHAPE);
    bad.qhimark = 1000001;
    is("a qhimark too high", rcuo_open(&bad, &parts), RCUO_SHAPE);
    bad = good, bad.limit = (UINT64_C(1) << 53) + 1;
    is("a limit one too high", rcuo_open(&bad, &parts), RCUO_SHAPE);
    bad = good, bad.limit = UINT64_MAX;
    is("a limit too high", rcuo_open(&bad, &parts), RCUO_SHAPE);
    holds("no slot is full after them", !parts.control.full && !parts.processors[0].full);
}

/* A processor that leaves, twice, and comes back, twice; and what it answers while it is away. */
static void away(void) {
    struct rcuo_slot *slot = &parts.processors[0];
    is("leave", rcuo_leave(slot), RCUO_OK);
    is("leave again", rcuo_leave(slot), RCUO_AWAY);
    is("call while away", rcuo_call(slot, 0, count, NULL, NULL), RCUO_AWAY);
    is("start of a poll while away", rcuo_start_poll(slot, &(uint64_t){0}), RCUO_AWAY);
    is("poll of a cookie while away", rcuo_poll_state(slot, 0, &(bool){false}), RCUO_AWAY);
    all_calls("one that is away", slot, RCUO_AWAY, RCUO_AWAY, RCUO_NOT_RUNNING, RCUO_AWAY, RCUO_AWAY, RCUO_AWAY, RCUO_AWAY, RCUO_AWAY);
    is("close while one is away", rcuo_close(&parts), RCUO_AWAY);
    is("return", rcuo_return(slot), RCUO_OK);
    is("return again", rcuo_return(slot), RCUO_NOT_AWAY);
    is("leave by a hand", rcuo_leave(&parts.hands[1]), RCUO_OTHER);
    is("start of a poll by a hand", rcuo_start_poll(&parts.hands[1], &(uint64_t){0}), RCUO_OTHER);
    is("return by control", rcuo_return(&parts.control), RCUO_OTHER);
}

static void wrong_kinds(void) {
    away();
    all_calls("a processor", &parts.processors[0], RCUO_OK, RCUO_NONE_LEFT, RCUO_NOT_RUNNING, RCUO_OTHER, RCUO_OTHER, RCUO_OTHER, RCUO_OK, RCUO_OK);
    all_calls("a group", &parts.groups[1], RCUO_OTHER, RCUO_OTHER, RCUO_OTHER, RCUO_OK, RCUO_OTHER, RCUO_OTHER, RCUO_OTHER, RCUO_OK);
    all_calls("a hand", &parts.hands[1], RCUO_OTHER, RCUO_NONE_LEFT, RCUO_NOT_RUNNING, RCUO_OTHER, RCUO_OTHER, RCUO_OTHER, RCUO_OTHER, RCUO_OK);
    all_calls("the driver", &parts.driver, RCUO_OTHER, RCUO_OTHER, RCUO_OTHER, RCUO_OTHER, RCUO_OK, RCUO_OTHER, RCUO_OTHER, RCUO_OK);
    all_calls("control", &parts.control, RCUO_OTHER, RCUO_OTHER, RCUO_OTHER, RCUO_OTHER, RCUO_OTHER, RCUO_OK, RCUO_OK, RCUO_OTHER);
    is("call by a group", rcuo_call(&parts.groups[1], 0, count, NULL, NULL), RCUO_OTHER);
    is("shut by the driver", rcuo_shut(&parts.driver, NULL), RCUO_OTHER);
    is("halt by a hand", rcuo_halt(&parts.hands[1]), RCUO_OTHER);
    is("record before close", rcuo_reports(&parts, 0, &(uint64_t){0}), RCUO_OTHER);
    is("end before close", rcuo_end(&parts), RCUO_OTHER);
    is("offload of none", rcuo_offload(&parts.control, 2), RCUO_NO_PROCESSOR);
    is("offload of a local one", rcuo_offload(&parts.control, 0), RCUO_NOT_OFFLOADABLE);
    struct rcuo_counts counts = {.processors = 3};
    bool over;
    is("a barrier of three", rcuo_poll(&parts.control, &counts, &over), RCUO_FOREIGN);
    is("a barrier of three by a processor", rcuo_poll(&parts.processors[0], &counts, &over), RCUO_FOREIGN);
    counts.processors = 0;
    is("a barrier of none", rcuo_poll(&parts.control, &counts, &over), RCUO_FOREIGN);
    is("a barrier of none by a processor", rcuo_poll(&parts.processors[0], &counts, &over), RCUO_FOREIGN);
    counts.processors = 1;
    is("a barrier of one", rcuo_poll(&parts.control, &counts, &over), RCUO_FOREIGN);
    is("a barrier of one by a processor", rcuo_poll(&parts.processors[0], &counts, &over), RCUO_FOREIGN);
    counts.processors = UINT64_MAX;
    is("a barrier of too many", rcuo_poll(&parts.control, &counts, &over), RCUO_FOREIGN);
    is("a ticket of none", rcuo_counts_ticket(&counts, (struct rcuo_ticket){RCUO_PROCESSORS, 0}), RCUO_NO_PROCESSOR);
}

static void read_sections(void) {
    struct rcuo_slot *self = &parts.processors[0];
    rcuo_read_lock(self);
    rcuo_read_lock(self);
    is("a report in a section", rcuo_quiescent(self, NULL), RCUO_READING);
    rcuo_read_unlock(self);
    is("a report in the outer section", rcuo_quiescent(self, NULL), RCUO_READING);
    is("close in a section", rcuo_close(&parts), RCUO_READING);
    rcuo_read_unlock(self);
    is("a report after it", rcuo_quiescent(self, NULL), RCUO_OK);
    rcuo_read_unlock(self);
    holds("an unlock too many is heard of nowhere", self->reading == 0);
}

/* Turns until processor 0's first callback is begun, or a thousand turns. */
static enum rcuo_answer begin_one(struct rcuo_job *job) {
    enum rcuo_answer answer = RCUO_TURN;
    for (int turn = 0; turn < 1000 && answer != RCUO_OK; turn++) {
        rcuo_quiescent(&parts.processors[0], NULL);
        rcuo_quiescent(&parts.processors[1], NULL);
        rcuo_driver_turn(&parts.driver, NULL);
        answer = rcuo_begin(&parts.processors[0], 0, job);
    }
    return answer;
}

static void while_it_runs(void) {
    struct rcuo_job job, second;
    struct rcuo_ticket ticket;
    struct rcuo_slot *self = &parts.processors[0];
    struct rcuo_counts counts;
    bool is_so;
    uint64_t left;
    memset(&counts, 0, sizeof counts);
    counts.processors = 2;
    is("the first call", rcuo_call(self, 0, count, &calls, &ticket), RCUO_OK);
    holds("the first ticket", ticket.processor == 0 && ticket.number == 0);
    is("a begin", begin_one(&job), RCUO_OK);
    holds("the job", job.function == count && job.argument == &calls);
    is("a second begin", rcuo_begin(self, 0, &second), RCUO_RUNNING);
    is("close while it runs", rcuo_close(&parts), RCUO_RUNNING);
    is("a call while it runs", rcuo_call(self, 0, count, NULL, &ticket), RCUO_OK);
    holds("its ticket", ticket.number == 1);
    is("a report while it runs", rcuo_quiescent(self, NULL), RCUO_OK);
    is("a barrier while it runs", rcuo_barrier(self, &counts), RCUO_RUNNING);
    is("a poll while it runs", rcuo_poll(self, &counts, &is_so), RCUO_RUNNING);
    is("halted while it runs", rcuo_halted(self, &is_so), RCUO_RUNNING);
    is("left while it runs", rcuo_left(self, &left), RCUO_OK);
    holds("how many are left", left == 2);
    is("lists while it runs", rcuo_lists(self, &(struct rcuo_lists){0}), RCUO_OK);
    is("accepted while it runs", rcuo_accepted(self, &ticket.number), RCUO_OK);
    holds("how many", ticket.number == 2);
    job.function(job.argument);
    is("its finish", rcuo_finish(self), RCUO_OK);
    is("a second finish", rcuo_finish(self), RCUO_NOT_RUNNING);
    second = job;
    is("a next after it", rcuo_next(self, 0, &second), RCUO_NOT_RUNNING);
    holds("nothing was handed out", second.key == job.key && second.argument == job.argument);
    is("a third call", rcuo_call(self, 0, count, NULL, NULL), RCUO_OK);
    is("a fourth call", rcuo_call_lazy(self, 0, count, NULL, NULL), RCUO_OK);
    is("a call at the limit", rcuo_call(self, 0, count, NULL, NULL), RCUO_LIMIT);
}

static void foreign_slots(void) {
    struct rcuo_slot kept;
    is("open into full slots", rcuo_open(&good, &parts), RCUO_FULL);
    is("a second runtime", rcuo_open(&good, &others), RCUO_OK);
    kept = parts.hands[1], parts.hands[1] = others.hands[1];
    is("close with another's hand", rcuo_close(&parts), RCUO_FOREIGN);
    parts.hands[1] = (struct rcuo_slot){0};
    is("close without the hand", rcuo_close(&parts), RCUO_EMPTY);
    parts.hands[1] = kept;
    kept = parts.processors[0], parts.processors[0] = parts.processors[1], parts.processors[1] = kept;
    is("close of two that changed places", rcuo_close(&parts), RCUO_FOREIGN);
    parts.processors[1] = parts.processors[0], parts.processors[0] = kept;
    kept = parts.driver, parts.driver = parts.groups[1];
    is("close with a group for the driver", rcuo_close(&parts), RCUO_OTHER);
    parts.driver = (struct rcuo_slot){0};
    is("close without the driver", rcuo_close(&parts), RCUO_EMPTY);
    parts.driver = kept;
    kept = parts.control, parts.control = others.control;
    is("close by another's control", rcuo_close(&parts), RCUO_FOREIGN);
    parts.control = kept;
    is("shut", rcuo_shut(&parts.control, NULL), RCUO_OK);
    is("a call after shut", rcuo_call(&parts.processors[1], 0, count, NULL, NULL), RCUO_CLOSED);
}

static void after_close(void) {
    struct rcuo_record record;
    struct rcuo_job job;
    uint64_t at = 0, number;
    is("close", rcuo_close(&parts), RCUO_OK);
    is("close again", rcuo_close(&parts), RCUO_OTHER);
    is("a report after close", rcuo_quiescent(&parts.processors[0], NULL), RCUO_EMPTY);
    is("a begin after close", rcuo_begin(&parts.hands[1], 0, &job), RCUO_EMPTY);
    is("a turn of the driver after close", rcuo_driver_turn(&parts.driver, NULL), RCUO_EMPTY);
    is("a turn of a group after close", rcuo_group_turn(&parts.groups[1], NULL), RCUO_EMPTY);
    is("a call after close", rcuo_call(&parts.processors[0], 0, count, NULL, NULL), RCUO_EMPTY);
    is("a shut after close", rcuo_shut(&parts.control, NULL), RCUO_OTHER);
    is("open before the end", rcuo_open(&good, &parts), RCUO_FULL);
    is("the record", rcuo_next_ran(&parts, 0, &at, &record), RCUO_OK);
    holds("what it says", record.number == 0 && record.job.function == count && record.ready >= record.stamp && at == 1);
    is("no second record", rcuo_next_ran(&parts, 0, &at, &record), RCUO_NONE_LEFT);
    at = 0;
    for (int i = 0; i < 3; i++) is("a job that comes back", rcuo_next_back(&parts, 0, &at, &job), RCUO_OK);
    is("no fourth job", rcuo_next_back(&parts, 0, &at, &job), RCUO_NONE_LEFT);
    at = UINT64_MAX;
    is("a job far out", rcuo_next_back(&parts, 0, &at, &job), RCUO_NONE_LEFT);
    at = 0;
    is("a record of no processor", rcuo_next_ran(&parts, 2, &at, &record), RCUO_NO_PROCESSOR);
    is("a job of no processor", rcuo_next_back(&parts, UINT64_MAX, &at, &job), RCUO_NO_PROCESSOR);
    is("reports", rcuo_reports(&parts, 1, &number), RCUO_OK);
    is("reports of no processor", rcuo_reports(&parts, 2, &number), RCUO_NO_PROCESSOR);
    is("the end", rcuo_end(&parts), RCUO_OK);
    is("a second end", rcuo_end(&parts), RCUO_EMPTY);
    is("close of the other", rcuo_close(&others), RCUO_OK);
    is("the other's end", rcuo_end(&others), RCUO_OK);
    is("open once more", rcuo_open(&good, &parts), RCUO_OK);
    is("close once more", rcuo_close(&parts), RCUO_OK);
    is("end once more", rcuo_end(&parts), RCUO_OK);
}

int main(void) {
    null_pointers();
    empty_slots();
    settings_outside();
    is("open", rcuo_open(&good, &parts), RCUO_OK);
    wrong_kinds();
    read_sections();
    while_it_runs();
    foreign_slots();
    after_close();
    holds("each callback that was run was run once", calls == 1);
    return tell();
}
