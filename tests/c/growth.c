/*
 * Each allocation of the library is refused in turn, once and from then on: each call answers RCUO_MEMORY or goes on, nothing
 * is lost, and at the end nothing is left on the heap. Linked with -Wl,--wrap=malloc,--wrap=realloc,--wrap=free.
 */
#include <rcuo.h>

#include <stdio.h>
#include <stdlib.h>

void *__real_malloc(size_t size);
void *__real_realloc(void *at, size_t size);
void __real_free(void *at);

static long made, refuse_at, refuse_on, live, refused;

static bool is_refused(void) {
    made++;
    if (!refuse_at || made < refuse_at || (made > refuse_at && !refuse_on)) return false;
    refused++;
    return true;
}

void *__wrap_malloc(size_t size) {
    if (is_refused()) return NULL;
    void *at = __real_malloc(size);
    live += at != NULL;
    return at;
}

void *__wrap_realloc(void *at, size_t size) {
    if (is_refused()) return NULL;
    void *again = __real_realloc(at, size);
    live += again != NULL && at == NULL;
    return again;
}

void __wrap_free(void *at) {
    live -= at != NULL;
    __real_free(at);
}

enum { CALLS = 40, PROCESSORS = 3 };

static struct rcuo_parts parts;
static const uint64_t offloadable[] = {6};
static const struct rcuo_settings settings = {
    .processors = PROCESSORS, .stride = 2, .blimit = 4, .qhimark = 4, .limit = 1000, .offloadable = offloadable, .records = 1};
static int ran[PROCESSORS * CALLS];
static long failed;

static void run_one(void *argument) { ++*(int *)argument; }

static void is(const char *what, enum rcuo_answer got, enum rcuo_answer wanted) {
    if (got == wanted) return;
    fprintf(stderr, "refused at %ld: %s: %s\n", refuse_at, what, rcuo_strerror(got));
    failed++;
}

/* A turn of all parts; what memory is refused to is tried again in a later turn. */
static void turn_all(uint64_t moment) {
    for (int p = 0; p < PROCESSORS; p++) {
        is("a report", rcuo_quiescent(&parts.processors[p], NULL), RCUO_OK);
        rcuo_run(&parts.processors[p], moment, 4, NULL);
        if (parts.groups[p].full) is("a group", rcuo_group_turn(&parts.groups[p], NULL), RCUO_OK);
        if (parts.hands[p].full) rcuo_run(&parts.hands[p], 0, 4, NULL);
    }
    is("the driver", rcuo_driver_turn(&parts.driver, NULL), RCUO_OK);
}

/* A whole life of a runtime. Memory is ample again once what was to be refused was. */
static void live_once(void) {
    long at_first = live;
    enum rcuo_answer answer = rcuo_open(&settings, &parts);
    if (answer == RCUO_MEMORY) {
        if (live != at_first) is("what a refused open left", RCUO_FULL, RCUO_OK);
        refuse_on = 0, refuse_at = 0;
        answer = rcuo_open(&settings, &parts);
    }
    is("open", answer, RCUO_OK);
    if (answer != RCUO_OK) return;
    for (int i = 0; i < PROCESSORS * CALLS; i++) {
        ran[i] = 0;
        for (int tries = 0; tries < 50; tries++) {
            answer = rcuo_call(&parts.processors[i % PROCESSORS], (uint64_t)i, run_one, &ran[i], NULL);
            if (answer != RCUO_MEMORY) break;
            if (tries == 20) refuse_on = 0;
            turn_all((uint64_t)i);
        }
        is("a call", answer, RCUO_OK);
        turn_all((uint64_t)i);
        if (i == CALLS) is("a switch", rcuo_deoffload(&parts.control, 1), RCUO_OK);
        if (i == 2 * CALLS) is("a switch back", rcuo_offload(&parts.control, 1), RCUO_OK);
    }
    refuse_on = 0;
    struct rcuo_counts barrier;
    bool passed = false;
    is("a barrier", rcuo_barrier(&parts.control, &barrier), RCUO_OK);
    for (uint64_t moment = 1000; !passed && moment < 3000; moment++) {
        turn_all(moment);
        is("a poll", rcuo_poll(&parts.control, &barrier, &passed), RCUO_OK);
    }
    is("whether the barrier passed", passed ? RCUO_OK : RCUO_TURN, RCUO_OK);
    for (int i = 0; i < PROCESSORS * CALLS; i++) {
        if (ran[i] != 1) is("how often a callback ran", RCUO_OTHER, RCUO_OK);
    }
    do answer = rcuo_close(&parts);
    while (answer == RCUO_MEMORY);
    is("close", answer, RCUO_OK);
    uint64_t records = 0;
    for (uint64_t p = 0; p < PROCESSORS; p++) {
        struct rcuo_record record;
        uint64_t at = 0;
        while (rcuo_next_ran(&parts, p, &at, &record) == RCUO_OK) records++;
    }
    if (records != PROCESSORS * CALLS) is("how many records there are", RCUO_OTHER, RCUO_OK);
    is("the end", rcuo_end(&parts), RCUO_OK);
    if (live != at_first) is("what is left on the heap", RCUO_FULL, RCUO_OK);
}

/* A close whose every allocation is refused in turn, and which is made again. */
static void close_refused(void) {
    for (long n = 1;; n++) {
        long at_first = live;
        refuse_at = 0;
        is("open", rcuo_open(&settings, &parts), RCUO_OK);
        for (int p = 0; p < PROCESSORS; p++) is("a call", rcuo_call(&parts.processors[p], 0, run_one, &ran[p], NULL), RCUO_OK);
        long before = refused;
        made = 0, refuse_at = n, refuse_on = 0;
        enum rcuo_answer answer = rcuo_close(&parts);
        bool was_refused = refused != before;
        refuse_at = 0;
        if (was_refused) {
            is("a close without memory", answer, RCUO_MEMORY);
            answer = rcuo_close(&parts);
        }
        is("a close", answer, RCUO_OK);
        struct rcuo_job job;
        for (uint64_t p = 0; p < PROCESSORS; p++) {
            uint64_t at = 0;
            is("a job that comes back", rcuo_next_back(&parts, p, &at, &job), RCUO_OK);
        }
        is("the end", rcuo_end(&parts), RCUO_OK);
        if (live != at_first) is("what is left on the heap", RCUO_FULL, RCUO_OK);
        if (!was_refused) break;
    }
}

int main(void) {
    long runs = 0;
    for (long on = 0; on < 2; on++) {
        for (long n = 1; n < 100000 && !failed; n++) {
            long before = refused;
            made = 0, refuse_at = n, refuse_on = on;
            live_once();
            runs++;
            if (refused == before) break;
        }
    }
    close_refused();
    printf("runs %ld, refused %ld, failed %ld\n", runs, refused, failed);
    return failed != 0;
}
