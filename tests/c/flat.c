/* Where no record is kept, memory doesn't grow with what ran: the peak after a tenth of the callbacks is the peak after all. A
 * local processor and an offloaded one with its hand, in one thread.
 *
 *     flat [CALLBACKS]    how many each processor runs (10000000) */
#define _XOPEN_SOURCE 600
#include "expect.h"

#include <stdlib.h>
#include <sys/resource.h>

/* (AddressSanitizer keeps what was freed for a while, which the peak shows) */
#if defined(__SANITIZE_ADDRESS__)
#define MEASURES false
#else
#define MEASURES true
#endif

enum { BATCH = 1000, LOCAL = 0, OFFLOADED = 1 };

static struct rcuo_parts parts;
static uint64_t ran[2];

static void local_ran(void *argument) {
    (void)argument;
    ran[LOCAL]++;
}

static void offloaded_ran(void *argument) {
    (void)argument;
    ran[OFFLOADED]++;
}

static bool call_batch(void) {
    for (int i = 0; i < BATCH; i++) {
        if (rcuo_call(&parts.processors[LOCAL], 0, local_ran, NULL, NULL) != RCUO_OK) return false;
        if (rcuo_call(&parts.processors[OFFLOADED], 0, offloaded_ran, NULL, NULL) != RCUO_OK) return false;
    }
    return true;
}

/* Turns of all parts, until both processors' callbacks have run. */
static void run_batch(uint64_t moment, uint64_t wanted) {
    while (ran[LOCAL] < wanted || ran[OFFLOADED] < wanted) {
        rcuo_run(&parts.processors[LOCAL], moment, BATCH, NULL);
        rcuo_run(&parts.processors[OFFLOADED], moment, 1, NULL); /* (a tick releases the bypass list) */
        for (int p = LOCAL; p <= OFFLOADED; p++) rcuo_quiescent(&parts.processors[p], NULL);
        rcuo_driver_turn(&parts.driver, NULL);
        rcuo_group_turn(&parts.groups[0], NULL);
        rcuo_run(&parts.hands[OFFLOADED], moment, BATCH, NULL);
    }
}

static long peak(void) {
    struct rusage usage;
    return getrusage(RUSAGE_SELF, &usage) == 0 ? usage.ru_maxrss : -1;
}

int main(int count, char **words) {
    uint64_t callbacks = count > 1 ? strtoull(words[1], NULL, 10) : 10000000;
    uint64_t batches = callbacks / BATCH;
    long early = 0;
    const uint64_t offloadable[] = {UINT64_C(1) << OFFLOADED};
    struct rcuo_settings settings = RCUO_SETTINGS_DEFAULT;
    settings.processors = 2;
    settings.stride = 2;
    settings.offloadable = offloadable;
    settings.blimit = BATCH;
    is("open", rcuo_open(&settings, &parts), RCUO_OK);
    for (uint64_t batch = 1; batch <= batches; batch++) {
        if (!call_batch()) {
            is("a call", RCUO_LIMIT, RCUO_OK);
            break;
        }
        run_batch(batch, batch * BATCH);
        if (batch == batches / 10) early = peak();
    }
    long late = peak();
    fprintf(stderr, "peak memory: %ld KB after a tenth, %ld KB after all\n", early, late);
    holds("that all ran", ran[LOCAL] == batches * BATCH && ran[OFFLOADED] == batches * BATCH);
    holds("that the peak is flat", !MEASURES || (early > 0 && late - early <= 64));
    struct rcuo_record record;
    uint64_t at = 0;
    is("close", rcuo_close(&parts), RCUO_OK);
    is("a record where none is kept", rcuo_next_ran(&parts, LOCAL, &at, &record), RCUO_NONE_LEFT);
    is("end", rcuo_end(&parts), RCUO_OK);
    return tell();
}
