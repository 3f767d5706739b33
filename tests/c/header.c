/* What the header says of its version, of defaults and of moments, compiled as C99 and as C++11. */
#include "expect.h"

#include <string.h>

static struct rcuo_parts parts;

static void nothing(void *argument) { (void)argument; }

static void versions(void) {
    char text[40];
    snprintf(text, sizeof text, "%d.%d.%d", RCUO_VERSION_MAJOR, RCUO_VERSION_MINOR, RCUO_VERSION_PATCH);
    holds("that the version's text is that of its numbers", strcmp(text, RCUO_VERSION) == 0);
    holds("that the library has the header's version", rcuo_version() == RCUO_VERSION_NUMBER);
}

static void end(void) {
    is("close", rcuo_close(&parts), RCUO_OK);
    is("end", rcuo_end(&parts), RCUO_OK);
}

static void defaults(void) {
    struct rcuo_settings settings = RCUO_SETTINGS_DEFAULT;
    uint64_t left = 0;
    is("close of empty slots", rcuo_close(&parts), RCUO_EMPTY);
    is("open with the defaults", rcuo_open(&settings, &parts), RCUO_OK);
    holds("that there is one local processor", parts.processors[0].full && !parts.processors[1].full && !parts.hands[0].full);
    is("left", rcuo_left(&parts.processors[0], &left), RCUO_OK);
    holds("that there is no limit", !settings.limit && left == UINT64_C(1) << 53);
    end();
    settings.processors = RCUO_PROCESSORS;
    settings.offloadable = NULL;
    is("open with as many processors as there can be", rcuo_open(&settings, &parts), RCUO_OK);
    holds("that each has a hand", parts.hands[0].full && parts.hands[RCUO_PROCESSORS - 1].full);
    end();
}

/* ---- who is away at first ---- */

/* A callback of processor 64 runs once that one has reported: processors 0 and 65 are here and report, no other holds it back. */
static void away_at_first(void) {
    uint64_t away[RCUO_PROCESSORS / 64], ran = 0;
    struct rcuo_settings settings = RCUO_SETTINGS_DEFAULT;
    settings.processors = 66;
    settings.away = away;
    away[0] = ~UINT64_C(1);
    away[1] = 0;
    is("open", rcuo_open(&settings, &parts), RCUO_OK);
    is("a report of one that is away", rcuo_quiescent(&parts.processors[63], NULL), RCUO_AWAY);
    is("a call", rcuo_call(&parts.processors[64], 0, nothing, NULL, NULL), RCUO_OK);
    is("a begin", rcuo_run(&parts.processors[64], 0, 1, NULL), RCUO_NONE_LEFT);
    is("the start", rcuo_driver_turn(&parts.driver, NULL), RCUO_OK);
    for (int here = 0; here < 66; here += here ? 1 : 64) {
        is("a begin before all have reported", rcuo_run(&parts.processors[64], 0, 1, NULL), RCUO_NONE_LEFT);
        is("a report", rcuo_quiescent(&parts.processors[here], NULL), RCUO_OK);
        is("a turn", rcuo_driver_turn(&parts.driver, NULL), RCUO_OK);
    }
    is("a begin after the grace period", rcuo_run(&parts.processors[64], 0, 1, &ran), RCUO_OK);
    holds("that the callback ran", ran == 1);
    for (int gone = 1; gone < 64; gone++) is("back", rcuo_return(&parts.processors[gone]), RCUO_OK);
    end();
}

/* ---- moments: processor 0 is offloaded, and processor 1 local ---- */

enum { HIGH_MARK = 8 };

/* Whether so many callbacks of a processor wait in its bypass list. */
static void waits(const char *what, int processor, uint64_t wanted) {
    struct rcuo_lists lists;
    is("lists", rcuo_lists(&parts.processors[processor], &lists), RCUO_OK);
    holds(what, lists.bypass == wanted);
}

static void call(int processor, int times, uint64_t moment) {
    while (times--) is("a call", rcuo_call(&parts.processors[processor], moment, nothing, NULL, NULL), RCUO_OK);
}

static void call_lazy(uint64_t moment) {
    is("a lazy call", rcuo_call_lazy(&parts.processors[0], moment, nothing, NULL, NULL), RCUO_OK);
}

static void tick(uint64_t moment) { is("a begin", rcuo_run(&parts.processors[0], moment, 1, NULL), RCUO_NONE_LEFT); }

static void plain_calls(void) {
    call(0, 16, 5);
    waits("that sixteen calls in one moment are released", 0, 0);
    call(0, 2, 5);
    waits("that all after them wait", 0, 2);
    tick(5);
    waits("that a begin in that moment releases none", 0, 2);
    tick(6);
    waits("that a begin in another moment releases all", 0, 0);
    call(0, 17, 6);
    waits("that sixteen more are released then, and no seventeenth", 0, 1);
    call(0, 1, 4);
    waits("that a call in another moment, even an earlier one, releases all", 0, 0);
    call(0, 15 + HIGH_MARK - 1, 4);
    waits("that fewer than qhimark wait", 0, HIGH_MARK - 1);
    call(0, 1, 4);
    waits("that qhimark of them are released", 0, 0);
    call(0, 1, 4);
    waits("that the next one waits again", 0, 1);
}

static void lazy_calls(void) {
    call_lazy(20);
    call_lazy(25);
    waits("that lazy calls wait", 0, 2);
    tick(29);
    waits("that a begin within ten moments of the first releases none", 0, 2);
    tick(30);
    waits("that one ten moments after it releases all", 0, 0);
    call_lazy(40);
    tick(39);
    waits("that one before it releases all", 0, 0);
    call_lazy(50);
    waits("that a lazy call waits", 0, 1);
    call(0, 1, 39);
    waits("that a plain call releases it", 0, 0);
}

/* What waits goes on after a barrier and in a switch, whatever the moment. */
static void barrier_and_switch(void) {
    struct rcuo_counts barrier;
    call(0, 17, 60);
    tick(60);
    waits("that one waits", 0, 1);
    is("a barrier", rcuo_barrier(&parts.control, &barrier), RCUO_OK);
    tick(60);
    waits("that the begin after a barrier releases it", 0, 0);
    call(0, 1, 60);
    waits("that one waits again", 0, 1);
    is("a switch", rcuo_deoffload(&parts.control, 0), RCUO_OK);
    tick(60);
    waits("that the begin after a switch releases it", 0, 0);
}

static void moments(void) {
    static const uint64_t first[] = {1};
    struct rcuo_settings settings = RCUO_SETTINGS_DEFAULT;
    settings.processors = 2;
    settings.offloadable = first;
    settings.qhimark = HIGH_MARK;
    is("open", rcuo_open(&settings, &parts), RCUO_OK);
    call(1, 100, 0);
    waits("that no call of a local processor waits in a bypass list", 1, 0);
    plain_calls();
    tick(7);
    lazy_calls();
    barrier_and_switch();
    end();
}

int main(void) {
    versions();
    defaults();
    away_at_first();
    moments();
    return tell();
}
