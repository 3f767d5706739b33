/*
 * Read sections in a program of two files, of which this one counts them (RCUO_DEBUG) and uncounted.c doesn't: no report outside
 * of all sections is refused; and where this one begins every section, each report within one is. NDEBUG makes no difference.
 */
#define NDEBUG
#define RCUO_DEBUG
#include "expect.h"
#include "uncounted.h"

enum { STEPS = 100000, DEEPEST = 5 };

static struct rcuo_parts parts;
static struct rcuo_slot *const self = &parts.processors[0];
static uint64_t state = 88172645463325252u;

static uint64_t any(uint64_t below) {
    state ^= state << 13;
    state ^= state >> 7;
    state ^= state << 17;
    return state % below;
}

static void lock(bool counted) { counted ? rcuo_read_lock(self) : uncounted_lock(self); }

static void unlock(bool counted) { counted ? rcuo_read_unlock(self) : uncounted_unlock(self); }

/* A report within so many sections. */
static void report(uint64_t depth, bool all_counted) {
    enum rcuo_answer answer = rcuo_quiescent(self, NULL);
    if (depth == 0) {
        is("a report outside of all sections", answer, RCUO_OK);
    } else if (all_counted) {
        is("a report within a section that was counted", answer, RCUO_READING);
    } else {
        holds("a report within a section that may have been counted", answer == RCUO_OK || answer == RCUO_READING);
    }
}

/* Sections begin and end, nested and by either file; all begin here where `all_counted` says so. */
static void walk(bool all_counted) {
    uint64_t depth = 0;
    for (int step = 0; step < STEPS; step++) {
        uint64_t choice = any(3);
        if (choice == 0 && depth < DEEPEST) {
            lock(all_counted || any(2));
            depth++;
        } else if (choice == 1 && depth) {
            unlock(any(2));
            depth--;
        } else {
            report(depth, all_counted);
        }
    }
    for (; depth; depth--) unlock(any(2));
    report(depth, all_counted);
}

static void across_files(void) {
    lock(true);
    is("close in a section that is counted", rcuo_close(&parts), RCUO_READING);
    unlock(false);
    is("a report after the other file ended it", rcuo_quiescent(self, NULL), RCUO_OK);
    lock(false);
    unlock(true);
    is("a report after this file ended the other's", rcuo_quiescent(self, NULL), RCUO_OK);
    lock(false);
    is("a report in a section that isn't counted", rcuo_quiescent(self, NULL), RCUO_OK);
    unlock(false);
}

int main(void) {
    struct rcuo_settings settings = RCUO_SETTINGS_DEFAULT;
    is("open", rcuo_open(&settings, &parts), RCUO_OK);
    across_files();
    walk(true);
    walk(false);
    is("close", rcuo_close(&parts), RCUO_OK);
    is("end", rcuo_end(&parts), RCUO_OK);
    return tell();
}
