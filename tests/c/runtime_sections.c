/*
 * Read sections of a runtime in a program of which one file counts them (this one) and another doesn't: none of the second's
 * sections stays counted, so a report outside of all is never refused.
 */
#define RCUO_DEBUG
#include "threads.h"

#include "runtime_uncounted.h"

int main(void) {
    struct rcuo_runtime *runtime;
    is("start", rcuo_start(&runtime, NULL), RCUO_OK);
    is("register", rcuo_register(), RCUO_OK);
    rcuo_thread_read_lock();
    end_section_elsewhere();
    is("a report after a section that ended in the other file", rcuo_quiescent_state(), RCUO_OK);
    begin_section_elsewhere();
    rcuo_thread_read_unlock();
    is("a report after a section that began in the other file", rcuo_quiescent_state(), RCUO_OK);
    is("a report by the other file", report_elsewhere(), RCUO_OK);
    is("synchronize", rcuo_synchronize(), RCUO_OK);
    is("unregister", rcuo_unregister(), RCUO_OK);
    is("stop", rcuo_stop(runtime, NULL), RCUO_OK);
    return tell();
}
