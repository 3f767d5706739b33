/* A file that doesn't count read sections, for runtime_sections.c. */
#include "runtime_uncounted.h"

void begin_section_elsewhere(void) {
    rcuo_thread_read_lock();
}

void end_section_elsewhere(void) {
    rcuo_thread_read_unlock();
}

enum rcuo_answer report_elsewhere(void) {
    return rcuo_quiescent_state();
}
