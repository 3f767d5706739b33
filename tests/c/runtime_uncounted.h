/* What runtime_sections.c calls of a file that doesn't count read sections. */
#ifndef RUNTIME_UNCOUNTED_H
#define RUNTIME_UNCOUNTED_H

#include <rcuo/runtime.h>

void begin_section_elsewhere(void);
void end_section_elsewhere(void);
enum rcuo_answer report_elsewhere(void);

#endif
