/* The file without RCUO_DEBUG, of the program whose other file is sections.c. */
#include "uncounted.h"

void uncounted_lock(struct rcuo_slot *processor) { rcuo_read_lock(processor); }

void uncounted_unlock(struct rcuo_slot *processor) { rcuo_read_unlock(processor); }
