/* A read section's begin and end, as a file without RCUO_DEBUG makes them. */
#include <rcuo.h>

void uncounted_lock(struct rcuo_slot *processor);
void uncounted_unlock(struct rcuo_slot *processor);
