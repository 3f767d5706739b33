/*
 * The least program over the managed runtime: an old version is let go after a grace period.
 *
 *     make lib && make -C lib
 *     cc -Iinclude examples/c/retire.c out/librcuo-runtime.a out/librcuo.a -pthread
 */
#include <rcuo/runtime.h>
#include <stdio.h>

static void let_go(struct rcuo_head *head) { printf("freed %p\n", (void *)head); }

int main(void) {
    static struct rcuo_head old;
    struct rcuo_runtime *runtime;
    if (rcuo_start(&runtime, NULL) != RCUO_OK || rcuo_register() != RCUO_OK) return 1;
    rcuo_thread_read_lock();        /* a read section of this thread */
    rcuo_thread_read_unlock();
    rcuo_call_rcu(&old, let_go);    /* runs after a grace period, in the helper */
    rcuo_unregister();
    return rcuo_stop(runtime, NULL) != RCUO_OK;
}
