/*
 * A thread that blocks. Processor 1's thread waits for a line of input that never comes; it leaves before, so that the callbacks of
 * processor 0 don't wait for it, and returns after.
 *
 *     cc -std=c11 -pthread away.c -lrcuo && ./a.out
 */
#include <rcuo.h>

#include <pthread.h>
#include <stdio.h>
#include <stdlib.h>
#include <unistd.h>

static struct rcuo_parts parts;
static int ends[2];

static void check(const char *what, enum rcuo_answer answer) {
    if (answer == RCUO_OK) return;
    fprintf(stderr, "%s: %s\n", what, rcuo_strerror(answer));
    exit(1);
}

static void let_go(void *old) {
    printf("freed %s\n", (const char *)old);
}

/* Waits until the other end of the pipe is closed. */
static void *wait_for_input(void *self) {
    char byte;
    check("leave", rcuo_leave(self));
    while (read(ends[0], &byte, 1) > 0) continue;
    check("return", rcuo_return(self));
    check("quiescent", rcuo_quiescent(self, NULL));
    return NULL;
}

int main(void) {
    struct rcuo_settings settings = RCUO_SETTINGS_DEFAULT;
    pthread_t thread;
    uint64_t ran = 0;
    settings.processors = 2;
    check("open", rcuo_open(&settings, &parts));
    if (pipe(ends) || pthread_create(&thread, NULL, wait_for_input, &parts.processors[1])) return 1;
    check("call", rcuo_call(&parts.processors[0], 0, let_go, "what the blocked thread doesn't hold back", NULL));
    while (!ran) {
        check("quiescent", rcuo_quiescent(&parts.processors[0], NULL));
        check("driver", rcuo_driver_turn(&parts.driver, NULL));
        (void)rcuo_run(&parts.processors[0], 0, 1, &ran); /* (it answers why none may run yet) */
    }
    close(ends[1]);
    pthread_join(thread, NULL);
    check("close", rcuo_close(&parts));
    check("end", rcuo_end(&parts));
    puts("closed");
    return 0;
}
