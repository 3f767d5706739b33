/* What a test expects, counted; what differs is said on standard error. */
#ifndef EXPECT_H
#define EXPECT_H

#include <rcuo.h>

#include <stdio.h>

static int passed, failed;

static inline void is(const char *what, enum rcuo_answer got, enum rcuo_answer wanted) {
    if (got == wanted) {
        passed++;
        return;
    }
    failed++;
    fprintf(stderr, "%s: %s, and not %s\n", what, rcuo_strerror(got), rcuo_strerror(wanted));
}

static inline void holds(const char *what, bool it) {
    if (it) {
        passed++;
        return;
    }
    failed++;
    fprintf(stderr, "%s doesn't hold\n", what);
}

/* Says how many passed and failed. Returns the exit status. */
static inline int tell(void) {
    printf("%d passed, %d failed\n", passed, failed);
    return failed != 0;
}

#endif
