#include <rcuo.h>
#include <stdio.h>
#include <stdlib.h>

static void let_go(void *old) { printf("freed %s\n", (char *)old); }

int main(void) {
    static struct rcuo_parts parts;
    struct rcuo_settings settings = RCUO_SETTINGS_DEFAULT;
    uint64_t ran = 0;
    settings.processors = 2;
    if (rcuo_open(&settings, &parts) != RCUO_OK) return 1;
    rcuo_call(&parts.processors[0], 0, let_go, "the old version", NULL);
    while (!ran) {
        rcuo_quiescent(&parts.processors[0], NULL);       /* no thread reads now as processor 0, */
        rcuo_quiescent(&parts.processors[1], NULL);       /* or as processor 1 */
        rcuo_driver_turn(&parts.driver, NULL);            /* starts and ends grace periods */
        rcuo_run(&parts.processors[0], 0, 10, &ran);      /* runs what may run */
    }
    enum rcuo_answer answer = rcuo_close(&parts);
    printf("closed: %s\n", rcuo_strerror(answer));
    rcuo_end(&parts);
    return answer != RCUO_OK;
}
