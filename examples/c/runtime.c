/*
 * Three readers and one updater in a runtime with a helper of its own: the updater publishes versions of a configuration, and
 * each old one is freed by a callback, once no reader has it any more. What the program does for that is marked by a star.
 *
 *     cc -std=gnu11 -pthread runtime.c -lrcuo-runtime -lrcuo && ./a.out [VERSIONS]
 */
#include <rcuo/runtime.h>

#include <stdatomic.h>
#include <stdio.h>
#include <stdlib.h>

enum { READERS = 3 };

struct config {
    struct rcuo_head head; /* where the callback waits: within the object */
    unsigned long version;
    unsigned long again; /* the version once more, and 0 where it was freed */
};

static struct config *current;
static atomic_bool stop;
static atomic_ulong reads, faults, freed;

static void free_config(struct rcuo_head *head) {
    struct config *old = (struct config *)(void *)head;
    old->again = 0;
    free(old);
    atomic_fetch_add(&freed, 1);
}

static void *read_config(void *none) {
    rcuo_register(); /* * */
    while (!atomic_load(&stop)) {
        rcuo_thread_read_lock();
        struct config *config = rcuo_dereference(current);
        if (config->version != config->again) atomic_fetch_add(&faults, 1);
        rcuo_thread_read_unlock();
        rcuo_quiescent_state(); /* * */
        atomic_fetch_add(&reads, 1);
    }
    return none; /* (the end of the thread unregisters it) */
}

static void publish(unsigned long version) {
    struct config *old = current, *new = malloc(sizeof *new);
    if (!new) abort();
    new->version = new->again = version;
    rcuo_assign_pointer(current, new);
    if (old) rcuo_call_rcu(&old->head, free_config); /* * */
}

int main(int argc, char **argv) {
    unsigned long versions = argc > 1 ? strtoul(argv[1], NULL, 10) : 100000;
    struct rcuo_runtime *runtime;
    pthread_t threads[READERS];
    if (rcuo_start(&runtime, NULL) != RCUO_OK) return 1; /* * */
    publish(1);
    for (int t = 0; t < READERS; t++) pthread_create(&threads[t], NULL, read_config, NULL);
    for (unsigned long version = 2; version <= versions; version++) publish(version);
    atomic_store(&stop, true);
    for (int t = 0; t < READERS; t++) pthread_join(threads[t], NULL);
    if (rcuo_stop(runtime, NULL) != RCUO_OK) return 1; /* * */
    printf("published %lu, freed %lu, faults %lu\n", versions, atomic_load(&freed), atomic_load(&faults));
    free(current);
    return atomic_load(&faults) || atomic_load(&freed) + 1 != versions;
}
