/*
 * A hash table with lock-free readers. Updaters replace and remove nodes, and a removed node is freed by a callback, once no
 * reader can reach it any more.
 *
 * Four readers and two updaters, each a thread with a processor of its own. The second updater's processor is offloaded: its
 * callbacks run in a hand's thread, and it is switched to local and back while all work. At the end a barrier waits for all
 * that was removed, and what was freed is compared with it.
 *
 *     cc -std=gnu11 -pthread table.c -lrcuo && ./a.out [UPDATES]
 */
#include <rcuo.h>

#include <pthread.h>
#include <sched.h>
#include <stdatomic.h>
#include <stdio.h>
#include <stdlib.h>

enum { READERS = 4, UPDATERS = 2, PROCESSORS = READERS + UPDATERS, OFFLOADED = PROCESSORS - 1, BUCKETS = 64, KEYS = 512 };

/* A node of the table. `alive` is cleared as it is freed, so that a reader who could still see it would notice. */
struct node {
    uint64_t key;
    uint64_t value;
    struct node *next;
    atomic_uint alive;
};

static struct rcuo_parts parts;
static struct node *table[BUCKETS];
static atomic_bool stop;
static atomic_ulong removed, freed, seen_dead, looked_up, updaters_left = UPDATERS, failed;
static unsigned long updates = 20000;

static void fail(const char *what, enum rcuo_answer answer) {
    fprintf(stderr, "%s: %s\n", what, rcuo_strerror(answer));
    atomic_fetch_add(&failed, 1);
}

/* The callback: no reader has this node any more. */
static void free_node(void *argument) {
    struct node *node = argument;
    atomic_store(&node->alive, 0);
    free(node);
    atomic_fetch_add(&freed, 1);
}

/* A quiescent state, and the callbacks of this processor that may run now. */
static void rest(struct rcuo_slot *self, uint64_t moment) {
    enum rcuo_answer answer = rcuo_quiescent(self, NULL);
    if (answer != RCUO_OK) fail("quiescent", answer);
    rcuo_run(self, moment, 16, NULL);
}

static void *read_table(void *argument) {
    struct rcuo_slot *self = argument;
    unsigned seed = (unsigned)(self - parts.processors) + 1;
    for (uint64_t moment = 0; !atomic_load(&stop); moment++) {
        for (int i = 0; i < 32; i++) {
            uint64_t key = (uint64_t)rand_r(&seed) % KEYS;
            rcuo_read_lock(self);
            for (struct node *node = rcuo_dereference(table[key % BUCKETS]); node; node = rcuo_dereference(node->next)) {
                if (!atomic_load(&node->alive)) atomic_fetch_add(&seen_dead, 1);
                if (node->key == key) break;
            }
            rcuo_read_unlock(self);
        }
        atomic_fetch_add(&looked_up, 32);
        rest(self, moment);
        if (moment % 16 == 0) sched_yield();
    }
    return NULL;
}

/* Hands a removed node to the runtime. Where it can't be accepted now, this thread makes room by its own turns. */
static void retire(struct rcuo_slot *self, uint64_t moment, struct node *node) {
    for (;;) {
        enum rcuo_answer answer = rcuo_call(self, moment, free_node, node, NULL);
        if (answer == RCUO_OK) break;
        if (answer != RCUO_MEMORY) {
            fail("call", answer);
            return;
        }
        rest(self, moment);
    }
    atomic_fetch_add(&removed, 1);
}

/* Removes the key of a bucket that this updater alone writes to, or puts it there. */
static void update(struct rcuo_slot *self, uint64_t moment, uint64_t key) {
    struct node **at = &table[key % BUCKETS];
    for (struct node *node = *at; node; at = &node->next, node = *at) {
        if (node->key == key) {
            rcuo_assign_pointer(*at, node->next);
            retire(self, moment, node);
            return;
        }
    }
    struct node *node = malloc(sizeof *node);
    if (!node) return;
    node->key = key;
    node->value = moment;
    atomic_init(&node->alive, 1);
    node->next = table[key % BUCKETS];
    rcuo_assign_pointer(table[key % BUCKETS], node);
}

static void *update_table(void *argument) {
    struct rcuo_slot *self = argument;
    unsigned long which = (unsigned long)(self - parts.processors) - READERS;
    unsigned seed = (unsigned)which + 100;
    uint64_t moment = 0;
    for (; moment < updates; moment++) {
        uint64_t key = (uint64_t)rand_r(&seed) % (KEYS / UPDATERS) * UPDATERS + which;
        update(self, moment, key);
        if (moment % 8 == 0) rest(self, moment);
        if (moment % 64 == 0) sched_yield();
    }
    atomic_fetch_sub(&updaters_left, 1);
    for (; !atomic_load(&stop); moment++) {
        rest(self, moment);
        sched_yield();
    }
    return NULL;
}

static void *run_hand(void *argument) {
    while (!atomic_load(&stop)) {
        if (rcuo_run(argument, 0, 16, NULL) != RCUO_OK) sched_yield();
    }
    return NULL;
}

static void *run_group(void *argument) {
    while (!atomic_load(&stop)) {
        struct rcuo_group_turn turn;
        if (rcuo_group_turn(argument, &turn) == RCUO_OK && !turn.took && !turn.gave) sched_yield();
    }
    return NULL;
}

static void *run_driver(void *argument) {
    while (!atomic_load(&stop)) {
        struct rcuo_driver_turn turn;
        enum rcuo_answer answer = rcuo_driver_turn(argument, &turn);
        if (answer != RCUO_OK) fail("driver", answer);
        if (turn.step == RCUO_IDLE || turn.step == RCUO_WAITS) sched_yield();
    }
    return NULL;
}

/* Switches the offloaded processor to local and back until the updaters are done, and then waits for all that was removed. */
static void control(void) {
    for (unsigned turn = 0; atomic_load(&updaters_left); turn++) {
        enum rcuo_answer answer = turn % 2 ? rcuo_offload(&parts.control, OFFLOADED) : rcuo_deoffload(&parts.control, OFFLOADED);
        if (answer != RCUO_OK) fail("switch", answer);
        for (int i = 0; i < 64; i++) sched_yield();
    }
    struct rcuo_counts barrier;
    bool passed = false;
    enum rcuo_answer answer = rcuo_barrier(&parts.control, &barrier);
    while (answer == RCUO_OK && !passed) {
        answer = rcuo_poll(&parts.control, &barrier, &passed);
        sched_yield();
    }
    if (answer != RCUO_OK) fail("barrier", answer);
}

/* How many callbacks ran and how many came back, by what is left of the runtime. */
static void end(unsigned long *ran, unsigned long *back) {
    struct rcuo_record record;
    struct rcuo_job job;
    enum rcuo_answer answer = rcuo_close(&parts);
    if (answer != RCUO_OK) fail("close", answer);
    for (uint64_t p = 0; p < PROCESSORS; p++) {
        for (uint64_t at = 0; rcuo_next_ran(&parts, p, &at, &record) == RCUO_OK;) ++*ran;
        for (uint64_t at = 0; rcuo_next_back(&parts, p, &at, &job) == RCUO_OK; ++*back) job.function(job.argument);
    }
    rcuo_end(&parts);
}

int main(int argc, char **argv) {
    const uint64_t offloadable[] = {UINT64_C(1) << OFFLOADED};
    struct rcuo_settings settings = {
        .processors = PROCESSORS, .stride = 2, .blimit = 64, .qhimark = 100, .offloadable = offloadable, .records = 1};
    if (argc > 1) updates = strtoul(argv[1], NULL, 10);
    enum rcuo_answer answer = rcuo_open(&settings, &parts);
    if (answer != RCUO_OK) {
        fail("open", answer);
        return 1;
    }
    pthread_t threads[PROCESSORS + 3];
    int n = 0;
    for (int p = 0; p < PROCESSORS; p++) pthread_create(&threads[n++], NULL, p < READERS ? read_table : update_table, &parts.processors[p]);
    pthread_create(&threads[n++], NULL, run_hand, &parts.hands[OFFLOADED]);
    pthread_create(&threads[n++], NULL, run_group, &parts.groups[OFFLOADED / 2]);
    pthread_create(&threads[n++], NULL, run_driver, &parts.driver);
    control();
    atomic_store(&stop, true);
    for (int i = 0; i < n; i++) pthread_join(threads[i], NULL);
    unsigned long ran = 0, back = 0;
    end(&ran, &back);
    for (int b = 0; b < BUCKETS; b++) {
        for (struct node *node = table[b], *next; node; node = next) {
            next = node->next;
            free(node);
        }
    }
    printf("removed %lu, freed %lu, records %lu, handed back %lu, seen dead %lu\n", atomic_load(&removed), atomic_load(&freed), ran, back,
           atomic_load(&seen_dead));
    return atomic_load(&failed) || removed != freed || ran != removed || back || seen_dead;
}
