/*
 * A program of liburcu's QSBR flavour, which liburcu.py builds over liburcu and over rcuo: threads that come and go fill and
 * empty a hash table of liburcu's, which grows and shrinks meanwhile, and free its nodes by call_rcu; a callback calls again with
 * its own head and waits for grace periods, for many the first time; and functions are deferred. It prints how many of each there
 * were.
 *
 *     liburcu [THREADS] [ROUNDS] [AT_ONCE] [WAITS]
 */
#include <urcu-qsbr.h>

#include <urcu/rculfhash.h>

#include <pthread.h>
#include <stdio.h>
#include <stdlib.h>

enum { MOST_AT_ONCE = 1000, KEYS = 256, POISON = 0xdead };

struct entry {
    struct cds_lfht_node node;
    struct rcu_head head;
    unsigned long key, alive;
};

static struct cds_lfht *table;
static unsigned long rounds, added, freed, looked_up, dead, deferred;

static unsigned long one_more(unsigned long *count) {
    return __atomic_add_fetch(count, 1, __ATOMIC_SEQ_CST);
}

static void free_entry(struct rcu_head *head) {
    struct entry *entry = caa_container_of(head, struct entry, head);
    __atomic_store_n(&entry->alive, POISON, __ATOMIC_SEQ_CST);
    free(entry);
    one_more(&freed);
}

static int is_key(struct cds_lfht_node *node, const void *key) {
    return caa_container_of(node, struct entry, node)->key == *(const unsigned long *)key;
}

static unsigned long hash(unsigned long key) {
    return key * 0x9e3779b97f4a7c15UL >> 16;
}

static void add_entry(unsigned long key) {
    struct entry *entry = malloc(sizeof *entry);
    if (!entry) abort();
    cds_lfht_node_init(&entry->node);
    entry->key = key;
    entry->alive = 1;
    cds_lfht_add(table, hash(key), &entry->node);
    one_more(&added);
}

/* Within a read section. Answers whether there was one. */
static int remove_entry(unsigned long key) {
    struct cds_lfht_iter iter;
    cds_lfht_lookup(table, hash(key), is_key, &key, &iter);
    struct cds_lfht_node *node = cds_lfht_iter_get_node(&iter);
    if (!node) return 0;
    struct entry *entry = caa_container_of(node, struct entry, node);
    if (__atomic_load_n(&entry->alive, __ATOMIC_SEQ_CST) != 1) one_more(&dead);
    one_more(&looked_up);
    if (cds_lfht_del(table, node) == 0) call_rcu(&entry->head, free_entry);
    return 1;
}

static void count_deferred(void *count) {
    one_more(count);
}

static void *come_and_go(void *argument) {
    unsigned long number = *(unsigned long *)argument;
    /* (who is online may not wait for liburcu's lock of deferred calls, whose owner may wait for a grace period) */
    if (rcu_defer_register_thread()) abort();
    rcu_register_thread();
    for (unsigned long i = 0; i < rounds; i++) {
        rcu_read_lock();
        if (!remove_entry((number + i * 7) % KEYS)) add_entry((number + i * 7) % KEYS);
        add_entry((number * 31 + i) % KEYS);
        remove_entry((i * 13) % KEYS);
        rcu_read_unlock();
        rcu_quiescent_state();
    }
    defer_rcu(count_deferred, &deferred);
    if (number % 4 == 0) synchronize_rcu();
    rcu_unregister_thread();
    rcu_defer_unregister_thread();
    return NULL;
}

static unsigned long again, many_again = 20, waits;

static void call_again(struct rcu_head *head) {
    for (unsigned long i = 0; i < waits; i++) synchronize_rcu();
    waits = 1;
    if (one_more(&again) < many_again) call_rcu(head, call_again);
}

static unsigned long empty_table(void) {
    struct cds_lfht_iter iter;
    struct cds_lfht_node *node;
    unsigned long left = 0;
    rcu_read_lock();
    cds_lfht_for_each(table, &iter, node) {
        if (cds_lfht_del(table, node) == 0) {
            call_rcu(&caa_container_of(node, struct entry, node)->head, free_entry);
            left++;
        }
    }
    rcu_read_unlock();
    return left;
}

static unsigned long word_of(int count, char **words, int word, unsigned long otherwise) {
    return count > word ? strtoul(words[word], NULL, 10) : otherwise;
}

int main(int count, char **words) {
    static unsigned long numbers[MOST_AT_ONCE];
    static struct rcu_head head;
    static pthread_t threads[MOST_AT_ONCE];
    unsigned long many = word_of(count, words, 1, 40), at_once = word_of(count, words, 3, 4);
    rounds = word_of(count, words, 2, 2000);
    waits = word_of(count, words, 4, 1);
    if (at_once == 0 || at_once > MOST_AT_ONCE) return 1;
    table = cds_lfht_new(1, 1, 0, CDS_LFHT_AUTO_RESIZE | CDS_LFHT_ACCOUNTING, NULL);
    if (!table) return 1;
    call_rcu(&head, call_again);
    for (unsigned long i = 0; i < many + at_once; i++) {
        if (i >= at_once) pthread_join(threads[i % at_once], NULL);
        numbers[i % at_once] = i;
        if (i < many && pthread_create(&threads[i % at_once], NULL, come_and_go, &numbers[i % at_once])) return 1;
    }
    while (__atomic_load_n(&again, __ATOMIC_SEQ_CST) < many_again) synchronize_rcu();
    rcu_register_thread();
    empty_table();
    rcu_unregister_thread();
    rcu_barrier();
    if (cds_lfht_destroy(table, NULL)) return 1;
    printf("threads %lu, deferred %lu, called again %lu, lost %lu, dead %lu, looked up %s\n", many, deferred, again, added - freed, dead,
           looked_up ? "some" : "none");
    return added != freed || dead;
}
