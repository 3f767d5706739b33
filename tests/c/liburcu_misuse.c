/*
 * What under liburcu's names has no answer, by a word each; liburcu.py looks what is said of it. liburcu itself says nothing, or aborts
 * where it was built to look.
 */
#include <urcu-qsbr.h>

#include <string.h>
#include <unistd.h>

static void wait_for_all(struct rcu_head *head) {
    (void)head;
    rcu_barrier();
}

static void register_again(struct rcu_head *head) {
    (void)head;
    rcu_register_thread();
}

int main(int count, char **words) {
    static struct rcu_head head;
    const char *word = count > 1 ? words[1] : "";
    if (!strcmp(word, "unregister")) rcu_unregister_thread();
    if (!strcmp(word, "report")) rcu_quiescent_state();
    if (!strcmp(word, "offline")) rcu_thread_offline();
    if (!strcmp(word, "online")) rcu_thread_online();
    if (!strcmp(word, "barrier")) call_rcu(&head, wait_for_all);
    if (!strcmp(word, "callback")) call_rcu(&head, register_again);
    if (!strcmp(word, "twice")) rcu_register_thread();
    if (!strcmp(word, "twice")) rcu_register_thread();
    rcu_barrier();
    return 0;
}
