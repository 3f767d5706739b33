/*
 * The law of the core, plain, over the history of a run: docs/specification/definitions.md, "The law" and "Agreeing".
 *
 * The history is that in the order of numbers, made of what close answers: each callback is accepted as late as its stamp lets it,
 * and runs as early as its sight lets it.
 */
#include <stdbool.h>
#include <stddef.h>
#include <stdint.h>
#include <string.h>

enum { LAW_CPUS = 5, LAW_CALLS = 64, LAW_BARRIERS = 32, LAW_MARKS = 4096 };

/* What is known of a processor at the end. The stamp of a callback that was handed back isn't: it gets the greatest number. */
struct account {
    uint64_t keys[LAW_CALLS], stamps[LAW_CALLS], accepted;
    uint64_t ran_keys[LAW_CALLS], readies[LAW_CALLS], ran;
    uint64_t back_keys[LAW_CALLS], back;
    uint64_t reports;
};

enum kind { ACCEPTED, REPORTED, RAN, OPENED, PASSED, SHUT, BACK };

struct mark {
    enum kind kind;
    uint64_t of, key; /* the processor, or the barrier; and the callback */
};

/* What is left of a run: the processors, the counts of each barrier that passed, and the history that is made of them. */
struct left {
    uint64_t processors, barriers, marks;
    struct account accounts[LAW_CPUS];
    uint64_t counts[LAW_BARRIERS][LAW_CPUS];
    bool opened[LAW_BARRIERS], passed[LAW_BARRIERS];
    struct mark history[LAW_MARKS];
};

static void law_mark(struct left *left, enum kind kind, uint64_t of, uint64_t key) {
    if (left->marks < LAW_MARKS) left->history[left->marks++] = (struct mark){kind, of, key};
}

/* How many grace periods have begun at a number. */
static uint64_t law_begun(uint64_t number) { return number / 4 + (number % 4 != 0); }

/* Behind how many grace periods, of these at most, the k-th callback is accepted: as many as had begun at its stamp, or at a later
 * one's, if that is less. */
static uint64_t law_accepted_at(const struct account *account, uint64_t k, uint64_t periods) {
    uint64_t least = periods;
    for (; k < account->accepted; k++) {
        if (law_begun(account->stamps[k]) < least) least = law_begun(account->stamps[k]);
    }
    return least;
}

/* Behind how many the k-th runs: as many as have a number below its sight, or below an earlier one's, if that is more. */
static uint64_t law_ran_at(const struct account *account, uint64_t k, uint64_t periods) {
    uint64_t most = 0;
    for (uint64_t i = 0; i <= k; i++) {
        uint64_t ready = account->readies[i];
        if (ready && law_begun(ready - 1) > most) most = law_begun(ready - 1);
    }
    return most < periods ? most : periods;
}

static void law_open(struct left *left, uint64_t b) {
    if (!left->opened[b]) law_mark(left, OPENED, b, 0);
    left->opened[b] = true;
}

/* Barriers open before the first callback that they don't count. */
static void law_accept(struct left *left, uint64_t p, uint64_t k) {
    for (uint64_t b = 0; b < left->barriers; b++) {
        if (left->counts[b][p] <= k) law_open(left, b);
    }
    law_mark(left, ACCEPTED, p, left->accounts[p].keys[k]);
}

/* Barriers pass when all that they count and that ever ran has run: so many of each processor. */
static void law_pass(struct left *left, const uint64_t *ran) {
    for (uint64_t b = 0; b < left->barriers; b++) {
        bool over = !left->passed[b];
        for (uint64_t p = 0; p < left->processors; p++) over = over && (ran[p] >= left->counts[b][p] || ran[p] == left->accounts[p].ran);
        if (!over) continue;
        law_open(left, b);
        law_mark(left, PASSED, b, 0);
        left->passed[b] = true;
    }
}

/* Makes the history. */
static void law_witness(struct left *left) {
    uint64_t periods = 0, ran[LAW_CPUS] = {0}, n = left->processors;
    left->marks = 0;
    for (uint64_t b = 0; b < left->barriers; b++) left->opened[b] = left->passed[b] = false;
    for (uint64_t p = 0; p < n; p++) {
        if (left->accounts[p].reports > periods) periods = left->accounts[p].reports;
    }
    for (uint64_t period = 0; period <= periods; period++) {
        for (uint64_t p = 0; p < n; p++) {
            const struct account *account = &left->accounts[p];
            for (uint64_t k = 0; k < account->accepted; k++) {
                if (law_accepted_at(account, k, periods) == period) law_accept(left, p, k);
            }
        }
        for (uint64_t p = 0; p < n; p++) {
            const struct account *account = &left->accounts[p];
            for (; ran[p] < account->ran && law_ran_at(account, ran[p], periods) == period; ran[p]++) law_mark(left, RAN, p, account->ran_keys[ran[p]]);
        }
        law_pass(left, ran);
        for (uint64_t q = 0; q < n; q++) {
            if (period < left->accounts[q].reports) law_mark(left, REPORTED, q, 0);
        }
    }
    for (uint64_t p = 0; p < n; p++) law_mark(left, SHUT, p, 0);
    for (uint64_t p = 0; p < n; p++) {
        for (uint64_t k = 0; k < left->accounts[p].back; k++) law_mark(left, BACK, p, left->accounts[p].back_keys[k]);
    }
}

/* Which law the history breaks; null where it is closed. */
static const char *law_broken(const struct left *left) {
    struct { uint64_t accepted, ran, back, reported, keys[LAW_CALLS], places[LAW_CALLS]; bool shut; } cpus[LAW_CPUS];
    uint64_t before[LAW_BARRIERS][LAW_CPUS];
    bool opened[LAW_BARRIERS] = {false};
    memset(cpus, 0, sizeof cpus);
    for (uint64_t place = 1; place <= left->marks; place++) {
        uint64_t of = left->history[place - 1].of, key = left->history[place - 1].key, k;
        switch (left->history[place - 1].kind) {
        case ACCEPTED:
            if (cpus[of].shut || cpus[of].accepted == LAW_CALLS) return "shut";
            cpus[of].keys[cpus[of].accepted] = key;
            cpus[of].places[cpus[of].accepted++] = place;
            break;
        case REPORTED: cpus[of].reported = place; break;
        case RAN:
            k = cpus[of].ran++;
            if (k >= cpus[of].accepted || cpus[of].keys[k] != key) return "ordered";
            for (uint64_t q = 0; q < left->processors; q++) {
                if (cpus[q].reported <= cpus[of].places[k]) return "graced";
            }
            break;
        case OPENED:
            if (opened[of]) return "opened";
            opened[of] = true;
            for (uint64_t p = 0; p < left->processors; p++) before[of][p] = cpus[p].accepted;
            break;
        case PASSED:
            if (!opened[of]) return "opened";
            for (uint64_t p = 0; p < left->processors; p++) {
                if (cpus[p].ran < before[of][p]) return "barred";
            }
            break;
        case SHUT: cpus[of].shut = true; break;
        case BACK:
            k = cpus[of].ran + cpus[of].back++;
            if (!cpus[of].shut || k >= cpus[of].accepted || cpus[of].keys[k] != key) return "settled";
            break;
        }
    }
    for (uint64_t p = 0; p < left->processors; p++) {
        if (cpus[p].accepted != cpus[p].ran + cpus[p].back) return "settled";
    }
    return NULL;
}
