// Four threads share one table of each kind. Each adds its own keys, adds keys that all add, loads ahead, finds, touches
// and removes some; callers meet, and the pairs of the closed table are looked at one by one. What came of it is written in
// a line a table; ends with 0 where all is right.
#include "bihash.h"
#include <pthread.h>
#include <stdio.h>
#include <stdlib.h>
#include <string.h>

enum { THREADS = 4, OWN = 1000, SHARED = 500, ROUNDS = 20, MOST_AHEAD = 70 };

static long wrong;

static void wrong_answer(const char *what, uint64_t n, uint32_t kind) {
    __atomic_add_fetch(&wrong, 1, __ATOMIC_SEQ_CST);
    fprintf(stderr, "%s of %llu answered %u\n", what, (unsigned long long)n, kind);
}

static void expect(int holds, const char *what, uint64_t n, bihash_answer answer) {
    if (!holds) wrong_answer(what, n, answer.kind);
}

// The kind of table that is called just now.
static bihash_options kind;

// What stands behind the words that the table's keys have is another thing each time.
static bihash_key key_of(uint64_t n) {
    static _Thread_local uint64_t other;
    bihash_key key = {{0}};
    for (uint32_t i = kind.words; i < 5; i++) key.words[i] = ++other;
    key.words[0] = (UINT64_C(0x0a000000) + n) << 32 | UINT64_C(0xc0a80001);
    key.words[kind.words - 1] = (1024 + n % 60000) << 48 | UINT64_C(443) << 32 | UINT64_C(6) << 24;
    return key;
}

static uint64_t own_key(int number, int i) { return 100000 + (uint64_t)number * 10000 + (uint64_t)i; }

struct worker {
    bihash_handle caller;
    int number;
    long added;
};

static void fill(struct worker *w) {
    bihash_key key;
    bihash_answer a;
    for (int i = 0; i < OWN; i++) {
        uint64_t n = own_key(w->number, i);
        key = key_of(n);
        a = bihash_search_wait(&w->caller, &key);
        expect(a.kind == BIHASH_ABSENT, "search before", n, a);
        a = bihash_touch_wait(&w->caller, &key, 7);
        expect(a.kind == BIHASH_ABSENT, "touch of an absent key", n, a);
        a = bihash_remove_wait(&w->caller, &key);
        expect(a.kind == BIHASH_ABSENT, "remove of an absent key", n, a);
        a = bihash_add_wait(&w->caller, &key, (uint64_t)i + 1);
        expect(a.kind == BIHASH_ADDED, "add", n, a);
    }
    for (int i = 0; i < SHARED; i++) {
        key = key_of((uint64_t)i);
        a = bihash_add_if_absent_wait(&w->caller, &key, 1000 + (uint64_t)w->number);
        expect(a.kind == BIHASH_ADDED || (a.kind == BIHASH_FOUND && a.value >= 1000 && a.value < 1000 + THREADS),
               "add if absent", (uint64_t)i, a);
        w->added += a.kind == BIHASH_ADDED;
    }
}

// Keys of all numbers, which end where their memory ends: valgrind sees a read behind them.
static void look_ahead(bihash_handle *caller) {
    for (size_t count = 0; count <= MOST_AHEAD; count++) {
        bihash_key *keys = malloc(count * sizeof *keys + !count);
        if (!keys) return wrong_answer("memory", count, 0);
        for (size_t i = 0; i < count; i++) keys[i] = key_of(i);
        bihash_look_ahead(caller, keys, count);
        free(keys);
    }
}

static void *work(void *given) {
    struct worker *w = given;
    bihash_key key;
    bihash_answer a;
    fill(w);
    look_ahead(&w->caller);
    for (int round = 0; round < ROUNDS; round++)
        for (int i = 0; i < OWN; i++) {
            uint64_t n = own_key(w->number, i), was = (uint64_t)(i + 1 + round);
            key = key_of(n);
            a = bihash_search_wait(&w->caller, &key);
            expect(a.kind == BIHASH_FOUND && a.value == was, "search", n, a);
            a = bihash_touch_wait(&w->caller, &key, was + 1);
            expect(a.kind == BIHASH_REPLACED && a.value == was, "touch", n, a);
            key = key_of((uint64_t)(i % SHARED));
            a = bihash_search_wait(&w->caller, &key);
            expect(a.kind == BIHASH_FOUND, "search of a shared key", (uint64_t)i, a);
        }
    for (int i = 1; i < OWN; i += 2) {
        uint64_t n = own_key(w->number, i);
        key = key_of(n);
        a = bihash_remove_wait(&w->caller, &key);
        expect(a.kind == BIHASH_REPLACED && a.value == (uint64_t)i + 1 + ROUNDS, "remove", n, a);
    }
    return NULL;
}

// The pairs are those that are left, in the order of the keys. Words that the table's keys don't have are 0.
static uint64_t pairs(bihash_handle *table) {
    bihash_pair pair, before;
    uint64_t count = 0;
    memset(&before, 0, sizeof before);
    for (; bihash_pair_at(table, count, &pair); count++) {
        uint64_t n = (pair.key.words[0] >> 32) - 0x0a000000;
        bihash_key key = key_of(n);
        for (uint32_t i = kind.words; i < 5; i++) key.words[i] = 0;
        uint64_t i = n < SHARED ? 0 : (n - 100000) % 10000;
        int right = n < SHARED ? pair.value >= 1000 && pair.value < 1000 + THREADS
                               : i % 2 == 0 && i < OWN && pair.value == i + 1 + ROUNDS;
        if (!right || memcmp(&key, &pair.key, sizeof key)) wrong_answer("pair", n, 0);
        if (count && before.key.words[0] >= pair.key.words[0]) wrong_answer("order", n, 0);
        before = pair;
    }
    if (count != bihash_pair_count(table)) wrong_answer("count", count, 0);
    return count;
}

static int run(uint32_t words, uint32_t tables) {
    struct worker workers[THREADS];
    pthread_t threads[THREADS];
    bihash_handle first;
    long added = 0;
    memset(workers, 0, sizeof workers);
    kind = (bihash_options)BIHASH_OPTIONS(words, tables);
    if (bihash_create(&first, &kind)) return 2;
    if (!bihash_is_lone(&first) || bihash_stamp_of(&first).known) return 3;
    for (int t = 0; t < THREADS; t++) {
        workers[t].number = t;
        if (bihash_split_wait(&first, &workers[t].caller)) return 4;
    }
    for (int t = 0; t < THREADS; t++)
        if (pthread_create(&threads[t], NULL, work, &workers[t])) return 5;
    for (int t = 0; t < THREADS; t++) pthread_join(threads[t], NULL);
    if (bihash_is_lone(&first) || bihash_close(&first) != BIHASH_STRANGERS || bihash_renew(&first) != BIHASH_STRANGERS)
        return 6;
    bihash_meet(&first, &workers[0].caller);
    for (int t = 0; t < THREADS; t++) {
        added += workers[t].added;
        bihash_join(&first, &workers[t].caller);
    }
    if (!bihash_is_lone(&first) || bihash_renew(&first)) return 7;
    bihash_key key = key_of(own_key(1, 2));
    bihash_answer a = bihash_search(&first, &key);
    expect(a.kind == BIHASH_FOUND && a.value == 3 + ROUNDS, "search after renewal", 2, a);
    bihash_stamp stamp = bihash_stamp_of(&first);
    if (!stamp.known || stamp.stamp) return 8;
    if (bihash_close(&first)) return 9;
    uint64_t count = pairs(&first), wanted = THREADS * (OWN / 2) + SHARED;
    bihash_free(&first);
    printf("keys of %u words: %llu pairs of %llu, %ld of %d shared keys added once\n", words, (unsigned long long)count,
           (unsigned long long)wanted, added, SHARED);
    return count != wanted || added != SHARED;
}

int main(void) {
    int ends[] = {run(2, BIHASH_STANDARD), run(5, BIHASH_STANDARD), run(2, BIHASH_LARGE), run(5, BIHASH_LARGE)};
    for (int i = 0; i < 4; i++)
        if (ends[i]) wrong_answer("table", (uint64_t)i, (uint32_t)ends[i]);
    return wrong != 0;
}
