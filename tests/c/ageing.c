// Four threads share a table with keys of two words, and then one with keys of five, and age it. Every call adds a key that
// no other call has, of which few are live at a time, and then looks at some buckets for pairs whose time is over. In a
// table where these stayed the pages would soon be used up; here each key finds room, each pair that was added goes once,
// and pairs that are kept stay. Takes the number of calls, 1,000,000 by default. What came of it is written in a line a
// table; ends with 0 where all is right.
#include "bihash.h"
#include <pthread.h>
#include <stdatomic.h>
#include <stdio.h>
#include <stdlib.h>
#include <string.h>

// The second rises by one every PACE calls of all threads, and a pair is over after TIMEOUT seconds. A call looks at LOOKS
// buckets behind the ones that its thread looked at before.
enum { THREADS = 4, KEPT = 600, PACE = 250, TIMEOUT = 2, LOOKS = 2 };

static uint64_t calls = 1000000;
static atomic_long wrong;
static atomic_uint_fast64_t made;

static void expect(int holds, const char *what, uint64_t n, bihash_answer answer) {
    if (holds) return;
    if (!atomic_fetch_add(&wrong, 1)) fprintf(stderr, "%s of %llu answered %u\n", what, (unsigned long long)n, answer.kind);
}

// The kind of table that is called just now, and how many buckets it has.
static bihash_options kind;
static uint64_t buckets;

static bihash_key key_of(uint64_t n) {
    bihash_key key = {{n << 32 | UINT64_C(0xc0a80001)}};
    key.words[kind.words - 1] = (n >> 32) << 48 | UINT64_C(443) << 32 | UINT64_C(6) << 24;
    return key;
}

struct worker {
    bihash_handle caller;
    uint64_t number, went;
};

static void *work(void *given) {
    struct worker *w = given;
    bihash_key key;
    uint64_t bucket = w->number * (buckets / THREADS), n;
    while ((n = atomic_fetch_add(&made, 1)) < calls) {
        uint32_t second = (uint32_t)(n / PACE);
        bihash_expiry expiry = bihash_expiry_at(second, TIMEOUT);
        key = key_of(KEPT + n);
        bihash_answer a = bihash_add_wait(&w->caller, &key, second);
        expect(a.kind == BIHASH_ADDED, "add", n, a);
        w->went += bihash_sweep_wait(&w->caller, bucket, bucket + LOOKS, &expiry);
        bucket = (bucket + LOOKS) % buckets;
        key = key_of(n % KEPT);
        a = bihash_search_wait(&w->caller, &key);
        expect(a.kind == BIHASH_FOUND && a.value == UINT32_MAX, "search of a kept pair", n % KEPT, a);
    }
    return NULL;
}

static int run(uint32_t words, uint64_t count) {
    struct worker workers[THREADS];
    pthread_t threads[THREADS];
    bihash_handle first;
    uint64_t went = 0;
    kind = (bihash_options)BIHASH_OPTIONS(words, BIHASH_STANDARD);
    buckets = count;
    atomic_store(&made, 0);
    memset(workers, 0, sizeof workers);
    if (bihash_create(&first, &kind)) return 2;
    for (uint64_t n = 0; n < KEPT; n++) {
        bihash_key key = key_of(n);
        if (bihash_add(&first, &key, UINT32_MAX).kind != BIHASH_ADDED) return 3;
    }
    for (uint64_t t = 0; t < THREADS; t++) {
        workers[t].number = t;
        if (bihash_split_wait(&first, &workers[t].caller)) return 4;
    }
    for (int t = 0; t < THREADS; t++)
        if (pthread_create(&threads[t], NULL, work, &workers[t])) return 5;
    for (int t = 0; t < THREADS; t++) pthread_join(threads[t], NULL);
    for (int t = 0; t < THREADS; t++) {
        went += workers[t].went;
        bihash_join(&first, &workers[t].caller);
    }
    bihash_expiry all = {UINT32_MAX, UINT32_MAX};
    went += bihash_sweep_wait(&first, 0, buckets, &all);
    if (bihash_sweep_wait(&first, 0, 2 * buckets, &all)) return 6;
    if (bihash_close(&first)) return 7;
    uint64_t left = bihash_pair_count(&first);
    bihash_free(&first);
    printf("keys of %u words: %llu of %llu pairs went, %llu of %d stayed\n", words, (unsigned long long)went,
           (unsigned long long)calls, (unsigned long long)left, KEPT);
    return went != calls || left != KEPT;
}

int main(int count, char **words) {
    if (count > 1) calls = strtoull(words[1], NULL, 10);
    int ends[] = {run(2, BIHASH_BUCKETS_OF_TWO), run(5, BIHASH_BUCKETS_OF_FIVE)};
    for (int i = 0; i < 2; i++)
        if (ends[i]) fprintf(stderr, "table %d: %d\n", i, ends[i]);
    return ends[0] || ends[1] || atomic_load(&wrong);
}
