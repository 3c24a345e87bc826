// Four threads count in one pair of each kind of table, and in pairs of their own besides: each searches, and
// replaces the value that it found where that is still there. No step is lost. Values are replaced only where they
// are what was said, each call is in the bucket that is told of its key, and pairs go at their deadlines. What came
// of it is written in a line a table; ends with 0 where all is right.
#include "bihash.h"
#include <pthread.h>
#include <stdatomic.h>
#include <stdio.h>
#include <string.h>

enum { THREADS = 4, STEPS = 20000, PAIRS = 1000 };

static atomic_long wrong;

static void expect(int holds, const char *what) {
    if (!holds && !atomic_fetch_add(&wrong, 1)) fprintf(stderr, "%s\n", what);
}

static bihash_key key_of(uint64_t n) {
    bihash_key key;
    for (uint64_t i = 0; i < 5; i++) key.words[i] = n * 7919 + i;
    return key;
}

static int is(bihash_answer answer, uint32_t kind, uint64_t value) {
    return answer.kind == kind && answer.value == value;
}

static void *count(void *given) {
    bihash_handle *caller = given;
    bihash_key key = key_of(0);
    for (int step = 0; step < STEPS; step++) {
        bihash_answer found = bihash_search_wait(caller, &key);
        while (found.kind == BIHASH_FOUND) {
            uint64_t was = found.value;
            found = bihash_replace_if_wait(caller, &key, was, was + 1);
            if (found.kind == BIHASH_REPLACED) expect(found.value == was, "another value was replaced");
        }
        expect(found.kind == BIHASH_REPLACED, "no value is there");
    }
    return NULL;
}

static void look(bihash_handle *caller, const bihash_options *kind, uint64_t buckets) {
    for (uint64_t n = 1; n <= PAIRS; n++) {
        bihash_key key = key_of(n);
        expect(is(bihash_replace_if(caller, &key, 0, 7), BIHASH_ABSENT, 0), "a replacement without a value");
        expect(bihash_add(caller, &key, n).kind == BIHASH_ADDED, "add");
        expect(is(bihash_replace_if(caller, &key, n + 1, 7), BIHASH_FOUND, n), "a replacement of another value");
        expect(is(bihash_replace_if(caller, &key, n, n), BIHASH_FOUND, n), "a replacement by the same value");
        expect(is(bihash_replace_if(caller, &key, n, 2 * n), BIHASH_REPLACED, n), "a replacement");
        expect(is(bihash_search(caller, &key), BIHASH_FOUND, 2 * n), "search");
        uint64_t bucket = bihash_bucket_of(kind, &key);
        expect(bucket < buckets && bihash_stamp_of(caller).bucket == bucket, "a bucket");
    }
    bihash_expiry before = bihash_expiry_of_deadlines(PAIRS - 1), then = bihash_expiry_of_deadlines(PAIRS);
    expect(bihash_sweep_wait(caller, 0, buckets, &before) == PAIRS / 2 - 1, "the deadlines before");
    expect(bihash_sweep_wait(caller, 0, buckets, &then) == 1, "a deadline");
}

static int run(uint32_t words, uint32_t tables, uint64_t buckets) {
    bihash_options kind = BIHASH_OPTIONS(words, tables);
    bihash_handle table = BIHASH_NO_HANDLE, callers[THREADS];
    pthread_t threads[THREADS];
    if (bihash_create(&table, &kind)) return 2;
    look(&table, &kind, buckets);
    bihash_key key = key_of(0);
    if (bihash_add(&table, &key, PAIRS).kind != BIHASH_ADDED) return 3;
    for (int t = 0; t < THREADS; t++)
        if (bihash_split_wait(&table, &callers[t])) return 4;
    for (int t = 0; t < THREADS; t++)
        if (pthread_create(&threads[t], NULL, count, &callers[t])) return 5;
    for (int t = 0; t < THREADS; t++) pthread_join(threads[t], NULL);
    for (int t = 0; t < THREADS; t++) bihash_join(&table, &callers[t]);
    uint64_t steps = bihash_search(&table, &key).value - PAIRS;
    bihash_free(&table);
    printf("keys of %u words: %llu of %d steps\n", words, (unsigned long long)steps, THREADS * STEPS);
    return steps != THREADS * STEPS;
}

int main(void) {
    int ends[] = {run(2, BIHASH_STANDARD, BIHASH_BUCKETS_OF_TWO), run(5, BIHASH_STANDARD, BIHASH_BUCKETS_OF_FIVE),
                  run(2, BIHASH_LARGE, BIHASH_LARGE_BUCKETS), run(5, BIHASH_LARGE, BIHASH_LARGE_BUCKETS)};
    for (int i = 0; i < 4; i++)
        if (ends[i]) fprintf(stderr, "table %d: %d\n", i, ends[i]);
    return ends[0] || ends[1] || ends[2] || ends[3] || atomic_load(&wrong);
}
