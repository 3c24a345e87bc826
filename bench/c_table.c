// The table as programs in C call it: what `bench/measure_c` compares with the plain table. It makes the same calls as
// bench/plain_table.rs, in the same order, and writes the same lines: the bytes of a key and of a value, the pairs, what
// was done, the threads, the calls of each, the microseconds that they took, and how many found a value.
#include "bihash.h"
#include <pthread.h>
#include <stdio.h>
#include <string.h>
#include <time.h>

enum { MOST_THREADS = 4, OWN_KEYS = 512 };
enum mix { HITS, MISSES, OVERWRITES, CHURN };

#ifndef CALLS
#define CALLS 4000000
#endif
static const uint64_t ABSENT = UINT64_C(1) << 40;

static inline bihash_key numbered(uint64_t number) {
    uint64_t first = number * UINT64_C(0x9e3779b97f4a7c15);
    bihash_key key = {{first, number, first, number, first}};
    return key;
}

static uint64_t microseconds(void) {
    struct timespec now;
    clock_gettime(CLOCK_MONOTONIC, &now);
    return (uint64_t)now.tv_sec * 1000000 + (uint64_t)now.tv_nsec / 1000;
}

// The bytes of a key and of a value.
static const char *shape;

struct share {
    bihash_handle caller;
    enum mix mix;
    uint64_t pairs, calls, number, found;
};

static inline uint64_t work(struct share *s, enum mix mix) {
    bihash_handle *caller = &s->caller;
    uint64_t own = (s->number + 2) << 40, random = s->number, found = 0;
    bihash_key key;
    for (uint64_t index = 0; index < s->calls; index++) {
        random = random * UINT64_C(6364136223846793005) + UINT64_C(1442695040888963407);
        uint64_t stored = ((random >> 33) * s->pairs) >> 31, half = index / 2;
        if (mix == HITS || (mix == OVERWRITES && index % 20 != 0)) {
            key = numbered(stored);
            found += bihash_search_wait(caller, &key).kind == BIHASH_FOUND;
        } else if (mix == MISSES) {
            key = numbered(stored + ABSENT);
            found += bihash_search_wait(caller, &key).kind == BIHASH_FOUND;
        } else if (mix == OVERWRITES) {
            key = numbered(stored);
            found += bihash_add_wait(caller, &key, index).kind == BIHASH_REPLACED;
        } else if (index % 2 == 0) {
            key = numbered(own + half % OWN_KEYS);
            found += bihash_add_wait(caller, &key, half).kind == BIHASH_REPLACED;
        } else {
            key = numbered(own + (half + OWN_KEYS / 2) % OWN_KEYS);
            found += bihash_remove_wait(caller, &key).kind == BIHASH_REPLACED;
        }
    }
    return found;
}

static void *run(void *given) {
    struct share *s = given;
    switch (s->mix) {
    case HITS: s->found = work(s, HITS); break;
    case MISSES: s->found = work(s, MISSES); break;
    case OVERWRITES: s->found = work(s, OVERWRITES); break;
    case CHURN: s->found = work(s, CHURN); break;
    }
    return NULL;
}

static int line(struct share *shares, int threads, uint64_t pairs, enum mix mix, const char *what) {
    pthread_t running[MOST_THREADS];
    uint64_t calls = CALLS / (uint64_t)threads, found = 0, start = microseconds();
    for (int i = 0; i < threads; i++) {
        struct share *s = &shares[i];
        s->mix = mix, s->pairs = pairs, s->calls = calls, s->number = (uint64_t)i;
        if (i && pthread_create(&running[i], NULL, run, s)) return 1;
    }
    run(&shares[0]);
    for (int i = 1; i < threads; i++) pthread_join(running[i], NULL);
    for (int i = 0; i < threads; i++) found += shares[i].found;
    printf("%s %llu %s %d %llu %llu %llu\n", shape, (unsigned long long)pairs, what, threads,
           (unsigned long long)calls, (unsigned long long)(microseconds() - start), (unsigned long long)found);
    return 0;
}

static int table(uint32_t words, uint64_t pairs, int most_threads) {
    bihash_options options = BIHASH_OPTIONS(words, BIHASH_STANDARD);
    struct share shares[MOST_THREADS];
    uint64_t entered = 0;
    memset(shares, 0, sizeof shares);
    if (bihash_create(&shares[0].caller, &options)) return 1;
    for (int i = 1; i < MOST_THREADS; i++)
        if (bihash_split_wait(&shares[0].caller, &shares[i].caller)) return 1;
    for (; entered < pairs; entered++) {
        bihash_key key = numbered(entered);
        if (bihash_add_wait(&shares[0].caller, &key, entered).kind != BIHASH_ADDED) break;
    }
    for (int threads = 1; threads <= most_threads; threads++)
        if (line(shares, threads, entered, HITS, "hit")) return 1;
    if (line(shares, 1, entered, MISSES, "absent") || line(shares, 1, entered, OVERWRITES, "overwrite") ||
        line(shares, 1, entered, CHURN, "churn"))
        return 1;
    for (int i = MOST_THREADS - 1; i >= 0; i--) bihash_free(&shares[i].caller);
    return 0;
}

int main(int count, char **words) {
    shape = count == 2 ? words[1] : "";
    int is_two = !strcmp(shape, "16_8"), is_five = !strcmp(shape, "40_8");
    uint32_t key_words = is_two ? 2 : 5;
    if (is_two || is_five) return table(key_words, 4096, 1) || table(key_words, 10000, 4);
    fprintf(stderr, "name the bytes of a key and of a value: 16_8 or 40_8\n");
    return 2;
}
