// Searches in a table of many pairs with keys of two words, for bench/measure_large: in a large table of the library for C,
// or with PEER_RTE in DPDK's rte_hash, with PEER_LFHT in liburcu's cds_lfht. It enters the pairs that it is told to, as
// many as the table takes, and writes lines: the pairs, what was searched (in bursts of 32 stored keys: they are looked at
// ahead, and then each is searched, or DPDK's rte_hash_lookup_bulk_data searches them), the threads, the calls of each, the
// microseconds that they took, and how many found a value.
#include <pthread.h>
#include <stdint.h>
#include <stdio.h>
#include <stdlib.h>
#include <time.h>

enum { THREADS = 4, CALLS = 2000000, BURST = 32 };
static const uint64_t ABSENT = UINT64_C(1) << 40;

#if defined(PEER_RTE)

#include <rte_eal.h>
#include <rte_hash.h>
#include <rte_hash_crc.h>

static struct rte_hash *table;

static int make(uint64_t pairs) {
    char *words[] = {"large_table", "--no-huge", "--no-pci", "--no-telemetry", "--log-level=1", "-m", "1024", "-l", "0"};
    struct rte_hash_parameters how = {.name = "large", .entries = (uint32_t)(pairs * 2), .key_len = 16,
                                      .hash_func = rte_hash_crc, .extra_flag = RTE_HASH_EXTRA_FLAGS_RW_CONCURRENCY_LF};
    return rte_eal_init(9, words) < 0 || !(table = rte_hash_create(&how));
}
static int split(int thread) { return (void)thread, 0; }
static void begin(void) {}
static void end(void) {}
static int enter(const uint64_t *key, uint64_t value) {
    return rte_hash_add_key_data(table, key, (void *)(uintptr_t)value) == 0;
}
static inline int search(int thread, const uint64_t *key) {
    void *value;
    return (void)thread, rte_hash_lookup_data(table, key, &value) >= 0;
}

#define IN_BURSTS

static inline uint64_t search_burst(int thread, uint64_t keys[][2]) {
    const void *places[BURST];
    void *values[BURST];
    uint64_t found = 0;
    for (int k = 0; k < BURST; k++) places[k] = keys[k];
    rte_hash_lookup_bulk_data(table, places, BURST, &found, values);
    return (void)thread, (uint64_t)__builtin_popcountll(found);
}

#elif defined(PEER_LFHT)

#define URCU_INLINE_SMALL_FUNCTIONS
#include <urcu-qsbr.h>
#include <urcu/rculfhash.h>

struct pair {
    struct cds_lfht_node node;
    uint64_t key[2], value;
};
static struct cds_lfht *table;

static uint64_t mix(uint64_t z) {
    z = (z ^ z >> 30) * UINT64_C(0xbf58476d1ce4e5b9);
    z = (z ^ z >> 27) * UINT64_C(0x94d049bb133111eb);
    return z ^ z >> 31;
}
static unsigned long hash_of(const uint64_t *key) { return mix(mix(key[0]) ^ key[1]); }
static int is_pair(struct cds_lfht_node *node, const void *given) {
    const uint64_t *key = given;
    struct pair *pair = caa_container_of(node, struct pair, node);
    return pair->key[0] == key[0] && pair->key[1] == key[1];
}
static void begin(void) { rcu_register_thread(); }
static void end(void) { rcu_unregister_thread(); }
static int make(uint64_t pairs) {
    unsigned long buckets = 1;
    while (buckets < pairs) buckets *= 2;
    begin();
    table = cds_lfht_new(buckets, 1, 0, CDS_LFHT_AUTO_RESIZE, NULL);
    return !table;
}
static int split(int thread) { return (void)thread, 0; }
static int enter(const uint64_t *key, uint64_t value) {
    struct pair *pair = malloc(sizeof *pair);
    if (!pair) return 0;
    *pair = (struct pair){.key = {key[0], key[1]}, .value = value};
    return cds_lfht_add_unique(table, hash_of(key), is_pair, key, &pair->node) == &pair->node;
}
static inline int search(int thread, const uint64_t *key) {
    struct cds_lfht_iter found;
    cds_lfht_lookup(table, hash_of(key), is_pair, key, &found);
    rcu_quiescent_state();
    return (void)thread, cds_lfht_iter_get_node(&found) != NULL;
}

#else

#include "bihash.h"

static bihash_handle callers[THREADS];

static int make(uint64_t pairs) {
    bihash_options options = BIHASH_OPTIONS(2, BIHASH_LARGE);
    return (void)pairs, bihash_create(&callers[0], &options) != BIHASH_DONE;
}
static int split(int thread) { return bihash_split_wait(&callers[0], &callers[thread]) != BIHASH_DONE; }
static void begin(void) {}
static void end(void) {}
static inline bihash_key key_of(const uint64_t *words) {
    bihash_key key;
    key.words[0] = words[0], key.words[1] = words[1];
    return key;
}
static int enter(const uint64_t *words, uint64_t value) {
    bihash_key key = key_of(words);
    return bihash_add_wait(&callers[0], &key, value).kind == BIHASH_ADDED;
}
static inline int search(int thread, const uint64_t *words) {
    bihash_key key = key_of(words);
    return bihash_search_wait(&callers[thread], &key).kind == BIHASH_FOUND;
}

#define IN_BURSTS

static inline uint64_t search_burst(int thread, uint64_t words[][2]) {
    bihash_key keys[BURST];
    uint64_t found = 0;
    for (int k = 0; k < BURST; k++) keys[k] = key_of(words[k]);
    bihash_look_ahead(&callers[thread], keys, BURST);
    for (int k = 0; k < BURST; k++) found += bihash_search_wait(&callers[thread], &keys[k]).kind == BIHASH_FOUND;
    return found;
}

#endif

static void numbered(uint64_t number, uint64_t key[2]) {
    key[0] = number * UINT64_C(0x9e3779b97f4a7c15);
    key[1] = number;
}

static uint64_t microseconds(void) {
    struct timespec now;
    clock_gettime(CLOCK_MONOTONIC, &now);
    return (uint64_t)now.tv_sec * 1000000 + (uint64_t)now.tv_nsec / 1000;
}

struct share {
    int thread, in_bursts;
    uint64_t from, pairs, calls, random, found;
};

static inline void next_key(struct share *share, uint64_t key[2]) {
    share->random = share->random * UINT64_C(6364136223846793005) + UINT64_C(1442695040888963407);
    numbered(share->from + (((share->random >> 33) * share->pairs) >> 31), key);
}

static void work(struct share *share) {
    uint64_t key[2];
    for (uint64_t i = 0; i < share->calls; i++) {
        next_key(share, key);
        share->found += (uint64_t)search(share->thread, key);
    }
}

#ifdef IN_BURSTS
static void work_in_bursts(struct share *share) {
    uint64_t keys[BURST][2];
    for (uint64_t i = 0; i < share->calls; i += BURST) {
        for (int k = 0; k < BURST; k++) next_key(share, keys[k]);
        share->found += search_burst(share->thread, keys);
    }
}
#else
static void work_in_bursts(struct share *share) { work(share); }
#endif

static void *run(void *given) {
    struct share *share = given;
    begin();
    share->in_bursts ? work_in_bursts(share) : work(share);
    end();
    return NULL;
}

static int line(uint64_t pairs, int threads, const char *what, uint64_t from, int in_bursts) {
    pthread_t running[THREADS];
    struct share shares[THREADS];
    uint64_t calls = CALLS / (uint64_t)threads, found = 0, start = microseconds();
    for (int i = 0; i < threads; i++) {
        shares[i] = (struct share){
            .thread = i, .in_bursts = in_bursts, .from = from, .pairs = pairs, .calls = calls, .random = (uint64_t)i};
        if (i && pthread_create(&running[i], NULL, run, &shares[i])) return 1;
    }
    in_bursts ? work_in_bursts(&shares[0]) : work(&shares[0]);
    for (int i = 1; i < threads; i++) pthread_join(running[i], NULL);
    for (int i = 0; i < threads; i++) found += shares[i].found;
    printf("%llu %s %d %llu %llu %llu\n", (unsigned long long)pairs, what, threads, (unsigned long long)calls,
           (unsigned long long)(microseconds() - start), (unsigned long long)found);
    return 0;
}

int main(int count, char **words) {
    uint64_t wanted = count == 2 ? strtoull(words[1], NULL, 10) : 0, entered = 0, key[2];
    if (!wanted || make(wanted)) return 1;
    for (int i = 1; i < THREADS; i++)
        if (split(i)) return 1;
    for (; entered < wanted; entered++) {
        numbered(entered, key);
        if (!enter(key, entered + 1)) break;
    }
    for (int threads = 1; threads <= THREADS; threads += THREADS - 1) {
        if (line(entered, threads, "hit", 0, 0) || line(entered, threads, "absent", ABSENT, 0)) return 1;
#ifdef IN_BURSTS
        if (line(entered, threads, "bursts", 0, 1)) return 1;
#endif
    }
    return 0;
}
