/* A cache of sessions that four threads share: each packet's flow is entered where it is new, and else counted. A value has
   the second of the session's last packet in its low 32 bits and the number of its packets in the others. Where a bucket
   is full, a new session takes the place of one without a packet for a minute.

   cc -Iinclude examples/c/sessions.c crates/bihash_c/out/libbihash_c.a KIT/c/liblibc_c.a -lpthread */
#include "bihash.h"
#include <pthread.h>
#include <stdio.h>

enum { THREADS = 4, FLOWS = 2000, SECONDS = 50, TIMEOUT = 60 };

struct worker {
    bihash_handle caller;
    uint32_t number;
    long packets, refused;
};

/* The key of a flow from a host of its own to port 443 of one server. */
static bihash_key key_of(uint32_t flow) {
    bihash_key key = {{(UINT64_C(0x0a000000) + flow) << 32 | UINT64_C(0xc6336401),
                       UINT64_C(50000) << 48 | UINT64_C(443) << 32 | UINT64_C(6) << 24}};
    return key;
}

static uint64_t with_packet(uint64_t value, uint32_t now) {
    uint32_t last = (uint32_t)value;
    return ((value >> 32) + 1) << 32 | (last > now ? last : now);
}

/* Counts a packet of a flow, and tells whether its session is there. Other threads may count packets of the same flow
   meanwhile: a session's value is replaced only where it is still the one that was found. */
static int count_packet(bihash_handle *caller, const bihash_key *key, uint32_t now) {
    bihash_expiry expiry = bihash_expiry_at(now, TIMEOUT);
    bihash_answer answer;
    do {
        answer = bihash_add_if_absent_or_recycle_wait(caller, key, with_packet(0, now), &expiry);
        while (answer.kind == BIHASH_FOUND)
            answer = bihash_replace_if_wait(caller, key, answer.value, with_packet(answer.value, now));
    } while (answer.kind == BIHASH_ABSENT);
    return answer.kind == BIHASH_ADDED || answer.kind == BIHASH_REPLACED;
}

static void *work(void *given) {
    struct worker *worker = given;
    for (uint32_t now = 1; now <= SECONDS; now++)
        for (uint32_t flow = (worker->number + now) % THREADS; flow < FLOWS; flow += THREADS) {
            bihash_key key = key_of(flow);
            worker->packets++;
            worker->refused += !count_packet(&worker->caller, &key, now);
        }
    return NULL;
}

int main(void) {
    struct worker workers[THREADS] = {0};
    pthread_t threads[THREADS];
    bihash_options options = BIHASH_OPTIONS(2, BIHASH_STANDARD);
    bihash_handle table;
    bihash_pair pair;
    long packets = 0, refused = 0, counted = 0;
    if (bihash_create(&table, &options) != BIHASH_DONE) return 1;
    for (uint32_t i = 0; i < THREADS; i++) {
        workers[i].number = i;
        if (bihash_split_wait(&table, &workers[i].caller) != BIHASH_DONE) return 1;
    }
    for (int i = 0; i < THREADS; i++)
        if (pthread_create(&threads[i], NULL, work, &workers[i])) return 1;
    for (int i = 0; i < THREADS; i++) {
        pthread_join(threads[i], NULL);
        bihash_join(&table, &workers[i].caller);
        packets += workers[i].packets;
        refused += workers[i].refused;
    }
    if (bihash_close(&table) != BIHASH_DONE) return 1;
    uint64_t sessions = bihash_pair_count(&table);
    for (uint64_t i = 0; bihash_pair_at(&table, i, &pair); i++) counted += (long)(pair.value >> 32);
    bihash_free(&table);
    printf("%ld packets, %ld without a session; %ld in %llu sessions\n", packets, refused, counted,
           (unsigned long long)sessions);
    return 0;
}
