// A load that comes and goes by sizes, in a table with keys of two words and in one with keys of five: few buckets have
// their pairs in large blocks, until a block is wanting; these pairs go, and then each bucket gets one pair. Each does: larger
// blocks that were given back are cut. What came of it is written in a line a table; ends with 0 where all is right.
#include "bihash.h"
#include <stdio.h>
#include <stdlib.h>

enum { MOST_BUCKETS = BIHASH_BUCKETS_OF_TWO };

static bihash_key key_of(uint64_t n) {
    bihash_key key;
    for (uint64_t i = 0; i < 5; i++) key.words[i] = n * 7919 + i;
    return key;
}

// Blocks of 64 pages for 3 of 40 buckets are more than all pages.
static int run(uint32_t words, uint64_t buckets) {
    bihash_options kind = BIHASH_OPTIONS(words, BIHASH_STANDARD);
    bihash_handle table = BIHASH_NO_HANDLE;
    bihash_key key;
    uint64_t pairs = 0, in_each = 0;
    static uint64_t added[64 * MOST_BUCKETS];
    char has[MOST_BUCKETS] = {0};
    if (bihash_create(&table, &kind)) return 2;
    for (uint64_t n = 0;; n++) {
        key = key_of(n);
        if (bihash_bucket_of(&kind, &key) >= buckets * 3 / 40) continue;
        uint32_t answer = bihash_add(&table, &key, n).kind;
        if (answer == BIHASH_NO_PAGES) break;
        if (answer == BIHASH_ADDED) added[pairs++] = n;
    }
    for (uint64_t i = 0; i < pairs; i++) {
        key = key_of(added[i]);
        if (bihash_remove(&table, &key).kind != BIHASH_REPLACED) return 3;
    }
    for (uint64_t n = 0, seen = 0; seen < buckets; n++) {
        key = key_of(n);
        uint64_t bucket = bihash_bucket_of(&kind, &key);
        if (has[bucket]) continue;
        has[bucket] = 1;
        seen++;
        in_each += bihash_add(&table, &key, n).kind == BIHASH_ADDED;
    }
    bihash_free(&table);
    printf("keys of %u words: one pair in %llu of %llu buckets\n", words, (unsigned long long)in_each,
           (unsigned long long)buckets);
    return in_each != buckets;
}

int main(void) {
    int two = run(2, BIHASH_BUCKETS_OF_TWO), five = run(5, BIHASH_BUCKETS_OF_FIVE);
    return two || five;
}
