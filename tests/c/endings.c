// Makes and ends tables in a room that a few tables fill: each way to end one gives its memory back. Callers that
// were freed and not joined are strangers for good, and others are none once they are joined, also where a split was
// refused before. A table of no kind isn't made. What came of it is written in a line a table; ends with 0 where all is
// right.
#include "bihash.h"
#include <stdio.h>
#include <sys/resource.h>

// A table takes some 2 MB, and its renewal four times that.
enum { TABLES = 400, CALLERS = 65535 };
static const rlim_t ROOM = 160 << 20;

// The kind of table that is called just now.
static bihash_options kind;

// A caller that is left is a stranger until it is joined; one that is freed is one for good.
static int strangers(bihash_handle *table) {
    bihash_handle stranger = BIHASH_NO_HANDLE, lost = BIHASH_NO_HANDLE;
    if (bihash_split(table, &stranger)) return 1;
    if (bihash_is_lone(table)) return 2;
    if (bihash_close(table) != BIHASH_STRANGERS || bihash_renew(table) != BIHASH_STRANGERS) return 3;
    bihash_join(table, &stranger);
    if (!bihash_is_lone(table)) return 4;
    if (bihash_renew(table)) return 5;
    if (bihash_split(table, &lost)) return 6;
    bihash_free(&lost);
    if (lost.at || bihash_is_lone(table)) return 7;
    if (bihash_close(table) != BIHASH_STRANGERS || bihash_renew(table) != BIHASH_STRANGERS) return 8;
    bihash_free(table);
    return 0;
}

// A table is made, renewed, and closed or freed.
static int once(int number) {
    bihash_handle table = BIHASH_NO_HANDLE, other = BIHASH_NO_HANDLE;
    bihash_key key = {{0}};
    if (bihash_create(&table, &kind)) return 10;
    if (bihash_add(&table, &key, 7).kind != BIHASH_ADDED) return 11;
    if (bihash_split(&table, &other)) return 12;
    bihash_join(&table, &other);
    if (bihash_renew(&table)) return 13;
    if (bihash_search(&table, &key).value != 7) return 14;
    if (number % 3 == 0) return strangers(&table);
    if (number % 3 == 1 && bihash_close(&table)) return 15;
    bihash_free(&table);
    return table.at ? 16 : 0;
}

// Splits are refused once all numbers were given; the table ends still.
static int numbers(void) {
    bihash_handle table = BIHASH_NO_HANDLE, other = BIHASH_NO_HANDLE;
    if (bihash_create(&table, &kind)) return 20;
    for (int made = 1; made < CALLERS; made++) {
        if (bihash_split(&table, &other)) return 21;
        bihash_join(&table, &other);
    }
    if (bihash_split(&table, &other) != BIHASH_NUMBERS || other.at) return 22;
    if (!bihash_is_lone(&table)) return 23;
    if (bihash_renew(&table) || bihash_split(&table, &other)) return 24;
    bihash_join(&table, &other);
    if (bihash_close(&table)) return 25;
    bihash_free(&table);
    return 0;
}

// What isn't the kind of a table has no bucket, and leaves a handle as it was.
static int no_kinds(void) {
    bihash_options none[] = {kind, kind, kind, kind};
    bihash_handle table = {none};
    bihash_key key = {{0}};
    none[0].size--, none[1].words = 3, none[2].words = 0, none[3].tables = 2;
    for (int i = 0; i < 4; i++) {
        if (bihash_create(&table, &none[i]) != BIHASH_BAD_OPTIONS || table.at != none) return 30;
        if (bihash_bucket_of(&none[i], &key) != BIHASH_NO_BUCKET) return 31;
    }
    return 0;
}

static int run(uint32_t words) {
    kind = (bihash_options)BIHASH_OPTIONS(words, BIHASH_STANDARD);
    int tables = 0, end = no_kinds();
    for (; tables < TABLES && !end; tables += !end) end = once(tables);
    if (!end) end = numbers();
    printf("keys of %u words: %d of %d tables ended\n", words, tables, TABLES);
    if (end) fprintf(stderr, "keys of %u words: %d\n", words, end);
    return end;
}

int main(void) {
    struct rlimit room = {ROOM, ROOM};
    if (setrlimit(RLIMIT_AS, &room)) return 3;
    int two = run(2), five = run(5);
    return two || five;
}
