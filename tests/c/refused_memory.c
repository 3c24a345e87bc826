// Makes, splits, renews and closes a table, and looks what is there whenever a call was refused memory: nothing may be
// lost. The call is made once more then. Each refusal is written in a line with the call's name. Ends with 0 where all
// was done, with 4 where a call was refused twice, and with 1 where anything is wrong.
#include "bihash.h"
#include <stdio.h>
#include <stdlib.h>

enum { PAIRS = 40 };

static int is_wrong(const char *what) {
    fprintf(stderr, "%s\n", what);
    exit(1);
}

static bihash_key key_of(uint64_t n) {
    bihash_key key;
    for (uint64_t i = 0; i < 5; i++) key.words[i] = n * 7919 + i;
    return key;
}

static void look(bihash_handle *caller) {
    for (uint64_t n = 0; n < PAIRS; n++) {
        bihash_key key = key_of(n);
        bihash_answer answer = bihash_search(caller, &key);
        if (answer.kind != BIHASH_FOUND || answer.value != n) is_wrong("a pair is lost");
    }
}

static void fill(bihash_handle *caller) {
    for (uint64_t n = 0; n < PAIRS; n++) {
        bihash_key key = key_of(n);
        if (bihash_add(caller, &key, n).kind != BIHASH_ADDED) is_wrong("a pair isn't added");
    }
    look(caller);
}

// Whether a call was refused memory. The second refusal ends the program.
static int is_refused(const char *call, uint32_t answer, int *refused) {
    if (answer != BIHASH_MEMORY) return 0;
    printf("%s\n", call);
    return ++*refused;
}

int main(void) {
    bihash_options kind = BIHASH_OPTIONS(5, BIHASH_STANDARD);
    bihash_handle first = BIHASH_NO_HANDLE, second = BIHASH_NO_HANDLE;
    int refused = 0;
    uint32_t answer;
    while (is_refused("create", answer = bihash_create(&first, &kind), &refused))
        if (first.at) is_wrong("a refused create leaves a handle");
        else if (refused == 2) return 4;
    if (answer) is_wrong("create");
    fill(&first);
    for (refused = 0; is_refused("split", answer = bihash_split(&first, &second), &refused);) {
        if (second.at) is_wrong("a refused split leaves a handle");
        if (!bihash_is_lone(&first)) is_wrong("a refused split makes a caller");
        look(&first);
        if (refused == 2) return bihash_free(&first), 4;
    }
    if (answer) is_wrong("split");
    look(&second);
    if (bihash_close(&first) != BIHASH_STRANGERS) is_wrong("close with a stranger");
    bihash_meet(&second, &first);
    bihash_join(&first, &second);
    if (second.at) is_wrong("a joined handle is left");
    for (refused = 0; is_refused("renew", answer = bihash_renew(&first), &refused);) {
        look(&first);
        if (refused == 2) return bihash_free(&first), 4;
    }
    if (answer || bihash_stamp_of(&first).known) is_wrong("renew");
    look(&first);
    for (refused = 0; is_refused("close", answer = bihash_close(&first), &refused);) {
        look(&first);
        if (refused == 2) return bihash_free(&first), 4;
    }
    if (answer || bihash_pair_count(&first) != PAIRS) is_wrong("close");
    bihash_free(&first);
    if (first.at) is_wrong("a handle is left");
    return 0;
}
