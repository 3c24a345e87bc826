/* A session table that many threads share without a lock round it: keys of two words (IPv4 flows) or of five words (IPv6
   flows), each with a value of 64 bits. Link libbihash_c.a, behind it liblibc_c.a (the toolchain's three functions over
   malloc), and the C library. It needs C99, or C++, and a processor of x86-64-v2, as any of the last fifteen years is.

   A thread calls the table through a handle of its own, a caller: bihash_create makes the first, bihash_split one for
   each other thread, bihash_join takes one back. Each call is one try. Where another caller stood in its way it
   answers BIHASH_CONTENDED and has done nothing: try again, as the functions at the end of this page do. A caller that
   writes holds its bucket while it does; where the system takes the processor from it just then, others on that bucket
   are answered CONTENDED until it goes on, so a loop may yield after some tries.

   What one caller was answered, another finds: the answered calls on a key stand in one order, and a call that begins
   after another was answered stands behind it. That is proved of what calls ensure and of the table's states between two
   steps; no contract can name the state in which a call begins. Calls order no other memory: what a value points to is
   handed on by other means.

   A bucket has its pairs in a block of 1, 2, 4 .. or 64 of the table's pages, of 4 places each. With keys spread at
   random a new table of keys of two words took some 28,000 pairs until a bucket's next block wasn't there (7,000 of
   five words; a large table 453,000 of either). A block that was given back is cut where a smaller one is wanted and
   no other is there, and never made part of a larger one. Where a look removes a pair, its bucket changes to a smaller
   block, if its other pairs fit one. A pair stays until it is removed: where values tell which
   sessions are over, sweep the buckets now and then, as bihash_sweep_wait does, and the blocks of ended sessions
   come back, although no packet of theirs comes. No call counts a table's pairs while it is in use. A program that
   adds up the answers of all its callers knows how many there are at most: those that were ADDED, less those that
   remove and expire REPLACED (of a pair that takes an expired one's place only ADDED is told). The hash has no seed:
   whoever chooses keys can choose their bucket.

   What the library is owed, since no compiler checks it:
   - A handle is what the last call left there. It is never copied, written or read by others, and each call has it for
     itself: two threads never give one handle to calls at the same time. One that goes to another thread goes by the
     start or the end of a thread, a lock, or a sequentially consistent atomic.
   - Where a call takes a caller, the handle has one: it was made by create or split, and has not been joined, closed or
     freed since. pair_count and pair_at take pairs, which a closed table left; free takes a caller or pairs, and
     nothing else.
   - Where a call takes two handles, these are two different ones, of one table.
   - Pointers are never null, and what they point to is there whole: keys are always bihash_keys. A value that is set isn't
     BIHASH_NO_VALUE (all ones).
   - malloc, realloc and free are those of one allocator, and no call is made from a signal handler or in the forked
     child of a process with threads.
   No call keeps a pointer that it was given. Only create, split, renew and close ask for memory, and adding to a table
   does not: its words are taken when it is made. Where memory is refused nothing is lost. */
#ifndef BIHASH_H
#define BIHASH_H

#include <stdbool.h>
#include <stddef.h>
#include <stdint.h>

/* The version, which is that of the program `racl`: as text, and as a number, of which three digits each are the second and
   the third part. */
#define BIHASH_VERSION "0.1.0"
#define BIHASH_VERSION_NUMBER 1000

#ifdef __cplusplus
extern "C" {
#endif

/* A caller with its table, or the pairs of a table that was closed, or nothing. */
typedef struct bihash_handle {
  void *at;
} bihash_handle;

/* A handle with nothing behind it: what a handle begins with, or is given later. */
#ifdef __cplusplus
#define BIHASH_NO_HANDLE bihash_handle()
#else
#define BIHASH_NO_HANDLE ((bihash_handle){0})
#endif

enum bihash_tables {
  BIHASH_STANDARD = 0, /* 4,096 buckets, 65,536 places and some 1.9 MB where keys have two words, and where they have
                          five 1,024 buckets, 16,384 places and some 0.9 MB */
  BIHASH_LARGE = 1     /* 65,536 buckets, 1,048,576 places, and some 30 MB, or 55 MB where keys have five words */
};

/* Which kind of table is meant. Of each kind a bucket has up to 256 pairs. */
typedef struct bihash_options {
  uint32_t size;   /* how many bytes this has; where a program has more of them than the library knows, those behind must be 0 */
  uint32_t words;  /* of a key: 2 or 5 */
  uint32_t tables; /* an enum bihash_tables */
} bihash_options;

#define BIHASH_OPTIONS(words, tables) {sizeof(bihash_options), words, tables}

/* The bytes of options. */
static inline const uint8_t *bihash_bytes_of(const bihash_options *options) {
  const void *at = options;
#ifdef __cplusplus
  return static_cast<const uint8_t *>(at);
#else
  return (const uint8_t *)at;
#endif
}

/* How many buckets a table has, numbered from 0 on. */
#define BIHASH_BUCKETS_OF_TWO 4096
#define BIHASH_BUCKETS_OF_FIVE 1024
#define BIHASH_LARGE_BUCKETS 65536

/* What bucket_of answers where no kind of table is meant. */
#define BIHASH_NO_BUCKET UINT64_MAX

/* A key. Where a table's keys have two words the other three count for nothing, whatever they are. */
typedef struct bihash_key {
  uint64_t words[5];
} bihash_key;

/* The value that may not be set. */
#define BIHASH_NO_VALUE UINT64_MAX

enum bihash_kind {
  BIHASH_ABSENT = 0,     /* nothing was changed: the key has no value */
  BIHASH_FOUND = 1,      /* nothing was changed: the key has `value` */
  BIHASH_ADDED = 2,      /* done: the key had no value */
  BIHASH_REPLACED = 3,   /* done: the key had `value`, and has another one now, or none */
  BIHASH_WORN = 4,       /* not done, until a renewal: the bucket was changed 2^33 - 1 times; the key has no value */
  BIHASH_WORN_FOUND = 5, /* the same; the key has `value` */
  BIHASH_FULL = 6,       /* not done: the key has no value, and its bucket has no room for another key */
  BIHASH_NO_PAGES = 7,   /* not done: the key has no value, and its bucket needs a block of 2^`log2` pages, of which size
                            or larger none is there; `pages_left` pages were never used. A bucket gives its block back
                            when its last pair is removed */
  BIHASH_CONTENDED = 8,  /* nothing was done: another caller stood in the way; try again */
  BIHASH_MEMORY = 9,     /* nothing was done: memory was refused */
  BIHASH_NUMBERS = 10,   /* nothing was done: the table had 65,535 callers, and can have no more */
  BIHASH_STRANGERS = 11,  /* nothing was done: a caller of the table was not joined into this one */
  BIHASH_BAD_OPTIONS = 12 /* nothing was done: options that are cut short, say more than is known, or have other words or
                             other tables */
};

/* What the calls on callers answer where they are done. */
#define BIHASH_DONE 0

/* The answer of a call on a key. Where the kind says nothing of a field it is 0. */
typedef struct bihash_answer {
  uint32_t kind; /* an enum bihash_kind */
#ifdef __GNUC__
  __extension__ /* C99 has no unions without a name */
#endif
  union {
    uint64_t value;
    uint64_t pages_left;
  };
  uint64_t log2;
} bihash_answer;

/* Which values count as expired: those whose bits that `mask` has are, as a number, below `least`. */
typedef struct bihash_expiry {
  uint64_t mask;
  uint64_t least;
} bihash_expiry;

/* The bucket of the last answered call of a caller, and how many changes the bucket had when it was done, its own
   included: the call that made change n has stamp n, and calls that changed nothing and have stamp n came after it. The
   answered calls of all callers on one bucket came in the order of their stamps. A pair that takes the place of another
   is one change. `known` is 0 where no call was answered yet. */
typedef struct bihash_stamp {
  uint32_t known;
  uint64_t bucket;
  uint64_t stamp;
} bihash_stamp;

/* Where the table's keys have two words, the others of `key` are 0. */
typedef struct bihash_pair {
  bihash_key key;
  uint64_t value;
} bihash_pair;

/* ---- Callers ---- */

/* BIHASH_VERSION_NUMBER of the library, which a program's own is not where it was made with another header. */
uint32_t bihash_version(void);

/* A new table of this kind with its first caller, at `handle`. What the handle had, if anything, is not freed. DONE, or
   BAD_OPTIONS or MEMORY, which leave the handle as it was. It asks for twice the memory that it keeps. The `rest` of the
   options are those of their bytes that stand behind the first 12, as `size` says. */
uint32_t bihash_create_with(bihash_handle *handle, const bihash_options *options, const uint8_t *rest, size_t rest_length);

/* The same, where `size` says how many bytes lie at `options`. */
static inline uint32_t bihash_create(bihash_handle *handle, const bihash_options *options) {
  size_t size = options->size;
  return bihash_create_with(handle, options, bihash_bytes_of(options) + 12, size > 12 ? size - 12 : 0);
}

/* A new caller of the table of `handle`, at `fresh`, in the same way. DONE, or MEMORY, NUMBERS or CONTENDED, which
   leave `fresh` as it was. A table gives 65,535 numbers to callers until it is renewed, and none twice: keep callers for
   threads to come. */
uint32_t bihash_split(bihash_handle *handle, bihash_handle *fresh);

/* Ends the caller `other`, and leaves nothing behind its handle: `handle` is the caller of both from then on, with the
   stamp that it had. */
void bihash_join(bihash_handle *handle, bihash_handle *other);

/* Two callers learn of each other's calls. No other call needs this: proofs over several callers begin with it. */
void bihash_meet(bihash_handle *handle, bihash_handle *other);

/* Whether every other caller of the table was joined into this one, directly or through others. */
bool bihash_is_lone(bihash_handle *handle);

/* The bucket and the stamp of the caller's last answered call. Calls that weren't answered CONTENDED count. */
bihash_stamp bihash_stamp_of(bihash_handle *handle);

/* ---- Keys: one try each. CONTENDED may be the answer of each, but not to a caller that create or renew made
   or of which is_lone said so, until it is split ---- */

/* ABSENT or FOUND. */
bihash_answer bihash_search(bihash_handle *handle, const bihash_key *key);

/* Sets the value, whatever was found: ADDED, REPLACED, FOUND (it was this value), WORN, WORN_FOUND, FULL or
   NO_PAGES. */
bihash_answer bihash_add(bihash_handle *handle, const bihash_key *key, uint64_t value);

/* Sets the value where there is none: ADDED, FOUND, WORN, FULL or NO_PAGES. */
bihash_answer bihash_add_if_absent(bihash_handle *handle, const bihash_key *key, uint64_t value);

/* Sets the value where there is one, whatever it was: ABSENT, REPLACED, FOUND (it was this value) or WORN_FOUND. */
bihash_answer bihash_touch(bihash_handle *handle, const bihash_key *key, uint64_t value);

/* Sets the value where the key still has the value `was`: REPLACED, FOUND with the value that is there (it isn't
   `was`, or the new value is `was` itself), ABSENT or WORN_FOUND. Search, work out the new value, and begin again with
   the one that is told where it is FOUND: so threads that change one pair at once lose nothing of each other. */
bihash_answer bihash_replace_if(bihash_handle *handle, const bihash_key *key, uint64_t was, uint64_t value);

/* Takes the value away: ABSENT, REPLACED or WORN_FOUND. */
bihash_answer bihash_remove(bihash_handle *handle, const bihash_key *key);

/* As add, but where the answer would be FULL the new pair takes the place of the expired pair of the bucket with the
   least key (by its words, the first word first), and the answer is ADDED. FULL: no pair of the bucket is expired.
   NO_PAGES stays an answer, and no pair goes then. Which pair went isn't told. */
bihash_answer bihash_add_or_recycle(bihash_handle *handle, const bihash_key *key, uint64_t value,
                                    const bihash_expiry *expiry);

/* As add_if_absent, in the same way. */
bihash_answer bihash_add_if_absent_or_recycle(bihash_handle *handle, const bihash_key *key, uint64_t value,
                                              const bihash_expiry *expiry);

/* Loads what calls on these `count` keys will load first, so that the processor waits for all of it at once, and tells
   nothing: before bursts of calls on a table that is larger than the processor's caches. */
void bihash_look_ahead(bihash_handle *handle, const bihash_key *keys, size_t count);

/* ---- Buckets: one try each, as of keys ---- */

/* The bucket of a key in a table of this kind; BIHASH_NO_BUCKET where options would be BAD_OPTIONS. Any thread may ask. Keys
   that are dealt to threads by their bucket (bucket_of(key) % threads, as racl deals flows) let no two threads meet in a
   bucket; that both directions of a flow have one key is the caller's matter. */
uint64_t bihash_bucket_of_with(const bihash_options *options, const uint8_t *rest, size_t rest_length, const bihash_key *key);

static inline uint64_t bihash_bucket_of(const bihash_options *options, const bihash_key *key) {
  size_t size = options->size;
  return bihash_bucket_of_with(options, bihash_bytes_of(options) + 12, size > 12 ? size - 12 : 0, key);
}

/* Looks at a bucket, and takes away one pair there whose value is expired: REPLACED, with the value that went, or
   WORN_FOUND. ABSENT: no pair of the bucket was expired, as far as the caller knew then, or the table has no such
   bucket; no lock was taken. A value that isn't expired never goes. */
bihash_answer bihash_expire(bihash_handle *handle, uint64_t bucket, const bihash_expiry *expiry);

/* ---- The end of a table. Each other caller was joined before, else STRANGERS: is_lone says whether. A refusal
   changes nothing, and the caller stays ---- */

/* Opens the table again: its pairs stay, its buckets count their changes anew, and the caller is the first of it.
   DONE, or STRANGERS, MEMORY, or CONTENDED: the caller has every number, and another handle's hold of the table was
   not let go of yet (a join lets go before it ends, so where handles go from thread to thread as said above none is
   left). It asks for three times the table's memory, so there are four of it for a while, and gives that of the old
   one back. No call counts as answered yet. */
uint32_t bihash_renew(bihash_handle *handle);

/* Ends the table and its caller: the handle has its pairs then. DONE, or STRANGERS, CONTENDED or MEMORY, as renew. It
   asks for the table's memory once more, and for the pairs'. */
uint32_t bihash_close(bihash_handle *handle);

/* How many pairs a handle has whose table was closed. */
uint64_t bihash_pair_count(bihash_handle *handle);

/* The pair at a place, counted from 0, in the order of the keys (by their words, the first word first). False, and
   nothing is written, behind the last. */
bool bihash_pair_at(bihash_handle *handle, uint64_t at, bihash_pair *pair);

/* Lets go of what the handle has, which must be a caller or pairs, and leaves nothing behind it. A table goes with its
   last caller. A caller that is freed and not joined is a stranger from then on: its table can't be closed or
   renewed. */
void bihash_free(bihash_handle *handle);

/* ---- Tries until one is answered: the calls on keys and buckets with `_wait` behind their names. sweep_wait takes
   away the expired pairs of the buckets from `from` to before `to`, of each until a look finds none there or its changes
   are used up, and says how many went. Callers may sweep the same buckets at once ---- */

/* The name of a kind, as it stands in this page behind BIHASH_, and "?" of none. */
static inline const char *bihash_kind_name(uint32_t kind) {
  static const char *const names[] = {"ABSENT", "FOUND", "ADDED", "REPLACED", "WORN", "WORN_FOUND", "FULL", "NO_PAGES", "CONTENDED",
                                      "MEMORY", "NUMBERS", "STRANGERS", "BAD_OPTIONS"};
  return kind <= BIHASH_BAD_OPTIONS ? names[kind] : "?";
}

/* A pause between two tries. */
static inline void bihash_pause(void) {
#if defined(__x86_64__)
  __builtin_ia32_pause();
#endif
}

/* The expiry of values whose low 32 bits are the second of their last use: expired at `moment` are those that were not
   used for more than `timeout` seconds. */
static inline bihash_expiry bihash_expiry_at(uint32_t moment, uint32_t timeout) {
  bihash_expiry expiry = {UINT32_MAX, moment > timeout ? moment - timeout : 0};
  return expiry;
}

/* The expiry of values whose low 32 bits are the second at which they end: expired at `moment` are those that end then
   or before. */
static inline bihash_expiry bihash_expiry_of_deadlines(uint32_t moment) {
  uint64_t least = moment;
  bihash_expiry expiry = {UINT32_MAX, least + 1};
  return expiry;
}

#define BIHASH_WAIT(call)                                                                                              \
  bihash_answer answer = call;                                                                                         \
  while (answer.kind == BIHASH_CONTENDED) {                                                                            \
    bihash_pause();                                                                                                    \
    answer = call;                                                                                                     \
  }                                                                                                                    \
  return answer

static inline uint32_t bihash_split_wait(bihash_handle *handle, bihash_handle *fresh) {
  uint32_t answer = bihash_split(handle, fresh);
  while (answer == BIHASH_CONTENDED) {
    bihash_pause();
    answer = bihash_split(handle, fresh);
  }
  return answer;
}

static inline bihash_answer bihash_search_wait(bihash_handle *handle, const bihash_key *key) {
  BIHASH_WAIT(bihash_search(handle, key));
}

static inline bihash_answer bihash_add_wait(bihash_handle *handle, const bihash_key *key, uint64_t value) {
  BIHASH_WAIT(bihash_add(handle, key, value));
}

static inline bihash_answer bihash_add_if_absent_wait(bihash_handle *handle, const bihash_key *key, uint64_t value) {
  BIHASH_WAIT(bihash_add_if_absent(handle, key, value));
}

static inline bihash_answer bihash_touch_wait(bihash_handle *handle, const bihash_key *key, uint64_t value) {
  BIHASH_WAIT(bihash_touch(handle, key, value));
}

static inline bihash_answer bihash_replace_if_wait(bihash_handle *handle, const bihash_key *key, uint64_t was,
                                                   uint64_t value) {
  BIHASH_WAIT(bihash_replace_if(handle, key, was, value));
}

static inline bihash_answer bihash_remove_wait(bihash_handle *handle, const bihash_key *key) {
  BIHASH_WAIT(bihash_remove(handle, key));
}

static inline bihash_answer bihash_add_or_recycle_wait(bihash_handle *handle, const bihash_key *key, uint64_t value,
                                                       const bihash_expiry *expiry) {
  BIHASH_WAIT(bihash_add_or_recycle(handle, key, value, expiry));
}

static inline bihash_answer bihash_add_if_absent_or_recycle_wait(bihash_handle *handle, const bihash_key *key,
                                                                 uint64_t value, const bihash_expiry *expiry) {
  BIHASH_WAIT(bihash_add_if_absent_or_recycle(handle, key, value, expiry));
}

static inline bihash_answer bihash_expire_wait(bihash_handle *handle, uint64_t bucket, const bihash_expiry *expiry) {
  BIHASH_WAIT(bihash_expire(handle, bucket, expiry));
}

static inline uint64_t bihash_sweep_wait(bihash_handle *handle, uint64_t from, uint64_t to,
                                         const bihash_expiry *expiry) {
  uint64_t went = 0;
  for (; from < to; from++)
    while (bihash_expire_wait(handle, from, expiry).kind == BIHASH_REPLACED) went++;
  return went;
}

#undef BIHASH_WAIT

#ifdef __cplusplus
}
#endif

#endif
