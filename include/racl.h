/* The packet filter of `racl` in other programs: a frame is handed over, and whether it passes is answered. Link libracl,
   as `make library` makes it, and the C library. It needs C99, or C++, and a processor of x86-64-v2, as any of the last
   fifteen years is.

       racl_handle judge;
       racl_options options = RACL_OPTIONS;
       racl_made made = racl_new(&judge, text, length, &options);
       if (made.kind != RACL_DONE) exit(made.line);
       racl_answer answer = racl_judge_wait(&judge, 0, second, frame, bytes);
       if (answer.passes) forward(frame);
       racl_free(&judge);

   A judge is a policy, timeouts, and session tables of IPv4 and IPv6. racl_new makes the first, racl_split one for each
   other thread over the same tables, and racl_join ends one. Tables give 65,535 numbers to judges, and none twice, a joined
   one's neither: so keep the judge of a thread that ends for the next thread. A session that one judge enters lets the
   frames through that another one is given.
   Each judge has a policy of its own, which is that of the judge it was split of until it is replaced.

   What stands in a policy before its first line `interface N` is the section of interface 0. An interface without a section
   has no rules, and lets no IP packet in that is of no session.

   Timeouts belong to the tables: all judges over them have those with which the first was made, and only a judge that is
   alone over its tables may take others. So a session that one judge enters lives as long for each other.

   Any judge may judge any flow. Where another one stood in the way of a session's change, the answer is RACL_CONTENDED and
   nothing was done: try again, as the functions at the end of this page do. Frames of one flow that two threads hand over at
   once may be taken in either order; where that matters, deal them by racl_worker_of, the same for both directions.

   Each call on a frame is what the program's own contract says of a packet: by the policy of the judge and the section of the
   interface, and with at most one update of a session. That is proved of what the calls do; what C owes is said here alone,
   since no compiler checks it:
   - A handle is what the last call left there. It is never copied, written or read by others, and each call has it for
     itself: two threads never give one handle to calls at the same time. One that goes to another thread goes by the start or
     the end of a thread, a lock, or a sequentially consistent atomic.
   - A handle that is given has a judge: it was made by racl_new or racl_split, which may find there anything at all, and has
     not been joined or freed since; where the one that made it was refused, it has none. So sessions that are given were
     left there by a close, and counts by rule by racl_rule_counts_new. A call
     that takes two handles is given two different ones; racl_join and racl_meet, two over the same tables.
   - Pointers are never null, those to a frame, a text or a buffer of 0 bytes included, and what they point to is there in its whole
     length; no other thread changes it during the call.
   - malloc, realloc and free are those of one allocator, and no call is made from a signal handler or in the forked child of a
     process with threads.
   No call keeps a pointer that it was given, waits for another thread, or makes one. Only racl_new, racl_set_policy, racl_split,
   racl_check, racl_line_of, racl_rule_counts_new, the renewals and the closes ask for memory; judging does not. Where memory is
   refused nothing is lost. */
#ifndef RACL_H
#define RACL_H

#include <stddef.h>
#include <stdint.h>

/* The version, which is that of the program: as text, and as a number, of which three digits each are the second and the third
   part. */
#define RACL_VERSION "0.1.0"
#define RACL_VERSION_NUMBER 1000

#ifdef __cplusplus
extern "C" {
#endif

/* A judge, or nothing. */
typedef struct racl_handle {
  void *at;
} racl_handle;

/* The sessions that a closed table had, and counts by rule, each behind a handle of its own in the same way. */
typedef struct racl_sessions {
  void *at;
} racl_sessions;

typedef struct racl_rule_counts {
  void *at;
} racl_rule_counts;

/* Handles with nothing behind them, as join and free leave them: what a handle begins with, or is given later. */
#ifdef __cplusplus
#define RACL_NO_HANDLE racl_handle()
#define RACL_NO_SESSIONS racl_sessions()
#define RACL_NO_RULE_COUNTS racl_rule_counts()
#else
#define RACL_NO_HANDLE ((racl_handle){0})
#define RACL_NO_SESSIONS ((racl_sessions){0})
#define RACL_NO_RULE_COUNTS ((racl_rule_counts){0})
#endif

enum racl_kind {
  /* Of calls on judges */
  RACL_DONE = 0,        /* it was done; of a bucket: no session in it has ended */
  RACL_MEMORY = 1,      /* nothing was done, but that a split may have used up a number: memory was refused */
  RACL_NOT_UTF8 = 2,    /* nothing was done: the policy isn't UTF-8 */
  RACL_BAD_LINE = 3,    /* nothing was done: the policy's line `line` is wrong */
  RACL_TOO_MANY = 4,    /* nothing was done: the policy's line `line` is one rule too many */
  RACL_BAD_OPTIONS = 5, /* nothing was done: options that are cut short, say more than is known, or have other tables or a
                           timeout of 0 */
  RACL_NUMBERS = 6,     /* nothing was done: the tables had 65,535 judges, and can have no more */
  RACL_CONTENDED = 7,   /* nothing was done: another judge stood in the way; try again */
  RACL_STRANGERS = 8,   /* nothing was done: another judge over the tables was not joined into this one */
  RACL_ENDED = 9,       /* of a bucket: a session that had ended went */

  /* Of frames: what becomes of them */
  RACL_SESSION = 16,    /* passes: a live session lets it through */
  RACL_REFLECT = 17,    /* passes: rule `rule` lets it through, and a session was entered */
  RACL_PERMIT = 18,     /* passes: rule `rule` lets it through */
  RACL_DENY = 19,       /* is dropped: rule `rule` denies it */
  RACL_BY_DEFAULT = 20, /* is dropped: no rule matches */
  RACL_WORN = 21,       /* is dropped: its session's bucket was changed 2^33 - 1 times and waits for a renewal */
  RACL_FULL = 22,       /* is dropped: its session's bucket has 256 sessions, all of them live */
  RACL_NO_PAGES = 23,   /* is dropped: its session needs a block of pages, and all threads' sessions left none that large */
  RACL_NOT_IP = 24,     /* passes: the frame carries no IP packet */
  RACL_MALFORMED = 25,  /* is dropped: the frame breaks the form of its headers */
  RACL_SHORT = 26       /* is dropped: the packet ends before what is looked at: 14 bytes of TCP, 4 of UDP, 2 of ICMP */
};

enum racl_direction {
  RACL_NO_DIRECTION = 0, /* of NOT_IP, MALFORMED and SHORT */
  RACL_INBOUND = 1,
  RACL_OUTBOUND = 2 /* the frame comes from the interface's own address */
};

enum racl_tables {
  RACL_STANDARD = 0, /* 65,536 places for sessions of IPv4, 16,384 of IPv6, and some 3 MB */
  RACL_LARGE = 1     /* 1,048,576 places for each, and some 85 MB */
};

/* What a judge is made with. `size` is how many bytes this has; where a program has more of them than the library knows,
   those behind must be 0. The seconds are how long sessions outlive their last packet
   (at 600 one is live 600 seconds later, and has ended after 601): of TCP where exactly SYN and ACK were seen of both sides, of
   other TCP, and of UDP and echoes; each is at least 1. */
typedef struct racl_options {
  uint32_t size;
  uint32_t tables; /* an enum racl_tables */
  uint32_t established;
  uint32_t transient;
  uint32_t udp;
} racl_options;

/* Those that `racl` takes where its words name no others. */
#define RACL_OPTIONS {sizeof(racl_options), RACL_STANDARD, 86400, 120, 600}

/* What became of a judge that was to be made or given a policy. `line` counts from 1, and is 0 where no line is meant. */
typedef struct racl_made {
  uint32_t kind; /* an enum racl_kind */
  uint64_t line;
} racl_made;

/* The answer on a frame. `rule` counts from 1 among the rules of the packet's direction in its interface's section, and is 0
   where no rule decided. `passes` is 1 or 0; where the kind is CONTENDED it is 0 and says nothing. */
typedef struct racl_answer {
  uint32_t kind; /* an enum racl_kind */
  uint32_t rule;
  uint32_t passes;
  uint32_t direction; /* an enum racl_direction */
} racl_answer;

/* A frame in an area of memory: its bytes from `at` on. Where they don't all lie in the area it counts as one of no bytes,
   which is malformed. */
typedef struct racl_descriptor {
  uint64_t at;
  uint32_t length;
  uint32_t second;
  uint8_t interface_number;
} racl_descriptor;

/* The family of a frame's flow, 4 or 6, and the hash of the flow's key, the same for both directions at one interface. Both
   are 0 where the frame takes no part in sessions. */
typedef struct racl_flow {
  uint32_t family;
  uint64_t hash;
} racl_flow;

/* What a check of a policy's text came to, and how many bytes the lines have that tell of it. */
typedef struct racl_checked {
  uint32_t kind; /* an enum racl_kind */
  uint64_t length;
} racl_checked;

/* How far a sweep came: its next look would be at the bucket `next`, and so many sessions went. */
typedef struct racl_swept {
  uint32_t kind; /* an enum racl_kind */
  uint64_t next;
  uint64_t went;
} racl_swept;

/* An end of a flow: its address as its bytes stand in packets, of IPv4 the first 4 and then zeros; its port, and 0 where the protocol
   has none; and the flags that are kept of it, of TCP. */
typedef struct racl_end {
  uint8_t address[16];
  uint16_t port;
  uint8_t flags;
} racl_end;

/* A session: the last second in which it is live, by the timeouts of the judge that closed its table, the latest second of its
   frames, and its flow, whose ends stand in the order of its key: of TCP and UDP the lesser one first, of an echo the one that
   asks. */
typedef struct racl_session {
  uint64_t until;
  uint32_t last;
  uint8_t interface_number;
  uint8_t family; /* 4 or 6 */
  uint8_t protocol;
  racl_end first;
  racl_end second;
} racl_session;

/* How many frames a judge gave each verdict, those of judges that were joined into it too. RACL_CONTENDED isn't counted. */
typedef struct racl_count {
  uint64_t session;
  uint64_t reflect;
  uint64_t permit;
  uint64_t deny;
  uint64_t by_default;
  uint64_t worn;
  uint64_t full;
  uint64_t no_pages;
  uint64_t not_ip;
  uint64_t malformed;
  uint64_t cut_short;
} racl_count;

/* ---- Judges ---- */

/* RACL_VERSION_NUMBER of the library, which a program's own is not where it was made with another header. */
uint32_t racl_version(void);

/* A judge at `handle` by the policy of this text of `length` bytes (docs/FORMATS.md), over new tables. What the handle had,
   if anything, is not freed. DONE, or BAD_OPTIONS, MEMORY, NOT_UTF8, BAD_LINE or TOO_MANY, which leave the handle as it was.
   What is told of a text is its first fault. The `rest` of the options are those of their bytes that stand behind the first
   20, as `size` says. */
racl_made racl_new_with(racl_handle *handle, const uint8_t *text, size_t length, const racl_options *options,
                        const uint8_t *rest, size_t rest_length);

/* The same, where `size` says how many bytes lie at `options`. */
static inline racl_made racl_new(racl_handle *handle, const uint8_t *text, size_t length, const racl_options *options) {
  const void *at = options;
#ifdef __cplusplus
  const uint8_t *bytes = static_cast<const uint8_t *>(at);
#else
  const uint8_t *bytes = (const uint8_t *)at;
#endif
  size_t size = options->size;
  return racl_new_with(handle, text, length, options, bytes + 20, size > 20 ? size - 20 : 0);
}

/* A new judge over the same tables by the same policy, at `fresh`, in the same way; it counted no frame. DONE, or MEMORY,
   NUMBERS or CONTENDED, which leave `fresh`, the judge's policy and its counts as they were, and all sessions. What is
   refused may have used up a number, and a judge that was alone may be CONTENDED until racl_is_lone says so again. */
uint32_t racl_split(racl_handle *handle, racl_handle *fresh);

/* Ends the judge `other`, and leaves nothing behind its handle. */
void racl_join(racl_handle *handle, racl_handle *other);

/* Tells two judges what either knows of their tables, so that what one did before is known to the other. */
void racl_meet(racl_handle *handle, racl_handle *other);

/* 1 where each other judge over the tables was joined into this one, which is never CONTENDED then until it is split; else 0. */
uint32_t racl_is_lone(racl_handle *handle);

/* Lets go of a judge, and leaves nothing behind its handle. The tables go with their last judge. One that is freed and not
   joined is a stranger from then on: its tables can't be renewed. */
void racl_free(racl_handle *handle);

/* ---- Policies: sessions and what was counted stay, and a live session lets frames through whatever the new policy says.
   Other judges over the same tables keep theirs. Who wants sessions gone makes a judge over new tables ---- */

/* Judges by the policy of this text from now on, with the same timeouts. DONE, or MEMORY, NOT_UTF8, BAD_LINE or TOO_MANY, and
   then the policy stays. */
racl_made racl_set_policy(racl_handle *handle, const uint8_t *text, size_t length);

/* Checks a policy's text, and writes into the buffer the lines that `racl check` tells of it, without a 0 behind them: each wrong
   line with the word and the reason, or else what is right and unlikely to be meant. Where there is less room than `length`, it is
   their front. DONE: it is a policy. BAD_LINE: it is none, whatever is wrong. MEMORY, and then nothing is written. */
racl_checked racl_check(const uint8_t *text, size_t length, uint8_t *buffer, size_t room);

/* The line of a policy's text in which the rule stands that an answer names with this direction, on a frame of this interface:
   DONE and `line`, which is 0 where the policy has no such rule. MEMORY. */
racl_made racl_line_of(const uint8_t *text, size_t length, uint8_t interface_number, uint32_t direction, uint32_t rule);

/* Judges by the policy of `other` from now on, of which it reads nothing anew, whatever tables `other` has, and by its
   timeouts. Both handles are the call's own: threads that take from one do so under a lock. DONE; STRANGERS where the
   timeouts are others and the judge isn't alone over its tables; MEMORY where more judges than the memory could have share
   the policy. Where it isn't DONE, policy and timeouts stay. */
uint32_t racl_take_policy(racl_handle *handle, racl_handle *other);

/* ---- Frames: from their Ethernet addresses on and without their checksum; seconds count from whenever the caller likes,
   are the same for all judges over the same tables, and don't begin again at 0: a frame of an earlier second than its session's
   last finds that live, and leaves it as late as it was. A frame's bytes are those that were kept of it ---- */

/* One try of judging a frame of `length` bytes that was seen at the interface with this number in this second. It is never
   CONTENDED where the judge's tables are new and it was not split, nor where the frame takes no part in sessions. */
racl_answer racl_judge(racl_handle *handle, uint8_t interface_number, uint32_t second, const uint8_t *frame, size_t length);

/* Judges the frames that `count` descriptors name in an area of `length` bytes, in their order, and answers each at its place
   among `room` answers, so many at most. It ends before the first frame that is answered CONTENDED, and says how many were
   judged: that frame's answer says so, and answers behind it are as they were. Over large tables it loads ahead what
   judging the next frames will load, so that the processor waits for all of it at once. */
size_t racl_judge_burst(racl_handle *handle, const uint8_t *memory, size_t length, const racl_descriptor *descriptors,
                        size_t count, racl_answer *answers, size_t room);

/* By what a frame's flow is dealt that is seen at this interface. */
racl_flow racl_flow_of(uint8_t interface_number, const uint8_t *frame, size_t length);

/* Of so many workers, from 0 on, the one to which a flow's frames are dealt, and to which a bucket of the tables of family 4
   or 6 is: a flow's worker is that of its bucket, in tables of either size. In standard tables that is the bucket modulo the
   number of workers. Worker 0 gets the frames of no flow, and all where there is no worker. */
uint32_t racl_worker_of(racl_flow flow, uint32_t workers);
uint32_t racl_worker_of_bucket(uint32_t family, uint64_t bucket, uint32_t workers);

/* How many frames the judge gave each verdict. The handle is the call's own, as everywhere: for other threads the judge's own
   publishes its counts, by racl_publish_counts below. */
void racl_counts(racl_handle *handle, racl_count *counts);

/* ---- Counts by rule: those of the section that a frame's interface has, by the numbers that answers have. Who counts while
   several threads judge gives each thread counts of its own ---- */

/* Counts of no frame at `counts` for the rules of this policy, in the way of racl_new. DONE, or MEMORY, NOT_UTF8, BAD_LINE or
   TOO_MANY, which leave `counts` as it was. */
racl_made racl_rule_counts_new(racl_rule_counts *counts, const uint8_t *text, size_t length);

/* Counts a frame of this interface that was answered with this direction and this rule. Where the rule is 0 it counts among those
   of the direction that no rule decided. One without a direction, or with a rule that the policy doesn't have, isn't counted. */
void racl_count_rule(racl_rule_counts *counts, uint8_t interface_number, uint32_t direction, uint32_t rule);

/* How many frames of this interface and direction were counted for this rule, and 0 where there is no such rule. */
uint64_t racl_rule_count(racl_rule_counts *counts, uint8_t interface_number, uint32_t direction, uint32_t rule);

/* Lets go of counts, and leaves nothing behind their handle. */
void racl_free_rule_counts(racl_rule_counts *counts);

/* ---- Sessions that have ended hold their places until another takes them, or someone looks at their buckets, of which
   tables have so many. Any judge may, at any time, by a second behind which no judge falls: a
   session that went lets no late frame through. A frame, too, takes away its flow's session that has ended. Threads that each
   judge the flows that racl_worker_of deals to them, and sweep the buckets that racl_worker_of_bucket does, as
   racl_sweep_ipv4_own_wait and racl_sweep_ipv6_own_wait do, meet in no bucket: they are CONTENDED only where they take pages or
   give them back at once ---- */

#define RACL_IPV4_BUCKETS 4096
#define RACL_IPV6_BUCKETS 1024
#define RACL_LARGE_BUCKETS 65536

/* One try of a look at a bucket for a session that has ended by this second by the judge's timeouts. ENDED: one went. DONE: none
   has, or the tables have no such bucket. WORN: one has, and the bucket takes no more changes. CONTENDED. */
uint32_t racl_expire_ipv4(racl_handle *handle, uint64_t bucket, uint32_t second);
uint32_t racl_expire_ipv6(racl_handle *handle, uint64_t bucket, uint32_t second);

/* Looks so at the buckets from `from` to before `to`, at each until no session in it has ended or it takes no more changes, with
   at most so many looks. DONE, or CONTENDED in the bucket `next`: go on there. */
racl_swept racl_sweep_ipv4(racl_handle *handle, uint64_t from, uint64_t to, uint32_t second, uint64_t most);
racl_swept racl_sweep_ipv6(racl_handle *handle, uint64_t from, uint64_t to, uint32_t second, uint64_t most);

/* How many pages of a family's table no bucket ever had, as it stood at some time during the call: at best a bound, since other
   judges take pages meanwhile, and blocks that came back don't count. At most RACL_PAGE_PLACES sessions stand in a page, so that
   a table has no more sessions than its other pages have places. */
uint64_t racl_unused_ipv4(racl_handle *handle);
uint64_t racl_unused_ipv6(racl_handle *handle);

#define RACL_IPV4_PAGES 16384
#define RACL_IPV6_PAGES 4096
#define RACL_LARGE_PAGES 262144
#define RACL_PAGE_PLACES 4

/* Opens the table of a family again: its sessions stay, and no bucket is worn. Each other judge over the tables was joined
   before. DONE, or STRANGERS or MEMORY; or CONTENDED, where each was joined and another one's hold of the tables was not let
   go of yet. It asks for three times the table's memory. */
uint32_t racl_renew_ipv4(racl_handle *handle);
uint32_t racl_renew_ipv6(racl_handle *handle);

/* Closes the table of a family: its sessions are at `sessions`, in the way of racl_new, and the judge goes on over a new table
   without any. Each other judge over the tables was joined before. DONE, or STRANGERS, MEMORY or CONTENDED, as of a renewal,
   which leave the table and `sessions` as they were. It asks for the table's memory twice more, and for that of its sessions. */
uint32_t racl_close_ipv4(racl_handle *handle, racl_sessions *sessions);
uint32_t racl_close_ipv6(racl_handle *handle, racl_sessions *sessions);

/* How many sessions there are. */
uint64_t racl_session_count(racl_sessions *sessions);

/* The session at a place, counted from 0, in the order of their keys, which is that of `racl --sessions`: 1, or 0 behind the
   last, and then nothing is written. Sessions that have ended and hold their places are there too. */
uint32_t racl_session_at(racl_sessions *sessions, uint64_t at, racl_session *session);

/* Lets go of sessions, and leaves nothing behind their handle. */
void racl_free_sessions(racl_sessions *sessions);

/* ---- What is read without a judge ---- */

/* The name of a kind, as it stands in this page behind RACL_, and "?" of none. */
static inline const char *racl_kind_name(uint32_t kind) {
  static const char *const names[] = {"DONE",       "MEMORY",  "NOT_UTF8",  "BAD_LINE",  "TOO_MANY", "BAD_OPTIONS", "NUMBERS",
                                      "CONTENDED",  "STRANGERS", "ENDED",   "?",         "?",        "?",           "?",
                                      "?",          "?",       "SESSION",   "REFLECT",   "PERMIT",   "DENY",        "BY_DEFAULT",
                                      "WORN",       "FULL",    "NO_PAGES",  "NOT_IP",    "MALFORMED", "SHORT"};
  return kind <= RACL_SHORT ? names[kind] : "?";
}

/* Writes the judge's counts to `published`, in the judge's own thread, as often as it likes; any thread reads them there at any
   time by racl_published_counts. Each number is one that the judge had when it published, and none falls; numbers of two
   publications may stand beside one another. */
#define RACL_COUNTS(EACH) \
  EACH(session) EACH(reflect) EACH(permit) EACH(deny) EACH(by_default) EACH(worn) EACH(full) EACH(no_pages) EACH(not_ip) \
  EACH(malformed) EACH(cut_short)

static inline void racl_publish_counts(racl_handle *handle, racl_count *published) {
  racl_count counts;
  racl_counts(handle, &counts);
#define RACL_PUBLISH(NAME) __atomic_store_n(&published->NAME, counts.NAME, __ATOMIC_RELAXED);
  RACL_COUNTS(RACL_PUBLISH)
#undef RACL_PUBLISH
}

static inline void racl_published_counts(const racl_count *published, racl_count *counts) {
#define RACL_READ(NAME) counts->NAME = __atomic_load_n(&published->NAME, __ATOMIC_RELAXED);
  RACL_COUNTS(RACL_READ)
#undef RACL_READ
}

#undef RACL_COUNTS

/* ---- Tries until one is answered ---- */

/* A pause between two tries. */
static inline void racl_pause(void) {
#if defined(__x86_64__)
  __builtin_ia32_pause();
#endif
}

static inline racl_answer racl_judge_wait(racl_handle *handle, uint8_t interface_number, uint32_t second, const uint8_t *frame,
                                          size_t length) {
  racl_answer answer = racl_judge(handle, interface_number, second, frame, length);
  while (answer.kind == RACL_CONTENDED) {
    racl_pause();
    answer = racl_judge(handle, interface_number, second, frame, length);
  }
  return answer;
}

static inline void racl_judge_burst_wait(racl_handle *handle, const uint8_t *memory, size_t length,
                                         const racl_descriptor *descriptors, size_t count, racl_answer *answers) {
  size_t done = racl_judge_burst(handle, memory, length, descriptors, count, answers, count);
  while (done < count) {
    racl_pause();
    done += racl_judge_burst(handle, memory, length, descriptors + done, count - done, answers + done, count - done);
  }
}

static inline uint32_t racl_split_wait(racl_handle *handle, racl_handle *fresh) {
  uint32_t answer = racl_split(handle, fresh);
  while (answer == RACL_CONTENDED) {
    racl_pause();
    answer = racl_split(handle, fresh);
  }
  return answer;
}

#define RACL_SWEEPING(FAMILY, NUMBER)                                                                                        \
  /* Sessions of the buckets from `from` to before `to` that have ended by this second go; how many went. */           \
  static inline uint64_t racl_sweep_##FAMILY##_wait(racl_handle *handle, uint64_t from, uint64_t to, uint32_t second) { \
    racl_swept swept = racl_sweep_##FAMILY(handle, from, to, second, UINT64_MAX);                                      \
    uint64_t went = swept.went;                                                                                        \
    while (swept.kind == RACL_CONTENDED) {                                                                             \
      racl_pause();                                                                                                    \
      swept = racl_sweep_##FAMILY(handle, swept.next, to, second, UINT64_MAX);                                         \
      went += swept.went;                                                                                              \
    }                                                                                                                  \
    return went;                                                                                                       \
  }                                                                                                                    \
  /* So they go from those of `buckets` buckets that are dealt to one worker of so many; how many went. */             \
  static inline uint64_t racl_sweep_##FAMILY##_own_wait(racl_handle *handle, uint64_t buckets, uint32_t worker,        \
                                                        uint32_t workers, uint32_t second) {                           \
    uint64_t went = 0;                                                                                                 \
    for (uint64_t bucket = 0; bucket < buckets; bucket++)                                                              \
      if (racl_worker_of_bucket(NUMBER, bucket, workers) == worker)                                                    \
        went += racl_sweep_##FAMILY##_wait(handle, bucket, bucket + 1, second);                                        \
    return went;                                                                                                       \
  }

RACL_SWEEPING(ipv4, 4)
RACL_SWEEPING(ipv6, 6)

#undef RACL_SWEEPING

/* The bucket of a flow in tables of which its family has so many buckets. */
static inline uint64_t racl_bucket_of(racl_flow flow, uint64_t buckets) { return flow.hash % buckets; }

#ifdef __cplusplus
}
#endif

#endif
