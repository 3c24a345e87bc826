// Calls each function of include/racl.h: judges that are split, met, joined, given policies and timeouts, aged, renewed and closed, frames
// that are counted by rule, flows and buckets that are dealt, texts that are checked, and four threads that judge one flow at once. Whenever a call was refused memory, what was there is looked at: nothing may be lost. The call is
// made once more then. Each refusal is written in a line with the call's name. Ends with 0 where all was done, with 4 where a
// call was refused twice, and with 1 where anything is wrong. ./c_filter_calls [ROUNDS [large]]
#include "racl.h"
#include <pthread.h>
#include <stdio.h>
#include <stdlib.h>
#include <string.h>

enum { THREADS = 4 };

static const char OUTWARD[] = "mac 02:00:00:00:00:01\nout permit+reflect ipv4 any any\nout permit+reflect ipv6 any any\n";
static const char CLOSED[] = "mac 02:00:00:00:00:01\nin deny ipv4 any any\n";
static const char WRONG[] = "mac 02:00:00:00:00:01\n\nout permits ipv4 any any\n";

static const uint8_t *const outward = (const uint8_t *)OUTWARD;

static void wrong(const char *what, unsigned long told) {
    fprintf(stderr, "%s: %lu\n", what, told);
    exit(1);
}

static void expect(int holds, const char *what, unsigned long told) {
    if (!holds) wrong(what, told);
}

/* A frame of UDP over IPv4 between port `port` of 10.0.0.1 and port 53 of 10.0.0.2. */
static void set_frame(uint8_t frame[42], int is_outward, uint16_t port) {
    static const uint8_t own[6] = {2, 0, 0, 0, 0, 1}, peer[6] = {2, 0, 0, 0, 0, 2};
    static const uint8_t header[20] = {0x45, 0, 0, 28, 0, 0, 0, 0, 64, 17, 0, 0, 10, 0, 0, 1, 10, 0, 0, 2};
    memset(frame, 0, 42);
    memcpy(frame, is_outward ? peer : own, 6);
    memcpy(frame + 6, is_outward ? own : peer, 6);
    frame[12] = 8;
    memcpy(frame + 14, header, 20);
    uint8_t *ports = frame + 34;
    if (!is_outward) frame[29] = 2, frame[33] = 1, ports += 2;
    ports[0] = (uint8_t)(port >> 8), ports[1] = (uint8_t)port;
    frame[is_outward ? 37 : 35] = 53;
    frame[39] = 8;
}

static racl_answer judge(racl_handle *handle, int is_outward, uint16_t port, uint32_t second) {
    uint8_t frame[42];
    set_frame(frame, is_outward, port);
    return racl_judge_wait(handle, 0, second, frame, sizeof frame);
}

/* Four flows have sessions, and all others haven't. */
static void look(racl_handle *handle) {
    for (uint16_t port = 1; port <= 4; port++) {
        racl_answer answer = judge(handle, 0, port, 10);
        expect(answer.kind == RACL_SESSION && answer.passes == 1 && answer.rule == 0, "a session is lost", answer.kind);
        expect(answer.direction == RACL_INBOUND, "the way in", answer.direction);
    }
    expect(judge(handle, 0, 9, 10).kind == RACL_BY_DEFAULT, "an answer without a session", 9);
}

// Whether a call was refused memory. The second refusal ends the program.
static int is_refused(const char *call, uint32_t answer, int *refused) {
    if (answer != RACL_MEMORY) return 0;
    printf("%s\n", call);
    return ++*refused;
}

struct worker {
    racl_handle judge;
    pthread_t thread;
    long rounds, sessions;
};

static void *judge_one_flow(void *given) {
    struct worker *worker = given;
    uint8_t frames[2][42];
    set_frame(frames[0], 0, 1), set_frame(frames[1], 1, 1);
    for (long i = 0; i < worker->rounds; i++) {
        const uint8_t *frame = frames[i % 2];
        worker->sessions += racl_judge_wait(&worker->judge, 0, 10, frame, 42).kind == RACL_SESSION;
    }
    return NULL;
}

static void run_threads(racl_handle *first, long rounds) {
    static struct worker workers[THREADS];
    for (int i = 0; i < THREADS; i++) {
        workers[i].rounds = rounds;
        uint32_t answer = racl_split_wait(first, &workers[i].judge);
        expect(answer == RACL_DONE, "a split for a thread", answer);
        expect(!pthread_create(&workers[i].thread, NULL, judge_one_flow, &workers[i]), "a thread", 0);
    }
    for (int i = 0; i < THREADS; i++) {
        pthread_join(workers[i].thread, NULL);
        expect(workers[i].sessions == rounds, "frames of a live session", (unsigned long)workers[i].sessions);
        racl_join(first, &workers[i].judge);
        expect(!workers[i].judge.at, "a joined handle is left", 0);
    }
}

/* Descriptors in one area; the last names bytes that aren't there. */
static void judge_bursts(racl_handle *handle) {
    uint8_t area[3 * 42];
    racl_descriptor frames[4] = {{42, 42, 10, 0}, {0, 42, 10, 0}, {84, 42, 10, 3}, {100, 42, 10, 0}};
    racl_answer answers[5];
    memset(answers, 0x5a, sizeof answers);
    set_frame(area, 0, 1), set_frame(area + 42, 1, 2), set_frame(area + 84, 0, 1);
    racl_judge_burst_wait(handle, area, sizeof area, frames, 4, answers);
    expect(answers[0].kind == RACL_SESSION && answers[0].direction == RACL_OUTBOUND, "a burst's first", answers[0].kind);
    expect(answers[1].kind == RACL_SESSION, "a burst's second", answers[1].kind);
    expect(answers[2].kind == RACL_BY_DEFAULT, "a session of another interface", answers[2].kind);
    expect(answers[3].kind == RACL_MALFORMED && answers[3].direction == 0, "a frame outside", answers[3].kind);
    expect(answers[4].kind == 0x5a5a5a5a, "an answer behind a burst", answers[4].kind);
    expect(racl_judge_burst(handle, area, sizeof area, frames, 4, answers, 2) == 2, "places of answers", 0);
    expect(racl_judge_burst(handle, area, sizeof area, frames, 0, answers, 4) == 0, "an empty burst", 0);
}

/* Each flow's worker is that of its bucket, in tables of both sizes and for each number of workers. In standard tables that is the
   bucket modulo this number. */
static void deal_buckets(void) {
    for (uint32_t workers = 1; workers <= 17; workers++)
        for (uint16_t port = 1; port <= 2000; port++) {
            uint8_t frame[42];
            set_frame(frame, 1, port);
            racl_flow four = racl_flow_of(0, frame, 42), six = {6, four.hash};
            uint32_t worker = racl_worker_of(four, workers), other = racl_worker_of(six, workers);
            expect(worker == racl_bucket_of(four, RACL_IPV4_BUCKETS) % workers, "a worker of IPv4", port);
            expect(other == racl_bucket_of(six, RACL_IPV6_BUCKETS) % workers, "a worker of IPv6", port);
            expect(worker == racl_worker_of_bucket(4, racl_bucket_of(four, RACL_IPV4_BUCKETS), workers), "the worker of a bucket", port);
            expect(worker == racl_worker_of_bucket(4, racl_bucket_of(four, RACL_LARGE_BUCKETS), workers), "the worker of a large bucket", port);
            expect(other == racl_worker_of_bucket(6, racl_bucket_of(six, RACL_IPV6_BUCKETS), workers), "the worker of a bucket of IPv6", port);
            expect(other == racl_worker_of_bucket(6, racl_bucket_of(six, RACL_LARGE_BUCKETS), workers), "the worker of a large bucket of IPv6", port);
        }
    racl_flow none = {0, 0}, some = {4, 7};
    expect(racl_worker_of(none, 3) == 0 && racl_worker_of(some, 0) == 0, "the worker of no flow", 0);
}

enum { SWEEPERS = 3, FLOWS = 6000 };

struct sweeper {
    racl_handle judge;
    pthread_t thread;
    uint32_t number;
    uint64_t buckets, entered, went;
};

/* Judges the flows that are dealt to it, and sweeps the buckets that are. */
static void *judge_and_sweep_own(void *given) {
    struct sweeper *it = given;
    for (uint32_t second = 10; second < 4010; second += 1000) {
        for (uint16_t port = 1; port <= FLOWS; port++) {
            uint8_t frame[42];
            set_frame(frame, 1, port);
            if (racl_worker_of(racl_flow_of(0, frame, 42), SWEEPERS) != it->number) continue;
            it->entered += racl_judge_wait(&it->judge, 0, second, frame, 42).kind == RACL_REFLECT;
        }
        it->went += racl_sweep_ipv4_own_wait(&it->judge, it->buckets, it->number, SWEEPERS, second + 900);
    }
    return NULL;
}

/* Three threads over new tables: each one's sessions go by its own sweeps, all of them. */
static void sweep_own(int is_large) {
    static struct sweeper sweepers[SWEEPERS];
    racl_handle first = RACL_NO_HANDLE;
    racl_options options = RACL_OPTIONS;
    if (is_large) options.tables = RACL_LARGE;
    expect(racl_new(&first, outward, sizeof OUTWARD - 1, &options).kind == RACL_DONE, "new tables to sweep", 0);
    for (uint32_t i = 0; i < SWEEPERS; i++) {
        sweepers[i].number = i, sweepers[i].buckets = is_large ? RACL_LARGE_BUCKETS : RACL_IPV4_BUCKETS;
        expect(racl_split_wait(&first, &sweepers[i].judge) == RACL_DONE, "a split for a sweeper", i);
    }
    for (int i = 0; i < SWEEPERS; i++) expect(!pthread_create(&sweepers[i].thread, NULL, judge_and_sweep_own, &sweepers[i]), "a thread", 0);
    uint64_t went = 0;
    for (int i = 0; i < SWEEPERS; i++) {
        pthread_join(sweepers[i].thread, NULL);
        expect(sweepers[i].went == sweepers[i].entered, "sessions that a sweeper entered", sweepers[i].went);
        went += sweepers[i].went;
        racl_join(&first, &sweepers[i].judge);
    }
    expect(went == 4 * FLOWS, "sessions that were swept", went);
    racl_free(&first);
}

static void deal_flows(void) {
    uint8_t out[42], in[42];
    set_frame(out, 1, 7), set_frame(in, 0, 7);
    racl_flow one = racl_flow_of(0, out, 42), other = racl_flow_of(0, in, 42), none = racl_flow_of(0, out, 20);
    expect(one.family == 4 && other.family == 4 && one.hash == other.hash, "both directions' hash", one.family);
    expect(racl_worker_of(one, 3) == racl_worker_of(other, 3), "both directions' worker", 0);
    expect(racl_flow_of(1, out, 42).hash != one.hash, "another interface's hash", 1);
    expect(none.family == 0 && none.hash == 0, "a cut frame's flow", none.family);
    deal_buckets();
}

/* Sessions of bucket after bucket go once they have ended, and none before. */
static void age(racl_handle *handle, uint64_t buckets) {
    expect(racl_sweep_ipv4_wait(handle, 0, buckets, 600) == 0, "a live session went", 0);
    expect(racl_sweep_ipv6_wait(handle, 0, RACL_LARGE_BUCKETS, 4000) == 0, "a session of IPv6 went", 0);
    racl_swept swept = racl_sweep_ipv4(handle, 5, buckets, 600, 10);
    expect(swept.kind == RACL_DONE && swept.next == 15 && swept.went == 0, "a short sweep", (unsigned long)swept.next);
    uint64_t went = racl_sweep_ipv4_wait(handle, 0, buckets, 4000);
    expect(went == 4, "sessions that ended", went);
    expect(judge(handle, 0, 1, 4000).kind == RACL_BY_DEFAULT, "a session that went", 0);
    expect(racl_expire_ipv4(handle, buckets, 4000) == RACL_DONE, "a bucket that isn't there", 0);
}

static racl_checked check(const char *text, uint8_t *buffer, size_t room) {
    racl_checked checked;
    for (int refused = 0; refused < 2;)
        if (!is_refused("check", (checked = racl_check((const uint8_t *)text, strlen(text), buffer, room)).kind, &refused)) break;
    return checked;
}

static racl_made line_of(uint32_t direction, uint32_t rule) {
    racl_made made;
    for (int refused = 0; refused < 2;)
        if (!is_refused("line_of", (made = racl_line_of(outward, sizeof OUTWARD - 1, 0, direction, rule)).kind, &refused)) break;
    return made;
}

/* What is told of a text's lines, as far as there is room, and where its rules stand. Whether a call was refused twice. */
static int read_texts(void) {
    static const char told[] = "line 3: `permits` is no action: deny, permit or permit+reflect\nno policy: wrong lines 1\n";
    uint8_t buffer[200];
    memset(buffer, 0x5a, sizeof buffer);
    racl_checked checked = check(WRONG, buffer, sizeof buffer);
    if (checked.kind == RACL_MEMORY) return expect(buffer[0] == 0x5a, "a refused check writes", 0), 1;
    expect(checked.kind == RACL_BAD_LINE && checked.length == sizeof told - 1, "a check", (unsigned long)checked.length);
    expect(!memcmp(buffer, told, sizeof told - 1) && buffer[sizeof told - 1] == 0x5a, "the lines of a check", 0);
    memset(buffer, 0x5a, sizeof buffer);
    if ((checked = check(WRONG, buffer, 7)).kind == RACL_MEMORY) return 1;
    expect(checked.length == sizeof told - 1 && !memcmp(buffer, "line 3:Z", 8), "a check with little room", buffer[7]);
    if ((checked = check(OUTWARD, buffer, 0)).kind == RACL_MEMORY) return 1;
    expect(checked.kind == RACL_DONE && buffer[0] == 'l', "a check of a policy", checked.kind);
    racl_made made = line_of(RACL_OUTBOUND, 2);
    if (made.kind == RACL_MEMORY) return 1;
    expect(made.kind == RACL_DONE && made.line == 3, "the line of a rule", (unsigned long)made.line);
    if ((made = line_of(RACL_INBOUND, 1)).kind == RACL_MEMORY) return 1;
    expect(made.kind == RACL_DONE && made.line == 0, "the line of no rule", (unsigned long)made.line);
    return 0;
}

static void see_pages(racl_handle *handle, int is_large) {
    uint64_t pages = is_large ? RACL_LARGE_PAGES : RACL_IPV4_PAGES, unused = racl_unused_ipv4(handle);
    expect(unused < pages && (pages - unused) * RACL_PAGE_PLACES >= 4, "pages of IPv4", (unsigned long)unused);
    pages = is_large ? RACL_LARGE_PAGES : RACL_IPV6_PAGES;
    expect(racl_unused_ipv6(handle) == pages, "pages of IPv6", (unsigned long)racl_unused_ipv6(handle));
}

/* A frame of UDP over IPv6 from port 4000 of 2001:db8::2 to port 53 of 2001:db8::1 (RFC 8200). */
static racl_answer judge_ipv6(racl_handle *handle, uint32_t second) {
    uint8_t frame[62] = {2, 0, 0, 0, 0, 2, 2, 0, 0, 0, 0, 1, 0x86, 0xdd, 0x60, 0, 0, 0, 0, 8, 17, 64};
    uint8_t *addresses = frame + 22, *ports = frame + 54;
    for (int end = 0; end < 2; end++)
        addresses[16 * end] = 0x20, addresses[16 * end + 1] = 1, addresses[16 * end + 2] = 0x0d, addresses[16 * end + 3] = 0xb8;
    addresses[15] = 2, addresses[31] = 1;
    ports[0] = 4000 >> 8, ports[1] = (uint8_t)4000, ports[3] = 53, ports[5] = 8;
    return racl_judge_wait(handle, 0, second, frame, sizeof frame);
}

/* The tables are closed one by one, and have no sessions then. Whether a call was refused twice. */
static int close_tables(racl_handle *handle) {
    racl_sessions four = RACL_NO_SESSIONS, six = RACL_NO_SESSIONS;
    racl_session it;
    uint32_t answer;
    int refused;
    expect(judge(handle, 1, 4000, 5000).kind == RACL_REFLECT && judge(handle, 0, 4000, 5007).kind == RACL_SESSION, "a session to close", 4);
    expect(judge_ipv6(handle, 5001).kind == RACL_REFLECT, "a session to close", 6);
    for (refused = 0; is_refused("close", answer = racl_close_ipv4(handle, &four), &refused);) {
        expect(!four.at && judge(handle, 0, 4000, 5007).kind == RACL_SESSION, "a refused close", 4);
        if (refused == 2) return 1;
    }
    expect(answer == RACL_DONE && racl_session_count(&four) == 1, "sessions of IPv4", answer);
    expect(racl_session_at(&four, 0, &it) == 1 && it.family == 4 && it.protocol == 17 && it.interface_number == 0, "a session of IPv4", it.family);
    expect(it.last == 5007 && it.until == 5607, "the seconds of a session", it.last);
    static const uint8_t host[16] = {10, 0, 0, 1}, server[16] = {10, 0, 0, 2};
    expect(!memcmp(it.first.address, host, 16) && it.first.port == 4000 && !it.first.flags, "the first end", it.first.port);
    expect(!memcmp(it.second.address, server, 16) && it.second.port == 53 && !it.second.flags, "the second end", it.second.port);
    it.last = 7;
    expect(racl_session_at(&four, 1, &it) == 0 && it.last == 7, "a session behind the last", it.last);
    racl_free_sessions(&four);
    expect(!four.at && judge(handle, 0, 4000, 5007).kind == RACL_BY_DEFAULT, "a session of a closed table", 4);
    expect(judge_ipv6(handle, 5002).kind == RACL_SESSION, "a session of the other table", 6);
    for (refused = 0; is_refused("close", answer = racl_close_ipv6(handle, &six), &refused);) {
        expect(!six.at && judge_ipv6(handle, 5002).kind == RACL_SESSION, "a refused close", 6);
        if (refused == 2) return 1;
    }
    expect(answer == RACL_DONE && racl_session_count(&six) == 1, "sessions of IPv6", answer);
    expect(racl_session_at(&six, 0, &it) == 1 && it.family == 6 && it.last == 5002, "a session of IPv6", it.family);
    static const uint8_t lesser[16] = {0x20, 1, 0x0d, 0xb8, [15] = 1}, greater[16] = {0x20, 1, 0x0d, 0xb8, [15] = 2};
    expect(!memcmp(it.first.address, lesser, 16) && it.first.port == 53, "the lesser end", it.first.port);
    expect(!memcmp(it.second.address, greater, 16) && it.second.port == 4000, "the greater end", it.second.port);
    racl_free_sessions(&six);
    return 0;
}

/* Frames are counted by rule. Whether a call was refused twice. */
static int count_rules(void) {
    racl_rule_counts counts = RACL_NO_RULE_COUNTS;
    racl_made made;
    for (int refused = 0; is_refused("rule_counts_new", (made = racl_rule_counts_new(&counts, outward, sizeof OUTWARD - 1)).kind, &refused);) {
        expect(!counts.at, "refused counts leave a handle", 0);
        if (refused == 2) return 1;
    }
    expect(made.kind == RACL_DONE, "rule_counts_new", made.kind);
    for (int i = 0; i < 3; i++) racl_count_rule(&counts, 0, RACL_OUTBOUND, 2);
    racl_count_rule(&counts, 0, RACL_INBOUND, 0), racl_count_rule(&counts, 0, RACL_NO_DIRECTION, 1);
    racl_count_rule(&counts, 0, RACL_OUTBOUND, 3), racl_count_rule(&counts, 9, RACL_INBOUND, 0);
    expect(racl_rule_count(&counts, 0, RACL_OUTBOUND, 2) == 3, "the count of a rule", 2);
    expect(racl_rule_count(&counts, 0, RACL_OUTBOUND, 1) == 0, "the count of another rule", 1);
    expect(racl_rule_count(&counts, 0, RACL_OUTBOUND, 3) == 0, "the count of no rule", 3);
    expect(racl_rule_count(&counts, 0, RACL_INBOUND, 0) == 1 && racl_rule_count(&counts, 9, RACL_INBOUND, 0) == 1, "the count by default", 0);
    racl_free_rule_counts(&counts);
    made = racl_rule_counts_new(&counts, (const uint8_t *)WRONG, sizeof WRONG - 1);
    expect((made.kind == RACL_BAD_LINE && made.line == 3) || made.kind == RACL_MEMORY, "counts of a wrong policy", made.kind);
    expect(!counts.at, "counts are left", 0);
    return 0;
}

/* Judges over the same tables have the same timeouts: a session lives as long for each. One that is alone may take others. */
static void take_timeouts(void) {
    racl_handle one = RACL_NO_HANDLE, other = RACL_NO_HANDLE, brief = RACL_NO_HANDLE;
    racl_options options = RACL_OPTIONS;
    expect(racl_new(&one, outward, sizeof OUTWARD - 1, &options).kind == RACL_DONE, "a judge with timeouts", 0);
    options.udp = 10;
    expect(racl_new(&brief, outward, sizeof OUTWARD - 1, &options).kind == RACL_DONE, "a judge with brief timeouts", 0);
    expect(racl_split(&one, &other) == RACL_DONE, "a split with timeouts", 0);
    expect(judge(&one, 1, 1, 105).kind == RACL_REFLECT, "a session with timeouts", 105);
    expect(racl_take_policy(&other, &brief) == RACL_STRANGERS, "other timeouts beside a judge", 0);
    expect(racl_sweep_ipv4_wait(&other, 0, RACL_IPV4_BUCKETS, 116) == 0, "a session live for another judge went", 116);
    expect(judge(&other, 0, 1, 116).kind == RACL_SESSION, "a session of another judge", 116);
    expect(judge(&one, 0, 1, 117).kind == RACL_SESSION, "a session beside another judge", 117);
    racl_join(&one, &other);
    expect(racl_take_policy(&one, &brief) == RACL_DONE, "other timeouts of a lone judge", 0);
    expect(racl_sweep_ipv4_own_wait(&one, RACL_IPV4_BUCKETS, 0, 1, 127) == 0, "a session that is live went", 127);
    expect(racl_sweep_ipv4_own_wait(&one, RACL_IPV4_BUCKETS, 0, 1, 128) == 1, "a session that ended", 128);
    racl_free(&brief), racl_free(&one);
}

/* What is known of the library without a judge. */
static void tell_names(void) {
    expect(racl_version() == RACL_VERSION_NUMBER, "the version", racl_version());
    expect(!strcmp(racl_kind_name(RACL_DONE), "DONE") && !strcmp(racl_kind_name(RACL_ENDED), "ENDED"), "names of kinds", 0);
    expect(!strcmp(racl_kind_name(RACL_SESSION), "SESSION") && !strcmp(racl_kind_name(RACL_SHORT), "SHORT"), "names of kinds", 16);
    expect(!strcmp(racl_kind_name(RACL_NO_PAGES), "NO_PAGES") && !strcmp(racl_kind_name(RACL_STRANGERS), "STRANGERS"), "names of kinds", 23);
    expect(!strcmp(racl_kind_name(12), "?") && !strcmp(racl_kind_name(27), "?"), "names of no kind", 12);
}

/* Options of which a program knows more than the library does. */
static void make_by_larger_options(void) {
    struct {
        racl_options known;
        uint32_t more[3];
    } options = {RACL_OPTIONS, {0}};
    options.known.size = sizeof options;
    racl_handle handle = RACL_NO_HANDLE;
    expect(racl_new(&handle, outward, sizeof OUTWARD - 1, &options.known).kind == RACL_DONE, "larger options", 0);
    racl_free(&handle);
    handle = RACL_NO_HANDLE;
    options.more[2] = 1;
    expect(racl_new(&handle, outward, sizeof OUTWARD - 1, &options.known).kind == RACL_BAD_OPTIONS && !handle.at, "options that say more", 0);
}

/* Counts that another thread reads while they are published. */
static racl_count published;

static void *read_counts(void *given) {
    racl_count counts;
    uint64_t last = 0;
    do {
        racl_published_counts(&published, &counts);
        expect(counts.by_default >= last, "counts that fall", (unsigned long)counts.by_default);
        last = counts.by_default;
    } while (last < 1000);
    return given;
}

static void publish_counts(void) {
    racl_handle counted = RACL_NO_HANDLE;
    racl_options options = RACL_OPTIONS;
    pthread_t reader;
    expect(racl_new(&counted, outward, sizeof OUTWARD - 1, &options).kind == RACL_DONE, "a judge to count", 0);
    expect(!pthread_create(&reader, NULL, read_counts, NULL), "a thread", 0);
    for (int i = 0; i < 1000; i++) {
        expect(judge(&counted, 0, 1, 10).kind == RACL_BY_DEFAULT, "a frame to count", i);
        racl_publish_counts(&counted, &published);
    }
    pthread_join(reader, NULL);
    racl_free(&counted);
}

/* Judges that meet, and neither is alone. */
static void meet(racl_handle *handle, racl_handle *other) {
    expect(!racl_is_lone(handle) && !racl_is_lone(other), "a judge of two is alone", 2);
    racl_meet(handle, other);
    look(handle), look(other);
}

int main(int count, char **given) {
    long rounds = count > 1 ? atol(given[1]) : 1000;
    racl_handle first = RACL_NO_HANDLE, second = RACL_NO_HANDLE, other = RACL_NO_HANDLE;
    racl_options options = RACL_OPTIONS;
    racl_made made;
    uint32_t answer;
    int refused = 0;
    tell_names();
    if (count > 2) options.tables = RACL_LARGE;
    while (is_refused("new", (made = racl_new(&first, outward, sizeof OUTWARD - 1, &options)).kind, &refused))
        if (first.at) wrong("a refused new leaves a handle", 0);
        else if (refused == 2) return 4;
    expect(made.kind == RACL_DONE && made.line == 0, "new", made.kind);
    for (uint16_t port = 1; port <= 4; port++) {
        racl_answer told = judge(&first, 1, port, 10);
        expect(told.kind == RACL_REFLECT && told.rule == 1 && told.passes && told.direction == RACL_OUTBOUND, "a new session", told.kind);
    }
    look(&first);

    for (refused = 0; is_refused("split", answer = racl_split(&first, &second), &refused);) {
        if (second.at) wrong("a refused split leaves a handle", 0);
        look(&first);
        if (refused == 2) return racl_free(&first), 4;
    }
    expect(answer == RACL_DONE, "split", answer);
    look(&second);
    expect(racl_renew_ipv4(&first) == RACL_STRANGERS, "renew with a stranger", 0);
    racl_sessions sessions = RACL_NO_SESSIONS;
    for (refused = 0; is_refused("close", answer = racl_close_ipv4(&first, &sessions), &refused);)
        if (refused == 2) return racl_free(&second), racl_free(&first), 4;
    expect(answer == RACL_STRANGERS && !sessions.at, "close with a stranger", answer);
    meet(&first, &second);
    for (refused = 0; is_refused("set_policy", (made = racl_set_policy(&second, (const uint8_t *)CLOSED, sizeof CLOSED - 1)).kind, &refused);) {
        expect(judge(&second, 0, 9, 10).kind == RACL_BY_DEFAULT, "a refused policy", 0);
        if (refused == 2) return racl_free(&second), racl_free(&first), 4;
    }
    expect(made.kind == RACL_DONE, "set_policy", made.kind);
    racl_answer told = judge(&second, 0, 9, 10);
    expect(told.kind == RACL_DENY && told.rule == 1 && !told.passes, "the new policy", told.kind);
    expect(judge(&second, 0, 1, 10).kind == RACL_SESSION, "a session under the new policy", 0);
    expect(judge(&first, 0, 9, 10).kind == RACL_BY_DEFAULT, "the other one's policy", 0);
    made = racl_set_policy(&second, (const uint8_t *)WRONG, sizeof WRONG - 1);
    expect(made.kind == RACL_BAD_LINE || made.kind == RACL_MEMORY, "a wrong line", made.kind);
    expect(made.kind == RACL_MEMORY || made.line == 3, "a wrong line's number", (unsigned long)made.line);
    expect(judge(&second, 0, 9, 10).kind == RACL_DENY, "a policy behind a wrong one", 0);
    expect(racl_take_policy(&second, &first) == RACL_DONE, "take_policy", 0);
    expect(judge(&second, 0, 9, 10).kind == RACL_BY_DEFAULT, "the policy that was taken", 0);
    racl_join(&first, &second);
    expect(!second.at && racl_is_lone(&first), "a joined handle is left", 0);
    racl_count counts;
    racl_counts(&first, &counts);
    expect(counts.reflect == 4 && counts.deny == 2 && counts.permit == 0, "counts", (unsigned long)counts.reflect);

    if (rounds > 0) {
        run_threads(&first, rounds);
        sweep_own(count > 2);
        take_timeouts(), make_by_larger_options(), publish_counts();
    }
    judge_bursts(&first);
    deal_flows();
    for (refused = 0; is_refused("renew", answer = racl_renew_ipv4(&first), &refused);) {
        look(&first);
        if (refused == 2) return racl_free(&first), 4;
    }
    expect(answer == RACL_DONE, "renew_ipv4", answer);
    look(&first);
    for (refused = 0; is_refused("renew", answer = racl_renew_ipv6(&first), &refused);)
        if (refused == 2) return racl_free(&first), 4;
    expect(answer == RACL_DONE, "renew_ipv6", answer);
    look(&first);
    see_pages(&first, count > 2);
    if (read_texts()) return racl_free(&first), 4;
    age(&first, count > 2 ? RACL_LARGE_BUCKETS : RACL_IPV4_BUCKETS);
    if (close_tables(&first) || count_rules()) return racl_free(&first), 4;
    options.udp = 0;
    expect(racl_new(&other, outward, sizeof OUTWARD - 1, &options).kind == RACL_BAD_OPTIONS && !other.at, "a timeout of 0", 0);
    options.udp = 600, options.size--;
    expect(racl_new(&other, outward, sizeof OUTWARD - 1, &options).kind == RACL_BAD_OPTIONS, "another size", 0);
    racl_free(&first);
    expect(!first.at, "a handle is left", 0);
    return 0;
}
