/* Judges captures by a policy, as `racl` does, in as many threads as are asked for, and writes the same report:

   ./gateway [-t THREADS] [-b FRAMES] [-l] [-q] [-s] POLICY [N=]CAPTURE..

   N is the interface where a capture was taken, 0 where none is named. Captures are pcap files of Ethernet frames. A thread
   is dealt whole flows, and hands over -b frames a call (32). -l: large tables. -q writes the last line of the report, and to
   standard error how long a frame took. -s writes what `racl --hits --sessions` does after the report,
   without the text of the rules.

   make library && cc -O2 -Iinclude -o gateway examples/c/gateway.c out/library/libracl.a -lpthread */
#define _POSIX_C_SOURCE 200809L
#include "racl.h"
#include <arpa/inet.h>
#include <pthread.h>
#include <stdio.h>
#include <stdlib.h>
#include <string.h>
#include <time.h>

enum { MOST_THREADS = 64, MOST_BURST = 256, MOST_CAPTURES = 256, MOST_KEPT = 262144 };

/* The bytes of all captures, one behind the other, and a descriptor of each frame in them with the thread that judges it and
   its answer. */
static uint8_t *area;
static size_t area_length, area_room;
static racl_descriptor *frames;
static uint8_t *owners;
static racl_answer *answers;
static size_t frame_count, frame_room;

static uint32_t threads = 1, burst = 32;
static int is_large, is_quiet, tells_sessions;

/* A capture, whose frames end behind `end`. `interface` is -1 where none was named. */
struct capture {
    size_t end;
    int interface, is_truncated;
};

struct worker {
    racl_handle judge;
    uint32_t number;
    pthread_t thread;
};

static void fail(const char *what, const char *name) {
    fprintf(stderr, "%s: %s\n", name, what);
    exit(3);
}

/* More room for elements of a list that has `count` of them. */
static void *grown(void *list, size_t count, size_t *room, size_t size) {
    if (count < *room) return list;
    *room = *room ? *room * 2 : 1 << 16;
    if (!(list = realloc(list, *room * size))) fail("no memory", "gateway");
    return list;
}

/* Reads a file behind what the area has. */
static void read_file(const char *name) {
    FILE *file = fopen(name, "rb");
    if (!file) fail("can't be opened", name);
    for (size_t read = 1; read > 0; area_length += read) {
        area = grown(area, area_length, &area_room, 1);
        read = fread(area + area_length, 1, area_room - area_length, file);
    }
    fclose(file);
}

static uint32_t word(size_t at, int is_big) {
    const uint8_t *it = area + at;
    return is_big ? (uint32_t)it[0] << 24 | it[1] << 16 | it[2] << 8 | it[3]
                  : it[0] | it[1] << 8 | it[2] << 16 | (uint32_t)it[3] << 24;
}

static struct capture read_capture(const char *name, int interface) {
    size_t at = area_length;
    read_file(name);
    if (area_length - at < 24) fail("no capture", name);
    int is_big = area[at] == 0xa1;
    uint32_t magic = word(at, is_big);
    if (magic != 0xa1b2c3d4 && magic != 0xa1b23c4d) fail("no capture", name);
    for (at += 24; area_length - at >= 16;) {
        uint32_t kept = word(at + 8, is_big);
        if (kept > MOST_KEPT) fail("a packet of too many bytes", name);
        if (area_length - at - 16 < kept) break;
        frames = grown(frames, frame_count, &frame_room, sizeof *frames);
        uint8_t number = interface < 0 ? 0 : (uint8_t)interface;
        frames[frame_count++] = (racl_descriptor){at + 16, kept, word(at, is_big), number};
        at += 16 + kept;
    }
    return (struct capture){frame_count, interface, at != area_length};
}

/* Judges the frames of a thread's flows, some in each call. */
static void *work(void *given) {
    struct worker *worker = given;
    racl_descriptor own[MOST_BURST];
    racl_answer told[MOST_BURST];
    size_t places[MOST_BURST], count = 0;
    for (size_t i = 0; i < frame_count || count > 0; i++) {
        if (i < frame_count && owners[i] == worker->number) {
            places[count] = i;
            own[count++] = frames[i];
        }
        if (count == 0 || (count < burst && i < frame_count)) continue;
        racl_judge_burst_wait(&worker->judge, area, area_length, own, count, told);
        for (size_t k = 0; k < count; k++) answers[places[k]] = told[k];
        count = 0;
    }
    return NULL;
}

/* One frame in each call, without copies. */
static void *work_one_by_one(void *given) {
    struct worker *worker = given;
    for (size_t i = 0; i < frame_count; i++) {
        const racl_descriptor *it = &frames[i];
        if (owners[i] != worker->number) continue;
        answers[i] = racl_judge_wait(&worker->judge, it->interface_number, it->second, area + it->at, it->length);
    }
    return NULL;
}

static void write_report(const struct capture *captures, int count) {
    static const char *const words[] = {"session", "rule %u reflect", "rule %u", "rule %u", "default", "worn",
                                        "full", "no-pages", "not-ip", "malformed", "short"};
    size_t i = 0, passed = 0;
    for (int k = 0; k < count; k++) {
        char where[24] = "";
        if (captures[k].interface >= 0) snprintf(where, sizeof where, "if %d ", captures[k].interface);
        for (; i < captures[k].end; i++) {
            passed += answers[i].passes;
            if (is_quiet) continue;
            printf("%zu %s%s ", i + 1, where, answers[i].passes ? "pass" : "drop");
            printf(words[answers[i].kind - RACL_SESSION], answers[i].rule);
            putchar('\n');
        }
        if (captures[k].is_truncated) printf("%struncated after %zu\n", where, captures[k].end);
    }
    printf("packets %zu pass %zu drop %zu\n", frame_count, passed, frame_count - passed);
}

/* A rule of the policy, with the line in which it stands. */
struct rule {
    uint64_t line;
    uint32_t interface, direction, number;
};

static int by_line(const void *one, const void *other) {
    uint64_t a = ((const struct rule *)one)->line, b = ((const struct rule *)other)->line;
    return (a > b) - (a < b);
}

/* How many packets each rule decided, in the order of the policy's lines. */
static void write_rules(const uint8_t *text, size_t length, racl_rule_counts *counts) {
    struct rule *rules = NULL;
    size_t count = 0, room = 0;
    for (uint32_t at = 0; at < 512; at++) {
        for (struct rule it = {1, at / 2, at % 2 + 1, 1};; it.number++) {
            racl_made made = racl_line_of(text, length, (uint8_t)it.interface, it.direction, it.number);
            if (made.kind != RACL_DONE) fail("no memory", "gateway");
            if (!made.line) break;
            rules = grown(rules, count, &room, sizeof *rules);
            rules[count] = it, rules[count++].line = made.line;
        }
    }
    if (count > 0) qsort(rules, count, sizeof *rules, by_line);
    for (const struct rule *it = rules; it < rules + count; it++)
        printf("interface %u %s rule %u line %llu packets %llu\n", it->interface, it->direction == RACL_INBOUND ? "in" : "out",
               it->number, (unsigned long long)it->line,
               (unsigned long long)racl_rule_count(counts, (uint8_t)it->interface, it->direction, it->number));
    free(rules);
}

static void write_end(const racl_session *session, const racl_end *end) {
    char address[INET6_ADDRSTRLEN];
    inet_ntop(session->family == 4 ? AF_INET : AF_INET6, end->address, address, sizeof address);
    printf(" %s", address);
    if (session->protocol == 6 || session->protocol == 17) printf(" port %u", end->port);
    if (session->protocol == 6) printf(" flags %02x", end->flags);
}

static uint64_t count_live(racl_sessions *sessions, uint32_t second) {
    uint64_t live = 0;
    racl_session it;
    for (uint64_t at = 0; racl_session_at(sessions, at, &it); at++) live += second <= it.until;
    return live;
}

static void write_sessions(racl_sessions *sessions) {
    racl_session it;
    for (uint64_t at = 0; racl_session_at(sessions, at, &it); at++) {
        printf("session interface %u %s", it.interface_number, it.protocol == 6 ? "tcp" : it.protocol == 17 ? "udp" : "icmp");
        write_end(&it, &it.first);
        printf(" and");
        write_end(&it, &it.second);
        printf(" last %u until %llu\n", it.last, (unsigned long long)it.until);
    }
}

/* What the judge's rules decided and its tables hold, which are closed. */
static void tell_sessions(racl_handle *judge, const uint8_t *text, size_t length) {
    racl_rule_counts counts;
    racl_sessions four, six;
    racl_count told;
    uint32_t latest = 0;
    if (racl_rule_counts_new(&counts, text, length).kind || racl_close_ipv4(judge, &four) || racl_close_ipv6(judge, &six))
        fail("no memory", "gateway");
    for (size_t i = 0; i < frame_count; i++) {
        racl_count_rule(&counts, frames[i].interface_number, answers[i].direction, answers[i].rule);
        if (frames[i].second > latest) latest = frames[i].second;
    }
    write_rules(text, length, &counts);
    racl_counts(judge, &told);
    const struct {
        const char *words;
        uint64_t count;
    } lines[] = {{"session packets", told.session}, {"default packets", told.by_default}, {"full packets", told.full},
                 {"worn packets", told.worn}, {"no-pages packets", told.no_pages}, {"not-ip packets", told.not_ip},
                 {"malformed packets", told.malformed}, {"short packets", told.cut_short},
                 {"sessions entered", told.reflect}, {"sessions matched", told.session},
                 {"sessions expired", told.reflect - count_live(&four, latest) - count_live(&six, latest)}};
    for (size_t i = 0; i < sizeof lines / sizeof *lines; i++) printf("%s %llu\n", lines[i].words, (unsigned long long)lines[i].count);
    write_sessions(&four), write_sessions(&six);
    racl_free_rule_counts(&counts), racl_free_sessions(&four), racl_free_sessions(&six);
}

/* The words before the policy's name; where that stands. */
static int read_words(int count, char **words) {
    int at = 1;
    for (; at < count && words[at][0] == '-'; at++) {
        if (!strcmp(words[at], "-l")) is_large = 1;
        else if (!strcmp(words[at], "-q")) is_quiet = 1;
        else if (!strcmp(words[at], "-s")) tells_sessions = 1;
        else if (!strcmp(words[at], "-t") && at + 1 < count) threads = (uint32_t)atoi(words[++at]);
        else if (!strcmp(words[at], "-b") && at + 1 < count) burst = (uint32_t)atoi(words[++at]);
    }
    int is_right = threads - 1 < MOST_THREADS && burst - 1 < MOST_BURST && at + 1 < count && count - at - 1 <= MOST_CAPTURES;
    return is_right ? at : 0;
}

static void make_judges(struct worker *workers, const char *name, size_t begin) {
    racl_options options = RACL_OPTIONS;
    if (is_large) options.tables = RACL_LARGE;
    racl_made made = racl_new(&workers[0].judge, area + begin, area_length - begin, &options);
    if (made.kind == RACL_MEMORY) fail("no memory", "gateway");
    if (made.kind != RACL_DONE) {
        char lines[4096];
        racl_checked told = racl_check(area + begin, area_length - begin, (uint8_t *)lines, sizeof lines);
        fwrite(lines, 1, told.length < sizeof lines ? told.length : sizeof lines, stderr);
        fail("no policy", name);
    }
    for (uint32_t i = 1; i < threads; i++)
        if (racl_split_wait(&workers[0].judge, &workers[i].judge) != RACL_DONE) fail("no memory", "gateway");
}

int main(int count, char **given) {
    static struct worker workers[MOST_THREADS];
    static struct capture captures[MOST_CAPTURES];
    int at = read_words(count, given), capture_count = count - at - 1;
    if (!at) return 2;
    for (int i = 0; i < capture_count; i++) {
        char *name = given[at + 1 + i], *end = name;
        long number = strtol(name, &end, 10);
        int is_named = end != name && *end == '=' && number >= 0 && number < 256;
        captures[i] = read_capture(is_named ? end + 1 : name, is_named ? (int)number : -1);
    }
    size_t text = area_length;
    read_file(given[at]);
    size_t text_length = area_length - text;
    make_judges(workers, given[at], text);
    owners = calloc(frame_count + 1, sizeof *owners);
    answers = calloc(frame_count + 1, sizeof *answers);
    if (!owners || !answers) fail("no memory", "gateway");
    for (size_t i = 0; threads > 1 && i < frame_count; i++)
        owners[i] = (uint8_t)racl_worker_of(racl_flow_of(frames[i].interface_number, area + frames[i].at, frames[i].length), threads);

    struct timespec begin, end;
    clock_gettime(CLOCK_MONOTONIC, &begin);
    void *(*how)(void *) = burst == 1 ? work_one_by_one : work;
    for (uint32_t i = 0; i < threads; i++) {
        workers[i].number = i;
        if (i > 0 && pthread_create(&workers[i].thread, NULL, how, &workers[i])) fail("no thread", "gateway");
    }
    how(&workers[0]);
    for (uint32_t i = 1; i < threads; i++) {
        pthread_join(workers[i].thread, NULL);
        racl_join(&workers[0].judge, &workers[i].judge);
    }
    clock_gettime(CLOCK_MONOTONIC, &end);

    write_report(captures, capture_count);
    if (tells_sessions) tell_sessions(&workers[0].judge, area + text, text_length);
    racl_free(&workers[0].judge);
    double ns = (double)(end.tv_sec - begin.tv_sec) * 1e9 + (double)(end.tv_nsec - begin.tv_nsec);
    if (is_quiet) fprintf(stderr, "%.1f ns a frame\n", ns / (double)(frame_count ? frame_count : 1));
    free(area), free(frames), free(owners), free(answers);
    return 0;
}
