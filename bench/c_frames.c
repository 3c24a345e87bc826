/* Hands the frames of a capture to judges over one pair of tables, and does nothing else for a frame:

   ./c_frames POLICY CAPTURE BURST THREADS [large]

   BURST frames a call, or with 1 each by racl_judge. Whole flows are dealt to the threads before. Written is a line of how many
   frames passed, how long all threads took and how long each was on a processor, in nanoseconds. Where callgrind counts
   judge_frames alone (--toggle-collect=judge_frames), it counts nothing of reading and dealing. */
#define _GNU_SOURCE
#include "racl.h"
#include <pthread.h>
#include <stdio.h>
#include <stdlib.h>
#include <time.h>

enum { MOST_THREADS = 16, MOST_BURST = 256, FILE_HEADER = 24, RECORD_HEADER = 16 };

struct worker {
    racl_handle judge;
    racl_descriptor *frames;
    size_t count;
    uint64_t passed, ns;
    pthread_t thread;
};

static struct worker workers[MOST_THREADS];
static pthread_barrier_t begin;
static uint8_t *area;
static size_t area_length, burst;

static uint64_t now(clockid_t clock) {
    struct timespec moment;
    clock_gettime(clock, &moment);
    return (uint64_t)moment.tv_sec * 1000000000 + (uint64_t)moment.tv_nsec;
}

static uint8_t *read_file(const char *name, size_t *length) {
    FILE *file = fopen(name, "rb");
    if (!file || fseek(file, 0, SEEK_END)) exit(3);
    *length = (size_t)ftell(file);
    rewind(file);
    uint8_t *bytes = malloc(*length);
    if (!bytes || fread(bytes, 1, *length, file) != *length) exit(3);
    fclose(file);
    return bytes;
}

static uint32_t word(size_t at) {
    return area[at] | area[at + 1] << 8 | area[at + 2] << 16 | (uint32_t)area[at + 3] << 24;
}

/* Deals the frames of the capture, which is written in the order of bytes of this processor's kind. */
static void deal(uint32_t threads) {
    for (uint32_t i = 0; i < threads; i++)
        if (!(workers[i].frames = malloc(area_length / RECORD_HEADER * sizeof(racl_descriptor)))) exit(3);
    for (size_t at = FILE_HEADER; area_length - at >= RECORD_HEADER;) {
        uint32_t kept = word(at + 8);
        racl_descriptor it = {at + RECORD_HEADER, kept, word(at), 0};
        at += RECORD_HEADER + kept;
        struct worker *to = &workers[threads > 1 ? racl_worker_of(racl_flow_of(0, area + it.at, kept), threads) : 0];
        to->frames[to->count++] = it;
    }
}

static uint64_t judge_one_by_one(struct worker *worker) {
    uint64_t passed = 0;
    for (const racl_descriptor *it = worker->frames, *end = it + worker->count; it < end; it++)
        passed += racl_judge_wait(&worker->judge, it->interface_number, it->second, area + it->at, it->length).passes;
    return passed;
}

static uint64_t judge_bursts(struct worker *worker) {
    racl_answer answers[MOST_BURST];
    uint64_t passed = 0;
    for (size_t done = 0; done < worker->count; done += burst) {
        size_t count = worker->count - done < burst ? worker->count - done : burst;
        racl_judge_burst_wait(&worker->judge, area, area_length, worker->frames + done, count, answers);
        for (size_t i = 0; i < count; i++) passed += answers[i].passes;
    }
    return passed;
}

__attribute__((noinline)) void judge_frames(struct worker *worker) {
    worker->passed = burst == 1 ? judge_one_by_one(worker) : judge_bursts(worker);
}

static void *work(void *given) {
    struct worker *worker = given;
    pthread_barrier_wait(&begin);
    uint64_t start = now(CLOCK_THREAD_CPUTIME_ID);
    judge_frames(worker);
    worker->ns = now(CLOCK_THREAD_CPUTIME_ID) - start;
    return NULL;
}

int main(int count, char **words) {
    if (count < 5) return 2;
    size_t text_length;
    uint8_t *text = read_file(words[1], &text_length);
    area = read_file(words[2], &area_length);
    burst = (size_t)atoi(words[3]);
    uint32_t threads = (uint32_t)atoi(words[4]);
    if (burst - 1 >= MOST_BURST || threads - 1 >= MOST_THREADS || area_length < FILE_HEADER) return 2;
    racl_options options = RACL_OPTIONS;
    if (count > 5) options.tables = RACL_LARGE;
    if (racl_new(&workers[0].judge, text, text_length, &options).kind) return 3;
    for (uint32_t i = 1; i < threads; i++)
        if (racl_split_wait(&workers[0].judge, &workers[i].judge)) return 3;
    deal(threads);
    pthread_barrier_init(&begin, NULL, threads);
    for (uint32_t i = 1; i < threads; i++)
        if (pthread_create(&workers[i].thread, NULL, work, &workers[i])) return 3;
    uint64_t start = now(CLOCK_MONOTONIC);
    work(&workers[0]);
    for (uint32_t i = 1; i < threads; i++) pthread_join(workers[i].thread, NULL);
    uint64_t wall = now(CLOCK_MONOTONIC) - start, passed = 0;
    for (uint32_t i = 0; i < threads; i++) passed += workers[i].passed;
    printf("%llu %llu", (unsigned long long)passed, (unsigned long long)wall);
    for (uint32_t i = 0; i < threads; i++) printf(" %llu", (unsigned long long)workers[i].ns);
    putchar('\n');
    return 0;
}
