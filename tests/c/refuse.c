// Counts the requests for memory and threads of the program that it is loaded into, with THREADS_ALONE those for
// threads alone, and refuses those from REFUSE_FROM up to REFUSE_TO, counted from 1. Where ASKED_FD names a
// descriptor, their number is written there at the end.
#define _GNU_SOURCE
#include <dlfcn.h>
#include <errno.h>
#include <pthread.h>
#include <stdatomic.h>
#include <stdio.h>
#include <stdlib.h>
#include <sys/mman.h>
#include <sys/syscall.h>
#include <unistd.h>

extern void *__libc_malloc(size_t), *__libc_calloc(size_t, size_t);
extern void *__libc_realloc(void *, size_t), *__libc_memalign(size_t, size_t);
static atomic_long asked;
static long from, to;
static int counts, threads_alone;

__attribute__((constructor)) static void begin(void) {
    const char *low = getenv("REFUSE_FROM"), *high = getenv("REFUSE_TO");
    from = low ? atol(low) : 0;
    to = high ? atol(high) : 0;
    threads_alone = getenv("THREADS_ALONE") != NULL;
    counts = 1;
}

__attribute__((destructor)) static void end(void) {
    const char *name = getenv("ASKED_FD");
    char text[32];
    if (!counts) return;
    counts = 0;
    if (name && write(atoi(name), text, snprintf(text, sizeof text, "%ld\n", atomic_load(&asked))) < 0) _exit(125);
}

// A program that may start threads ends so, and then no destructor runs.
void _exit(int status) {
    end();
    syscall(SYS_exit_group, status);
    __builtin_unreachable();
}

static int is_refused(int is_thread) {
    if (!counts || (threads_alone && !is_thread)) return 0;
    long number = atomic_fetch_add(&asked, 1) + 1;
    if (from && from <= number && number <= to) { errno = ENOMEM; return 1; }
    return 0;
}

void *malloc(size_t size) { return is_refused(0) ? NULL : __libc_malloc(size); }
void *calloc(size_t count, size_t size) { return is_refused(0) ? NULL : __libc_calloc(count, size); }
void *realloc(void *old, size_t size) { return is_refused(0) ? NULL : __libc_realloc(old, size); }
void *memalign(size_t by, size_t size) { return is_refused(0) ? NULL : __libc_memalign(by, size); }
void *aligned_alloc(size_t by, size_t size) { return memalign(by, size); }
int posix_memalign(void **out, size_t by, size_t size) { return (*out = memalign(by, size)) ? 0 : ENOMEM; }

void *mmap(void *at, size_t size, int rights, int flags, int file, off_t offset) {
    static void *(*next)(void *, size_t, int, int, int, off_t);
    if (!next) next = dlsym(RTLD_NEXT, "mmap");
    return is_refused(0) ? MAP_FAILED : next(at, size, rights, flags, file, offset);
}

int pthread_create(pthread_t *thread, const pthread_attr_t *how, void *(*body)(void *), void *with) {
    static int (*next)(pthread_t *, const pthread_attr_t *, void *(*)(void *), void *);
    if (!next) next = dlsym(RTLD_NEXT, "pthread_create");
    return is_refused(1) ? EAGAIN : next(thread, how, body, with);
}
