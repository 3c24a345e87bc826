// Puts failures before the program of the name INTERRUPTED that it is loaded into, as signals and devices would. Each first
// try to read or to write is answered EINTR, and the next one goes through. Where these are set besides:
//   MOST_WRITTEN  a write takes at most so many bytes;
//   MOST_READ     a read gives at most so many bytes;
//   FAILED_FILE   a name, FAILED_READ a number: that read of the file, counted from 1 without the interrupted tries, is
//                 answered EIO, and so are those behind it;
//   FAILED_SYNC   a number of an error, with which each fsync is answered.
#define _GNU_SOURCE
#include <dlfcn.h>
#include <errno.h>
#include <stdlib.h>
#include <string.h>
#include <sys/stat.h>
#include <unistd.h>

static _Thread_local int read_tries, write_tries;
static int is_meant, failed_sync;
static long most_written, most_read, failed_read, reads;
static struct stat failed;

static long number(const char *name) {
    const char *text = getenv(name);
    return text ? atol(text) : 0;
}

__attribute__((constructor)) static void begin(void) {
    const char *name = getenv("INTERRUPTED"), *file = getenv("FAILED_FILE");
    is_meant = name && strcmp(name, program_invocation_short_name) == 0;
    most_written = number("MOST_WRITTEN");
    most_read = number("MOST_READ");
    failed_sync = (int)number("FAILED_SYNC");
    if (file && stat(file, &failed) == 0) failed_read = number("FAILED_READ");
}

static int is_interrupted(int *tries) {
    if (!is_meant || (*tries)++ % 2) return 0;
    errno = EINTR;
    return 1;
}

static int is_failing(int file) {
    struct stat found;
    if (!is_meant || !failed_read || fstat(file, &found) != 0) return 0;
    if (found.st_dev != failed.st_dev || found.st_ino != failed.st_ino) return 0;
    if (__atomic_add_fetch(&reads, 1, __ATOMIC_SEQ_CST) < failed_read) return 0;
    errno = EIO;
    return 1;
}

ssize_t read(int file, void *at, size_t size) {
    static ssize_t (*next)(int, void *, size_t);
    if (!next) next = dlsym(RTLD_NEXT, "read");
    if (is_interrupted(&read_tries) || is_failing(file)) return -1;
    return next(file, at, is_meant && most_read && size > (size_t)most_read ? (size_t)most_read : size);
}

ssize_t write(int file, const void *at, size_t size) {
    static ssize_t (*next)(int, const void *, size_t);
    if (!next) next = dlsym(RTLD_NEXT, "write");
    if (is_interrupted(&write_tries)) return -1;
    return next(file, at, is_meant && most_written && size > (size_t)most_written ? (size_t)most_written : size);
}

int fsync(int file) {
    static int (*next)(int);
    if (!next) next = dlsym(RTLD_NEXT, "fsync");
    if (!is_meant || !failed_sync) return next(file);
    errno = failed_sync;
    return -1;
}
