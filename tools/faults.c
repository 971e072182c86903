/*
 * Makes one call of a program fail, move a single byte, or end or stop the program, as a library
 * for LD_PRELOAD. FAULT says what happens and AT, from 1, at which call:
 *
 * fail-read, short-read, fail-write, short-write: at a read or a write.
 * fail-step, kill, stop: at a step, which is a call that opens, locks or changes a file other than
 * the standard ones. A step that fails does nothing; `kill` and `stop` come before the call, but
 * half of a write is made.
 * fail-alloc: at an allocation, which is refused.
 * slow: every read takes 0.3 seconds, and standard error is a terminal.
 *
 * STEPS, if the environment names a file, gets a word for each step, as it is made.
 *
 * At the end of the program the file TOLD, if the environment names one, gets four numbers: those of
 * the allocations asked for and of those refused, the most bytes that one asked for, and the bytes
 * that were read.
 */
#define _GNU_SOURCE
#include <dlfcn.h>
#include <errno.h>
#include <fcntl.h>
#include <signal.h>
#include <stdarg.h>
#include <stdio.h>
#include <stdlib.h>
#include <string.h>
#include <sys/file.h>
#include <sys/stat.h>
#include <time.h>
#include <unistd.h>

/* Whether the fault of this kind is due at the call of this number. */
static int is_due(const char *kind, long call) {
    const char *fault = getenv("FAULT"), *at = getenv("AT");
    return fault && at && strcmp(fault, kind) == 0 && atol(at) == call;
}

/* How many bytes were read. */
static long bytes_read;

/* Whether reads are slow. */
static int is_slow(void) {
    const char *fault = getenv("FAULT");
    return fault && strcmp(fault, "slow") == 0;
}

/* Adds the word of a step, with its line feed, to the file STEPS. */
static void note(const char *word) {
    const char *steps = getenv("STEPS");
    int (*opened)(const char *, int, ...) = dlsym(RTLD_NEXT, "open");
    ssize_t (*written)(int, const void *, size_t) = dlsym(RTLD_NEXT, "write");
    int file = steps ? opened(steps, O_WRONLY | O_CREAT | O_APPEND, 0666) : -1;
    if (file < 0)
        return;
    if (written(file, word, strlen(word)) < 0)
        perror(steps);
    close(file);
}

/* Counts a step, of this word. Returns the signal that ends or stops the program at it, -1 if the step
 * fails, and else 0. */
static int next_step(const char *word) {
    static long steps;
    steps++;
    note(word);
    if (is_due("kill", steps)) {
        return SIGKILL;
    }
    if (is_due("stop", steps)) {
        return SIGSTOP;
    }
    if (is_due("fail-step", steps)) {
        errno = EIO;
        return -1;
    }
    return 0;
}

/* The same, with the signal raised. Returns -1 if the step fails, and else 0. */
static int step(const char *word) {
    int next = next_step(word);
    if (next > 0) {
        raise(next);
        return 0;
    }
    return next;
}

ssize_t read(int file, void *to, size_t len) {
    static long calls;
    calls++;
    if (is_due("fail-read", calls)) {
        errno = EIO;
        return -1;
    }
    if (is_slow()) {
        nanosleep(&(struct timespec){.tv_nsec = 300000000}, NULL);
    }
    ssize_t (*next)(int, void *, size_t) = dlsym(RTLD_NEXT, "read");
    ssize_t done = next(file, to, is_due("short-read", calls) && len > 1 ? 1 : len);
    bytes_read += done > 0 ? done : 0;
    return done;
}

ssize_t write(int file, const void *from, size_t len) {
    static long calls;
    ssize_t (*next)(int, const void *, size_t) = dlsym(RTLD_NEXT, "write");
    calls++;
    if (is_due("fail-write", calls)) {
        errno = EIO;
        return -1;
    }
    int signal = file > STDERR_FILENO ? next_step("write\n") : 0;
    if (signal < 0) {
        return -1;
    }
    if (signal > 0) {
        ssize_t written = next(file, from, len / 2);
        raise(signal);
        return written;
    }
    return next(file, from, is_due("short-write", calls) && len > 1 ? 1 : len);
}

int isatty(int file) {
    int (*next)(int) = dlsym(RTLD_NEXT, "isatty");
    return is_slow() ? file == STDERR_FILENO : next(file);
}

/* The allocator of the C library, under the names that it keeps for those who stand before it. */
extern void *__libc_malloc(size_t);
extern void *__libc_calloc(size_t, size_t);
extern void *__libc_realloc(void *, size_t);
extern void *__libc_memalign(size_t, size_t);

static long asked, refused;
static size_t most;

/* Counts an allocation, and says whether it is refused. */
static int is_refused(size_t size) {
    asked++;
    if (size > most)
        most = size;
    if (!is_due("fail-alloc", asked))
        return 0;
    refused++;
    errno = ENOMEM;
    return 1;
}

void *malloc(size_t size) {
    return is_refused(size) ? NULL : __libc_malloc(size);
}

void *calloc(size_t count, size_t size) {
    return is_refused(count * size) ? NULL : __libc_calloc(count, size);
}

void *realloc(void *old, size_t size) {
    return is_refused(size) ? NULL : __libc_realloc(old, size);
}

void *memalign(size_t align, size_t size) {
    return is_refused(size) ? NULL : __libc_memalign(align, size);
}

void *aligned_alloc(size_t align, size_t size) {
    return memalign(align, size);
}

int posix_memalign(void **to, size_t align, size_t size) {
    void *made = memalign(align, size);
    if (made)
        *to = made;
    return made ? 0 : ENOMEM;
}

int open(const char *path, int flags, ...) {
    int (*next)(const char *, int, ...) = dlsym(RTLD_NEXT, "open");
    va_list rest;
    va_start(rest, flags);
    mode_t mode = flags & O_CREAT ? va_arg(rest, mode_t) : 0;
    va_end(rest);
    return step("open\n") < 0 ? -1 : next(path, flags, mode);
}

int flock(int file, int how) {
    int (*next)(int, int) = dlsym(RTLD_NEXT, "flock");
    return step("lock\n") < 0 ? -1 : next(file, how);
}

int ftruncate(int file, off_t len) {
    int (*next)(int, off_t) = dlsym(RTLD_NEXT, "ftruncate");
    return step("truncate\n") < 0 ? -1 : next(file, len);
}

int fchmod(int file, mode_t mode) {
    int (*next)(int, mode_t) = dlsym(RTLD_NEXT, "fchmod");
    return step("permit\n") < 0 ? -1 : next(file, mode);
}

int fsync(int file) {
    int (*next)(int) = dlsym(RTLD_NEXT, "fsync");
    struct stat found;
    int is_folder = fstat(file, &found) == 0 && S_ISDIR(found.st_mode);
    return step(is_folder ? "sync folder\n" : "sync\n") < 0 ? -1 : next(file);
}

int rename(const char *from, const char *to) {
    int (*next)(const char *, const char *) = dlsym(RTLD_NEXT, "rename");
    return step("rename\n") < 0 ? -1 : next(from, to);
}

int unlink(const char *path) {
    int (*next)(const char *) = dlsym(RTLD_NEXT, "unlink");
    return step("remove\n") < 0 ? -1 : next(path);
}

__attribute__((destructor)) static void tell(void) {
    char line[80];
    const char *told = getenv("TOLD");
    int (*opened)(const char *, int, ...) = dlsym(RTLD_NEXT, "open");
    ssize_t (*written)(int, const void *, size_t) = dlsym(RTLD_NEXT, "write");
    int (*removed)(const char *) = dlsym(RTLD_NEXT, "unlink");
    int file = told ? opened(told, O_WRONLY | O_CREAT | O_TRUNC, 0666) : -1;
    if (file < 0)
        return;
    int len = snprintf(line, sizeof line, "%ld %ld %zu %ld\n", asked, refused, most, bytes_read);
    if (written(file, line, len) != len)
        removed(told);
    close(file);
}
