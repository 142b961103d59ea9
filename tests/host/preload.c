/* A library to be preloaded: it records the calls that a program makes of the host on names that don't begin with a slash and
   on its output, and lets one of them fail.

   HOST_RECORD   the file to which the record goes; without it nothing is changed
   HOST_FAILING  the number, from 1, of the call that fails
   HOST_HOW      the error with which it fails, nothing being done; without it the call is done in half, where it reads or
                 writes more than one byte
   HOST_REFUSED  the number, from 1, of the request for memory that is refused, which is recorded

   A line of the record is the call, the name, its words and what it answered, with blanks between them. The bytes of a write
   are hexadecimal digits. Of calls that threads make at once each is made and recorded as a whole, one after another. */
#define _GNU_SOURCE
#include <errno.h>
#include <fcntl.h>
#include <pthread.h>
#include <stdarg.h>
#include <stdio.h>
#include <stdlib.h>
#include <string.h>
#include <sys/file.h>
#include <sys/stat.h>
#include <sys/syscall.h>
#include <unistd.h>

enum { FILES = 1000, NAME = 200, LINE = 3 * NAME };

static char names[FILES][NAME];
static int record = -1, failure;
static long made, failing, asked, refused;
static pthread_mutex_t turn = PTHREAD_MUTEX_INITIALIZER; /* held from where a call is counted to the end of its line */

__attribute__((constructor)) static void begin(void) {
    const char *to = getenv("HOST_RECORD"), *which = getenv("HOST_FAILING"), *how = getenv("HOST_HOW");
    if (!to) return;
    int fd = (int)syscall(SYS_openat, AT_FDCWD, to, O_WRONLY | O_CREAT | O_APPEND, 0600);
    record = (int)syscall(SYS_fcntl, fd, F_DUPFD_CLOEXEC, FILES);
    syscall(SYS_close, fd);
    const char *memory = getenv("HOST_REFUSED");
    refused = memory ? atol(memory) : 0;
    failing = which ? atol(which) : 0;
    failure = how ? atoi(how) : 0;
    strcpy(names[STDOUT_FILENO], "output");
}

static int is_followed(const char *path) {
    return record >= 0 && path && path[0] && path[0] != '/' && strlen(path) < NAME;
}

/* The name of an open file that is followed, or NULL. */
static const char *name_of(int fd) {
    return record >= 0 && fd >= 0 && fd < FILES && names[fd][0] ? names[fd] : NULL;
}

/* Counts a call. Whether it is the one that fails. */
static int is_due(void) {
    pthread_mutex_lock(&turn);
    return ++made == failing;
}

/* Counts a call, and answers whether it fails with an error. */
static int fails(void) {
    if (!is_due() || !failure) return 0;
    errno = failure;
    return 1;
}

/* Counts a call on so many bytes, and answers on how many it is done, or -1. */
static long allowed(size_t count) {
    if (!is_due()) return (long)count;
    errno = failure;
    return failure ? -1 : (long)(count - count / 2);
}

static void put(const char *text, size_t count) {
    for (long done; count; text += done, count -= (size_t)done)
        if ((done = syscall(SYS_write, record, text, count)) <= 0) return;
}

/* Adds a line without its end. */
static void note(const char *form, ...) {
    char line[LINE];
    int error = errno;
    va_list words;
    va_start(words, form);
    put(line, (size_t)vsnprintf(line, LINE, form, words));
    va_end(words);
    errno = error;
}

static void note_bytes(const unsigned char *bytes, size_t count) {
    char digits[LINE + 1];
    for (size_t i = 0, length = 0; i < count; i++) {
        length += (size_t)sprintf(digits + length, "%02x", bytes[i]);
        if (length == LINE || i + 1 == count) {
            put(digits, length);
            length = 0;
        }
    }
}

/* Ends the line. */
static long answered(long answer) {
    note(" %ld\n", answer);
    pthread_mutex_unlock(&turn);
    return answer;
}

int open(const char *path, int flags, ...) {
    va_list rest;
    va_start(rest, flags);
    int mode = flags & O_CREAT ? va_arg(rest, int) : 0;
    va_end(rest);
    if (!is_followed(path)) return (int)syscall(SYS_openat, AT_FDCWD, path, flags, mode);
    int fd = fails() ? -1 : (int)syscall(SYS_openat, AT_FDCWD, path, flags, mode);
    if (fd >= 0 && fd < FILES) strcpy(names[fd], path);
    const char *why = (flags & O_ACCMODE) == O_RDONLY ? "read" : flags & O_EXCL ? "new" : "write";
    note("open %s %s %o", path, why, mode);
    answered(fd < 0 ? -1 : 0);
    return fd;
}

int open64(const char *path, int flags, ...) __attribute__((alias("open")));

int close(int fd) {
    if (name_of(fd)) names[fd][0] = 0;
    return (int)syscall(SYS_close, fd);
}

int statx(int fd, const char *path, int flags, unsigned mask, struct statx *found) {
    const char *name = !path[0] ? name_of(fd) : is_followed(path) ? path : NULL;
    if (!name) return (int)syscall(SYS_statx, fd, path, flags, mask, found);
    int answer = fails() ? -1 : (int)syscall(SYS_statx, fd, path, flags, mask, found);
    note("look %s", name);
    return (int)answered(answer);
}

int flock(int fd, int how) {
    const char *name = name_of(fd);
    if (!name) return (int)syscall(SYS_flock, fd, how);
    int answer = fails() ? -1 : (int)syscall(SYS_flock, fd, how);
    note("lock %s %s", name, how & LOCK_EX ? "alone" : "shared");
    return (int)answered(answer);
}

int fsync(int fd) {
    const char *name = name_of(fd);
    if (!name) return (int)syscall(SYS_fsync, fd);
    int answer = fails() ? -1 : (int)syscall(SYS_fsync, fd);
    note("sync %s", name);
    return (int)answered(answer);
}

ssize_t pread(int fd, void *bytes, size_t count, off_t at) {
    const char *name = name_of(fd);
    if (!name) return syscall(SYS_pread64, fd, bytes, count, at);
    long some = allowed(count), answer = some < 0 ? -1 : syscall(SYS_pread64, fd, bytes, some, at);
    note("read %s %ld %zu", name, (long)at, count);
    return answered(answer);
}

ssize_t pread64(int fd, void *bytes, size_t count, off_t at) __attribute__((alias("pread")));

ssize_t read(int fd, void *bytes, size_t count) {
    const char *name = name_of(fd);
    if (!name) return syscall(SYS_read, fd, bytes, count);
    long some = allowed(count), answer = some < 0 ? -1 : syscall(SYS_read, fd, bytes, some);
    note("take %s %zu", name, count);
    return answered(answer);
}

ssize_t pwrite(int fd, const void *bytes, size_t count, off_t at) {
    const char *name = name_of(fd);
    if (!name) return syscall(SYS_pwrite64, fd, bytes, count, at);
    long some = allowed(count), answer = some < 0 ? -1 : syscall(SYS_pwrite64, fd, bytes, some, at);
    note("write %s %ld ", name, (long)at);
    note_bytes(bytes, count);
    return answered(answer);
}

ssize_t pwrite64(int fd, const void *bytes, size_t count, off_t at) __attribute__((alias("pwrite")));

ssize_t write(int fd, const void *bytes, size_t count) {
    const char *name = name_of(fd);
    if (!name) return syscall(SYS_write, fd, bytes, count);
    long some = allowed(count), answer = some < 0 ? -1 : syscall(SYS_write, fd, bytes, some);
    note("put %s ", name);
    note_bytes(bytes, count);
    return answered(answer);
}

/* Counts a request for memory. Whether it is the one that is refused. */
static int is_refused(void) {
    if (record < 0 || !refused || __atomic_add_fetch(&asked, 1, __ATOMIC_RELAXED) != refused) return 0;
    pthread_mutex_lock(&turn);
    note("refuse memory");
    answered(-1);
    errno = ENOMEM;
    return 1;
}

extern void *__libc_malloc(size_t), *__libc_realloc(void *, size_t);

void *malloc(size_t size) {
    return is_refused() ? NULL : __libc_malloc(size);
}

void *realloc(void *old, size_t size) {
    return is_refused() ? NULL : __libc_realloc(old, size);
}
