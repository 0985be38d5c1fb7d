/* Faults in the calls of a program that is run with this library preloaded.
 *
 * FAULTS holds words CALL:N:WHAT, parted by blanks. CALL is open, read, write (to standard output), tell (a write to
 * standard error), sync (fdatasync) or close; N is the number of the call, from 1, or * for each. WHAT is a number, the
 * errno with which the call fails; or short=K, which lets it move at most K bytes; or zero, which moves none and says so.
 * The first word that fits decides. */
#define _GNU_SOURCE
#include <dlfcn.h>
#include <errno.h>
#include <fcntl.h>
#include <stdarg.h>
#include <stdlib.h>
#include <string.h>
#include <unistd.h>

enum { OPEN, READ, WRITE, TELL, SYNC, CLOSE, CALLS };

static const char *const names[CALLS] = {"open:", "read:", "write:", "tell:", "sync:", "close:"};
static long counts[CALLS];

/* -1: the call fails with errno; else at most so many bytes. */
static long allowed(int call, long asked) {
    long n = ++counts[call];
    const char *word = getenv("FAULTS");
    for (; word && *word; word = strchr(word, ' ') ? strchr(word, ' ') + 1 : NULL) {
        size_t length = strlen(names[call]);
        if (strncmp(word, names[call], length) != 0)
            continue;
        char *end;
        const char *number = word + length;
        long at = strtol(number, &end, 10);
        if (*number == '*')
            end = (char *)number + 1;
        else if (at != n)
            continue;
        const char *what = end + 1;
        if (strncmp(what, "zero", 4) == 0)
            return 0;
        if (strncmp(what, "short=", 6) == 0) {
            long most = strtol(what + 6, NULL, 10);
            return most < asked ? most : asked;
        }
        errno = (int)strtol(what, NULL, 10);
        return -1;
    }
    return asked;
}

#define REAL(name, type) ((type)dlsym(RTLD_NEXT, name))

int open(const char *path, int flags, ...) {
    va_list rest;
    va_start(rest, flags);
    mode_t mode = flags & O_CREAT ? va_arg(rest, mode_t) : 0;
    va_end(rest);
    if (allowed(OPEN, 1) < 0)
        return -1;
    return REAL("open", int (*)(const char *, int, ...))(path, flags, mode);
}

ssize_t read(int fd, void *to, size_t size) {
    long most = allowed(READ, (long)size);
    return most <= 0 && size > 0 ? most : REAL("read", ssize_t (*)(int, void *, size_t))(fd, to, (size_t)most);
}

ssize_t write(int fd, const void *from, size_t size) {
    long most = allowed(fd == STDERR_FILENO ? TELL : WRITE, (long)size);
    return most <= 0 && size > 0 ? most : REAL("write", ssize_t (*)(int, const void *, size_t))(fd, from, (size_t)most);
}

int fdatasync(int fd) {
    if (allowed(SYNC, 1) < 0)
        return -1;
    return REAL("fdatasync", int (*)(int))(fd);
}

int close(int fd) {
    if (allowed(CLOSE, 1) < 0)
        return -1;
    return REAL("close", int (*)(int))(fd);
}
