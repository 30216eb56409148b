/* Put before the C library (LD_PRELOAD) by cli/test: makes calls of the command fail, or do less than was asked.
 *
 *     FAULT=write:3:28    the third write fails with error 28 (and so with any call below)
 *     FAULT=short         a read gives one byte at most, a write takes three, and every other one of them is interrupted
 */
#define _GNU_SOURCE

#include <dlfcn.h>
#include <errno.h>
#include <stdbool.h>
#include <stdio.h>
#include <stdlib.h>
#include <string.h>
#include <sys/types.h>

static bool is_short(void) {
    const char *fault = getenv("FAULT");
    return fault && strcmp(fault, "short") == 0;
}

/* Is this call to fail? */
static bool fails(const char *name) {
    static int calls = 0;
    char which[16];
    int at, error;
    const char *fault = getenv("FAULT");
    if (!fault || sscanf(fault, "%15[a-z]:%d:%d", which, &at, &error) != 3 || strcmp(which, name) != 0 || ++calls != at) {
        return false;
    }
    errno = error;
    return true;
}

static bool interrupted(void) {
    static int calls = 0;
    bool now = is_short() && ++calls % 2 == 1;
    errno = now ? EINTR : errno;
    return now;
}

/* The C library's own. */
static void *own(const char *name) { return dlsym(RTLD_NEXT, name); }

ssize_t read(int fd, void *bytes, size_t count) {
    ssize_t (*call)(int, void *, size_t);
    *(void **)&call = own("read");
    return fails("read") || interrupted() ? -1 : call(fd, bytes, is_short() && count > 1 ? 1 : count);
}

ssize_t write(int fd, const void *bytes, size_t count) {
    ssize_t (*call)(int, const void *, size_t);
    *(void **)&call = own("write");
    return fails("write") || interrupted() ? -1 : call(fd, bytes, is_short() && count > 3 ? 3 : count);
}

int close(int fd) {
    int (*call)(int);
    *(void **)&call = own("close");
    return fails("close") ? -1 : call(fd);
}

int fsync(int fd) {
    int (*call)(int);
    *(void **)&call = own("fsync");
    return fails("fsync") ? -1 : call(fd);
}

int rename(const char *from, const char *to) {
    int (*call)(const char *, const char *);
    *(void **)&call = own("rename");
    return fails("rename") ? -1 : call(from, to);
}
