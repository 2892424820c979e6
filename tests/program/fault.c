/* Preloaded into a program: its read of standard input number FAULT_READ and its write to standard output number
   FAULT_WRITE fail, counted from 1, and move no byte; all others are the system's, and move PART bytes at most where
   that is set. */
#define _GNU_SOURCE
#include <dlfcn.h>
#include <errno.h>
#include <stdlib.h>
#include <sys/types.h>

/* Counts a call, and says whether it is the one that has to fail. */
static int fails(const char *name, unsigned long *calls) {
    const char *wanted = getenv(name);
    *calls += 1;
    if (wanted == NULL || strtoul(wanted, NULL, 10) != *calls) return 0;
    errno = EAGAIN;
    return 1;
}

/* How many of these bytes a call may move. */
static size_t part(size_t count) {
    const char *most = getenv("PART");
    size_t bound = most == NULL ? count : strtoul(most, NULL, 10);
    return count < bound ? count : bound;
}

ssize_t read(int fd, void *bytes, size_t count) {
    static unsigned long calls;
    if (fd == 0 && fails("FAULT_READ", &calls)) return -1;
    ssize_t (*next)(int, void *, size_t) = (ssize_t (*)(int, void *, size_t))dlsym(RTLD_NEXT, "read");
    return next(fd, bytes, fd == 0 ? part(count) : count);
}

ssize_t write(int fd, const void *bytes, size_t count) {
    static unsigned long calls;
    if (fd == 1 && fails("FAULT_WRITE", &calls)) return -1;
    ssize_t (*next)(int, const void *, size_t) = (ssize_t (*)(int, const void *, size_t))dlsym(RTLD_NEXT, "write");
    return next(fd, bytes, fd == 1 ? part(count) : count);
}
