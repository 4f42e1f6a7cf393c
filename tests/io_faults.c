/* Preloaded into a program: makes its reads of standard input (READ_FAILS_AT) or its writes to standard output (WRITE_FAILS_AT)
   fail after so many bytes. Up to there a call moves what fits. The next call fails with the error FAULT_ERRNO, or moves nothing
   where that is 0. With FAILS_ONCE=1 only that one call fails. With MAX_BYTES no call moves more than so many bytes.
   Where a variable is not set, nothing fails. */
#define _GNU_SOURCE
#include <errno.h>
#include <limits.h>
#include <stdlib.h>
#include <sys/syscall.h>
#include <unistd.h>

static long number(const char *name) {
    const char *text = getenv(name);
    return text ? strtol(text, NULL, 10) : -1;
}

/* How many bytes are left until the fault, per descriptor 0 and 1; below 0 where there is none. */
static long left[2] = {-1, -1};
static long most, error;
static int is_once, is_ready;

static void begin(void) {
    if (is_ready) return;
    is_ready = 1;
    left[0] = number("READ_FAILS_AT");
    left[1] = number("WRITE_FAILS_AT");
    error = number("FAULT_ERRNO");
    is_once = number("FAILS_ONCE") == 1;
    most = number("MAX_BYTES");
}

static ssize_t moved(long call, int to, const void *bytes, size_t count) {
    begin();
    if (to != 0 && to != 1) return syscall(call, to, bytes, count);
    if (most >= 0 && count > (size_t)most) count = (size_t)most;
    if (left[to] == 0 && count > 0) {
        if (is_once) left[to] = -1;
        if (error <= 0) return 0;
        errno = (int)error;
        return -1;
    }
    if (left[to] >= 0 && count > (size_t)left[to]) count = (size_t)left[to];
    ssize_t done = syscall(call, to, bytes, count);
    if (left[to] >= 0 && done > 0) left[to] -= done;
    return done;
}

ssize_t read(int from, void *bytes, size_t count) {
    return moved(SYS_read, from, bytes, count);
}

ssize_t write(int to, const void *bytes, size_t count) {
    return moved(SYS_write, to, bytes, count);
}
