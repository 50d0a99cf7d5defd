/* Fails one read of standard input or one write to standard output, and moves few bytes at a time: FAIL_READ and FAIL_WRITE number
 * the call that fails, from 1 on, and FEW is the most bytes that a call moves. Where a call has failed it makes the file that FAILED
 * names. Loaded before a program by LD_PRELOAD. */
#define _GNU_SOURCE
#include <dlfcn.h>
#include <errno.h>
#include <fcntl.h>
#include <stdlib.h>
#include <sys/uio.h>
#include <unistd.h>

static long number(const char *name) {
    const char *text = getenv(name);
    return text ? atol(text) : 0;
}

static int fails(const char *name, long *seen) {
    if (++*seen != number(name)) {
        return 0;
    }
    const char *mark = getenv("FAILED");
    if (mark) {
        close(open(mark, O_CREAT | O_WRONLY, 0600));
    }
    errno = EIO;
    return 1;
}

static size_t few(size_t size) {
    long most = number("FEW");
    return most > 0 && size > (size_t)most ? (size_t)most : size;
}

ssize_t read(int file, void *bytes, size_t size) {
    static ssize_t (*next)(int, void *, size_t);
    static long seen;
    if (!next) {
        next = dlsym(RTLD_NEXT, "read");
    }
    if (file != 0) {
        return next(file, bytes, size);
    }
    return fails("FAIL_READ", &seen) ? -1 : next(file, bytes, few(size));
}

ssize_t write(int file, const void *bytes, size_t size) {
    static ssize_t (*next)(int, const void *, size_t);
    static long seen;
    if (!next) {
        next = dlsym(RTLD_NEXT, "write");
    }
    if (file != 1) {
        return next(file, bytes, size);
    }
    return fails("FAIL_WRITE", &seen) ? -1 : next(file, bytes, few(size));
}

ssize_t readv(int file, const struct iovec *parts, int count) {
    return count ? read(file, parts[0].iov_base, parts[0].iov_len) : 0;
}

ssize_t writev(int file, const struct iovec *parts, int count) {
    return count ? write(file, parts[0].iov_base, parts[0].iov_len) : 0;
}
