// Stands before the C library's `read` and `write`, as LD_PRELOAD, and bends the program's standard streams. Of each call
// it lets a part through. The variables are numbers:
//
//   GIVES N   a read of standard input gives at most N bytes a call
//   ENDS N    the Nth read of standard input fails, counted from 1
//   TAKES N   a write to standard output takes at most N bytes a call
//   HOLDS N   standard output takes N bytes in all, and each later write fails
#define _GNU_SOURCE
#include <dlfcn.h>
#include <errno.h>
#include <stdlib.h>
#include <unistd.h>

// The number of a variable, or this one if it is not set.
static long number_of(const char *name, long otherwise) {
    const char *text = getenv(name);
    return text ? strtol(text, NULL, 10) : otherwise;
}

ssize_t read(int file, void *bytes, size_t length) {
    static ssize_t (*next)(int, void *, size_t);
    static long calls;
    if (!next) next = dlsym(RTLD_NEXT, "read");
    if (file != 0) return next(file, bytes, length);
    if (++calls == number_of("ENDS", 0)) {
        errno = EIO;
        return -1;
    }
    size_t most = (size_t)number_of("GIVES", 1L << 30);
    return next(file, bytes, length < most ? length : most);
}

ssize_t write(int file, const void *bytes, size_t length) {
    static ssize_t (*next)(int, const void *, size_t);
    static long written;
    if (!next) next = dlsym(RTLD_NEXT, "write");
    if (file != 1) return next(file, bytes, length);
    long room = number_of("HOLDS", 1L << 30) - written;
    if (room <= 0) {
        errno = ENOSPC;
        return -1;
    }
    size_t most = (size_t)number_of("TAKES", 1L << 30);
    if (length < most) most = length;
    if ((size_t)room < most) most = (size_t)room;
    ssize_t taken = next(file, bytes, most);
    if (taken > 0) written += taken;
    return taken;
}
