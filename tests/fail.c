// Makes streams and files of a program fail, and says which files it reads: preloaded, it comes
// before open, read and write of the C library.
//
// FAIL_INPUT=N    standard input gives N bytes and then fails
// FAIL_OUTPUT=N   standard output takes N bytes and then fails
// FAIL_ERRORS=N   standard error takes N bytes and then fails
// FAIL_READ=N     files give N bytes, all together, and then fail
// FAIL_WRITE=N    files take N bytes, all together, and then fail
// CHUNK=N         no call gives or takes more than N bytes
// NAMES_TO=FILE   the name of each file that is to be read is added to FILE, a line each, whether
//                 the file is there or not
#define _GNU_SOURCE
#include <errno.h>
#include <fcntl.h>
#include <stdarg.h>
#include <stdlib.h>
#include <string.h>
#include <sys/syscall.h>
#include <unistd.h>

// How many bytes are left of input, output, errors, files read and files written; below 0 no end.
static long left[] = {-1, -1, -1, -1, -1};
static long chunk = -1;
static int names_to = -1;

static long number(const char *name) {
    const char *text = getenv(name);
    return text ? atol(text) : -1;
}

__attribute__((constructor)) static void start(void) {
    static const char *const names[] = {"FAIL_INPUT", "FAIL_OUTPUT", "FAIL_ERRORS", "FAIL_READ",
                                        "FAIL_WRITE"};
    for (int at = 0; at < 5; at++)
        left[at] = number(names[at]);
    chunk = number("CHUNK");
    const char *to = getenv("NAMES_TO");
    if (to)
        names_to = syscall(SYS_open, to, O_CREAT | O_WRONLY | O_APPEND, 0666);
}

int open(const char *name, int flags, ...) {
    va_list rest;
    va_start(rest, flags);
    int mode = flags & O_CREAT ? va_arg(rest, int) : 0;
    va_end(rest);
    if (names_to >= 0 && (flags & O_ACCMODE) == O_RDONLY) {
        syscall(SYS_write, names_to, name, strlen(name));
        syscall(SYS_write, names_to, "\n", 1);
    }
    return syscall(SYS_open, name, flags, mode);
}

static ssize_t do_some(long call, int file, void *bytes, size_t size, long *left) {
    if (*left == 0 && size > 0) {
        errno = EIO;
        return -1;
    }
    if (*left > 0 && size > (size_t)*left)
        size = *left;
    if (chunk > 0 && size > (size_t)chunk)
        size = chunk;
    ssize_t done = syscall(call, file, bytes, size);
    if (*left > 0 && done > 0)
        *left -= done;
    return done;
}

ssize_t read(int file, void *bytes, size_t size) {
    return do_some(SYS_read, file, bytes, size, &left[file == 0 ? 0 : 3]);
}

ssize_t write(int file, const void *bytes, size_t size) {
    return do_some(SYS_write, file, (void *)bytes, size, &left[file == 1 || file == 2 ? file : 4]);
}
