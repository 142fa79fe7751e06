// Refuses allocations of a program: preloaded, it comes before malloc and realloc of the C library.
//
// REFUSE_AT=N refuses the Nth allocation of the process, from 1, and with REFUSE_ALL=1 each one
// after it too; then it makes the file that REFUSE_REPORT names. The file that COUNT_TO names gets,
// at the end of the process, how many allocations there were and how many bytes they asked for.
#define _GNU_SOURCE
#include <fcntl.h>
#include <malloc.h>
#include <stddef.h>
#include <stdio.h>
#include <stdlib.h>
#include <unistd.h>

extern void *__libc_malloc(size_t);
extern void *__libc_realloc(void *, size_t);

static size_t left;
static int started, refuses_all;
static size_t allocations, bytes;

static void start(void) {
    if (!started) {
        started = 1;
        const char *at = getenv("REFUSE_AT");
        left = at ? (size_t)atol(at) : 0;
        refuses_all = left && getenv("REFUSE_ALL");
    }
}

static void report(void) {
    const char *name = getenv("REFUSE_REPORT");
    if (name)
        close(open(name, O_CREAT | O_WRONLY, 0666));
}

static int is_refused(size_t more) {
    start();
    allocations++;
    bytes += more;
    if (!left || --left)
        return 0;
    left = refuses_all;
    report();
    return 1;
}

void *malloc(size_t size) {
    return is_refused(size) ? NULL : __libc_malloc(size);
}

// A block that is large enough stays where it is. To make a block smaller takes no memory, so that is
// never refused.
void *realloc(void *block, size_t size) {
    size_t has = malloc_usable_size(block);
    return size > has && is_refused(size - has) ? NULL : __libc_realloc(block, size);
}

__attribute__((destructor)) static void count(void) {
    const char *to = getenv("COUNT_TO");
    if (!to)
        return;
    char text[64];
    int size = snprintf(text, sizeof text, "%zu %zu\n", allocations, bytes);
    int file = open(to, O_CREAT | O_WRONLY | O_TRUNC, 0666);
    if (file < 0 || write(file, text, size) != size)
        _exit(127);
    close(file);
}
