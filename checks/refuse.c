// Stands before the C library's memory, as LD_PRELOAD: refuses one request of the program, the one whose number the
// variable REFUSE has, counted from 1. At its end it writes `requests N live M` on standard error: how many requests
// there were, and how many blocks were not given back.
#define _GNU_SOURCE
#include <dlfcn.h>
#include <stdlib.h>
#include <unistd.h>
#include <stdio.h>
#include <string.h>
#include <stdatomic.h>

// Several threads may ask at once, so the counts are atomic.
static atomic_long requests, live;
static long refused;

static int is_refused(void) { return atomic_fetch_add(&requests, 1) + 1 == refused; }

void *malloc(size_t size) {
    static void *(*next)(size_t);
    if (!next) next = dlsym(RTLD_NEXT, "malloc");
    if (is_refused()) return NULL;
    void *block = next(size);
    live += block != NULL;
    return block;
}

void *realloc(void *block, size_t size) {
    static void *(*next)(void *, size_t);
    if (!next) next = dlsym(RTLD_NEXT, "realloc");
    if (is_refused()) return NULL;
    void *moved = next(block, size);
    live += block == NULL && moved != NULL;
    return moved;
}

void free(void *block) {
    static void (*next)(void *);
    if (!next) next = dlsym(RTLD_NEXT, "free");
    live -= block != NULL;
    next(block);
}

__attribute__((constructor)) static void begin(void) {
    const char *number = getenv("REFUSE");
    requests = live = 0;
    refused = number ? strtol(number, NULL, 10) : 0;
}

static void tell(void) {
    static int told;
    char line[64];
    if (told++) return;
    int length = snprintf(line, sizeof line, "requests %ld live %ld\n", (long)requests, (long)live);
    if (write(2, line, (size_t)length) != length) abort();
}

// A program may end so, and then no destructor runs.
__attribute__((noreturn)) void _exit(int status) {
    void (*next)(int) = dlsym(RTLD_NEXT, "_exit");
    tell();
    next(status);
    abort();
}

__attribute__((destructor)) static void end(void) { tell(); }
