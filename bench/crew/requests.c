/* Writes to standard error, at the end of each phase: the phase, and how often the calls of its batches called malloc, calloc or realloc. For
   programs with one thread. */
#include "phases.h"
#include <stdio.h>

void *__libc_malloc(size_t);
void *__libc_calloc(size_t, size_t);
void *__libc_realloc(void *, size_t);

static long requests;
static int counts;

void *malloc(size_t size) {
    requests += counts;
    return __libc_malloc(size);
}

void *calloc(size_t count, size_t size) {
    requests += counts;
    return __libc_calloc(count, size);
}

void *realloc(void *block, size_t size) {
    requests += counts;
    return __libc_realloc(block, size);
}

static void start(void) { counts = 1; }

static void stop(void) { counts = 0; }

static void report(const char *phase) {
    char line[80];
    int length = snprintf(line, sizeof line, "%s %ld\n", phase, requests);
    syscall(SYS_write, STDERR_FILENO, line, (size_t)length);
    requests = 0;
}
