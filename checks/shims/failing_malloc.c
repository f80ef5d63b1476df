/* A malloc and a realloc of which the call of the number in FAIL_AT fails, counted together from 1. With FAIL_COUNT set, their number is written
   to standard error at the end. checks/each_allocation loads it before the C library. */
#define _GNU_SOURCE
#include <dlfcn.h>
#include <stdio.h>
#include <stdlib.h>

static long calls, failing;
static void *(*system_malloc)(size_t);
static void *(*system_realloc)(void *, size_t);

__attribute__((constructor)) static void begin(void) {
    const char *at = getenv("FAIL_AT");
    system_malloc = (void *(*)(size_t))dlsym(RTLD_NEXT, "malloc");
    system_realloc = (void *(*)(void *, size_t))dlsym(RTLD_NEXT, "realloc");
    failing = at ? atol(at) : 0;
    calls = 0;
}

__attribute__((destructor)) static void end(void) {
    long made = calls;
    if (getenv("FAIL_COUNT")) fprintf(stderr, "%ld\n", made);
}

void *malloc(size_t size) {
    if (!system_malloc) begin();
    return ++calls == failing ? NULL : system_malloc(size);
}

void *realloc(void *old, size_t size) {
    if (!system_realloc) begin();
    return ++calls == failing ? NULL : system_realloc(old, size);
}
