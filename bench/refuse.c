/* Refuses one allocation: loaded before the C library, it lets the allocation fail whose number, from 1, is in
   REFUSE fail, and leaves how many there were in the file that COUNT names. */
#define _GNU_SOURCE
#include <dlfcn.h>
#include <errno.h>
#include <stddef.h>
#include <stdio.h>
#include <stdlib.h>

static unsigned long allocations;

static int is_refused(void) {
    const char *number = getenv("REFUSE");
    allocations += 1;
    if (number == NULL || allocations != strtoul(number, NULL, 10)) {
        return 0;
    }
    errno = ENOMEM;
    return 1;
}

void *malloc(size_t size) {
    static void *(*next)(size_t);
    if (next == NULL) {
        next = (void *(*)(size_t))dlsym(RTLD_NEXT, "malloc");
    }
    return is_refused() ? NULL : next(size);
}

void *realloc(void *block, size_t size) {
    static void *(*next)(void *, size_t);
    if (next == NULL) {
        next = (void *(*)(void *, size_t))dlsym(RTLD_NEXT, "realloc");
    }
    return is_refused() ? NULL : next(block, size);
}

__attribute__((destructor)) static void report(void) {
    const char *name = getenv("COUNT");
    FILE *file = name == NULL ? NULL : fopen(name, "w");
    if (file != NULL) {
        fprintf(file, "%lu\n", allocations);
        fclose(file);
    }
}
