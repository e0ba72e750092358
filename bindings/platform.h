/*
 * What the library needs of its compiler and its C library, and what a program may define to supply it: on the command
 * line of the compiler, or in a header that RIDDLESAGE_CONFIG names. All of it is optional.
 */
#ifdef RIDDLESAGE_CONFIG
#include RIDDLESAGE_CONFIG
#endif

#include <stddef.h>
#include <stdint.h>

/* What precedes each public function, such as __declspec(dllexport). */
#ifndef RIDDLESAGE_API
#if defined(__GNUC__) && !defined(_WIN32)
#define RIDDLESAGE_API __attribute__((visibility("default")))
#else
#define RIDDLESAGE_API
#endif
#endif

#define EXPORT RIDDLESAGE_API

/* What precedes each function that only the library calls. */
#ifndef RIDDLESAGE_INTERNAL
#define RIDDLESAGE_INTERNAL
#endif

/*
 * The allocator: RIDDLESAGE_MALLOC(size) returns NULL without memory, otherwise memory as malloc does, and
 * RIDDLESAGE_FREE(at) frees it. RIDDLESAGE_REALLOC(at, size) is as realloc, and may be left out.
 */
#ifndef RIDDLESAGE_MALLOC
#ifdef RIDDLESAGE_NO_LIBC
#error "RIDDLESAGE_NO_LIBC needs RIDDLESAGE_MALLOC and RIDDLESAGE_FREE"
#endif
#include <stdlib.h>
#define RIDDLESAGE_MALLOC(size) malloc(size)
#define RIDDLESAGE_REALLOC(at, size) realloc(at, size)
#define RIDDLESAGE_FREE(at) free(at)
#endif

/* With RIDDLESAGE_NO_LIBC there is no string.h; the program has these four functions. */
#ifdef RIDDLESAGE_NO_LIBC
void *memcpy(void *to, const void *from, size_t count);
void *memmove(void *to, const void *from, size_t count);
void *memset(void *to, int byte, size_t count);
int memcmp(const void *one, const void *other, size_t count);
#else
#include <string.h>
#endif
