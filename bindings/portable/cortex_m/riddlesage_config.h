/* How riddlesage_portable.c is built here: ports alone, without a C library, with the allocator of memory.c. */
#include <stddef.h>

void *pool_take(size_t size);
void pool_give(void *at);

#define RIDDLESAGE_PORTS_ONLY
#define RIDDLESAGE_NO_LIBC
#define RIDDLESAGE_MALLOC(size) pool_take(size)
#define RIDDLESAGE_FREE(at) pool_give(at)
