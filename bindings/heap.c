/*
 * The memory functions that the proved archives need, over those of platform.h. They are trusted: a block has at least
 * the requested size, and is aligned as its size allows, to at most 16, as malloc's blocks are.
 */
#include "platform.h"

#include <stdbool.h>

/* Whether there was memory, and its address, which has no meaning if not. */
struct tried {
  bool given;
  void *at;
};

RIDDLESAGE_INTERNAL struct tried rattle_alloc(size_t size, size_t alignment);
RIDDLESAGE_INTERNAL struct tried rattle_realloc(void *at, size_t kept, size_t size, size_t alignment);
RIDDLESAGE_INTERNAL void rattle_dealloc(void *at);

static struct tried tried(void *at)
{
  static char nowhere;
  struct tried result = { at != NULL, at != NULL ? at : &nowhere };
  return result;
}

RIDDLESAGE_INTERNAL struct tried rattle_alloc(size_t size, size_t alignment)
{
  return tried(RIDDLESAGE_MALLOC(size != 0 ? size : alignment));
}

RIDDLESAGE_INTERNAL struct tried rattle_realloc(void *at, size_t kept, size_t size, size_t alignment)
{
#ifdef RIDDLESAGE_REALLOC
  (void)kept;
  return tried(RIDDLESAGE_REALLOC(at, size != 0 ? size : alignment));
#else
  struct tried moved = rattle_alloc(size, alignment);

  if (moved.given) {
    memcpy(moved.at, at, kept < size ? kept : size);
    RIDDLESAGE_FREE(at);
  }
  return moved;
#endif
}

RIDDLESAGE_INTERNAL void rattle_dealloc(void *at)
{
  RIDDLESAGE_FREE(at);
}
