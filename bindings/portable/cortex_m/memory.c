/*
 * Memory without a C library: the four functions that compilers need, and an allocator that takes blocks from a pool,
 * one after another. No block is freed: ports are made at the start of a program, and stay.
 */
#include "riddlesage_config.h"

#include <stdint.h>

enum { POOL_BYTES = 8192, ALIGNMENT = 8 };

static uint64_t pool[POOL_BYTES / sizeof(uint64_t)];
static size_t taken;

size_t pool_taken(void)
{
  return taken;
}

void *pool_take(size_t size)
{
  size_t whole = (size + ALIGNMENT - 1) / ALIGNMENT * ALIGNMENT;
  void *at = (unsigned char *)pool + taken;

  if (whole < size || whole > POOL_BYTES - taken)
    return NULL;
  taken += whole;
  return at;
}

void pool_give(void *at)
{
  (void)at;
}

void *memcpy(void *to, const void *from, size_t count)
{
  unsigned char *out = to;
  const unsigned char *in = from;

  while (count-- > 0)
    *out++ = *in++;
  return to;
}

void *memmove(void *to, const void *from, size_t count)
{
  unsigned char *out = to;
  const unsigned char *in = from;

  if ((uintptr_t)out <= (uintptr_t)in)
    return memcpy(to, from, count);
  while (count-- > 0)
    out[count] = in[count];
  return to;
}

void *memset(void *to, int byte, size_t count)
{
  unsigned char *out = to;

  while (count-- > 0)
    *out++ = (unsigned char)byte;
  return to;
}

int memcmp(const void *one, const void *other, size_t count)
{
  const unsigned char *a = one, *b = other;

  for (; count > 0; count--, a++, b++)
    if (*a != *b)
      return *a - *b;
  return 0;
}
