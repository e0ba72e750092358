/*
 * The memory allocator that the proved module needs from its host. It is trusted: a block is at least as large as
 * requested, aligned as requested, and overlaps no block in use. Blocks follow one another, from the address that the
 * page sets to the end of memory. The last block may grow, shrink or be freed; other freed blocks are free again only
 * after page_heap_begin.
 */
typedef __SIZE_TYPE__ size_t;

enum { PAGE_BYTES = 65536 };

/* Whether there was memory, and its address, which has no meaning if there was none. Both are as wide as an address. */
struct tried {
  size_t given;
  char *at;
};

struct tried rattle_alloc(size_t size, size_t alignment);
struct tried rattle_realloc(char *at, size_t kept, size_t size, size_t alignment);
void rattle_dealloc(char *at);
void page_heap_begin(char *at);

/* The beginning of the last block, and the address after it. */
static char *last;
static char *next;

/* Frees all blocks; the next one will be here or after it. No value that was made before may be in use. */
__attribute__((export_name("page_heap_begin"))) void page_heap_begin(char *at)
{
  last = at;
  next = at;
}

/* A block of this size that begins here, if there is enough memory. */
static struct tried placed(char *at, size_t size)
{
  size_t end = __builtin_wasm_memory_size(0) * PAGE_BYTES;
  if ((size_t)at > end || size > end - (size_t)at) {
    return (struct tried){ 0, next };
  }
  last = at;
  next = at + size;
  return (struct tried){ 1, at };
}

struct tried rattle_alloc(size_t size, size_t alignment)
{
  size_t over = (size_t)next % alignment;
  return placed(over == 0 ? next : next + (alignment - over), size != 0 ? size : alignment);
}

struct tried rattle_realloc(char *at, size_t kept, size_t size, size_t alignment)
{
  if (at == last) {
    return placed(at, size != 0 ? size : alignment);
  }
  struct tried moved = rattle_alloc(size, alignment);
  if (moved.given) {
    __builtin_memcpy(moved.at, at, kept < size ? kept : size);
  }
  return moved;
}

void rattle_dealloc(char *at)
{
  if (at == last) {
    next = at;
  }
}
