/*
 * The machine for translated code: registers are variables of a function, memory and stack are those of the program.
 * C11 for gcc, clang and MSVC, without undefined behaviour: numbers are unsigned, and memory is copied.
 *
 * An address of the machine has 64 bits. If an address of C has 32, the bits above them are 0 in each address that code
 * uses, and addresses are computed modulo 2^64, so that cutting a sum to 32 bits gives the same place.
 */
#include <stddef.h>
#include <stdint.h>

typedef uint8_t u8;
typedef uint16_t u16;
typedef uint32_t u32;
typedef uint64_t u64;
typedef int8_t i8;
typedef int16_t i16;
typedef int32_t i32;
typedef int64_t i64;

/* Code need not use every function here. */
#if defined(__GNUC__) || defined(__clang__)
#define INLINE static inline __attribute__((unused))
#else
#define INLINE static inline
#endif

/* Without a C library, compilers have these functions. */
#ifndef MACHINE_HAS_MEMORY
#define memcpy __builtin_memcpy
#define memmove __builtin_memmove
#define memset __builtin_memset
#endif

/* The end of the program, at a place that no code should reach. */
#if defined(__GNUC__)
#define END __builtin_trap()
#elif defined(_MSC_VER)
#define END __fastfail(7)
void __fastfail(unsigned);
#pragma intrinsic(__fastfail)
#else
#define END for (;;)
#endif

/* Addresses as numbers and as pointers; places in the frame of a function; and sizes, which no block exceeds. */
#define ADDRESS(place) ((u64)(uintptr_t)(place))
#define PLACE(at) ((u8 *)(uintptr_t)(at))
#define FRAME(at) ((u8 *)frame + (at))
#define SIZE(count) ((size_t)(count))

/* Data with addresses in it: an address of the machine has eight bytes. */
#if UINTPTR_MAX > 0xffffffff
struct address { const u8 *low; };
#define INITIAL_ADDRESS(place) { place }
#else
struct address { const u8 *low; u32 high; };
#define INITIAL_ADDRESS(place) { place, 0 }
#endif
#define CONSTANT_HAS(name, bytes) _Static_assert(sizeof(name) == (bytes), "the data have no gaps");

/* Memory at any alignment: the machine requires none. A load of a signed type extends the sign. */
#define LOAD_AND_STORE(type) \
  INLINE u64 load_##type(const u8 *at) { type it; memcpy(&it, at, sizeof it); return it; } \
  INLINE void store_##type(u8 *at, u64 value) { type it = (type)value; memcpy(at, &it, sizeof it); }
LOAD_AND_STORE(u8)
LOAD_AND_STORE(u16)
LOAD_AND_STORE(u32)
LOAD_AND_STORE(u64)
#define LOAD_SIGNED(type) \
  INLINE u64 load_##type(const u8 *at) { type it; memcpy(&it, at, sizeof it); return (u64)(i64)it; }
LOAD_SIGNED(i8)
LOAD_SIGNED(i16)
LOAD_SIGNED(i32)

/* Integers, for operations that C leaves undefined and the machine defines. */
INLINE u64 quotient_64(u64 a, u64 b) { return b == 0 ? 0 : a / b; }
INLINE u64 quotient_32(u64 a, u64 b) { return (u32)b == 0 ? 0 : (u32)a / (u32)b; }
INLINE u64 quotient_signed_64(u64 a, u64 b)
{
  return b == 0 ? 0 : b == ~(u64)0 ? 0 - a : (u64)((i64)a / (i64)b);
}
INLINE u64 quotient_signed_32(u64 a, u64 b) { return (u32)b == 0 ? 0 : (u64)((i64)(i32)a / (i32)b); }
INLINE u64 rotated_64(u64 a, u64 by) { return a >> by | a << ((64 - by) & 63); }
INLINE u64 rotated_32(u32 a, u64 by) { return a >> by | a << ((32 - by) & 31); }
INLINE u64 leading_zeros_64(u64 a)
{
  u64 count = 0;
  if (a == 0)
    return 64;
  for (int by = 32; by > 0; by /= 2) {
    if (a >> (64 - by) == 0) {
      a <<= by;
      count += (u64)by;
    }
  }
  return count;
}
INLINE u64 leading_zeros_32(u64 a) { return (u32)a == 0 ? 32 : leading_zeros_64(a << 32); }
/* Neighbours change places: bits, pairs of bits, and so on. */
#define TURNED(a, by, mask) (((a) >> (by) & (mask)) | ((a) & (mask)) << (by))
INLINE u64 reversed_bytes_64(u64 a)
{
  a = TURNED(a, 8, 0x00ff00ff00ff00ffu);
  a = TURNED(a, 16, 0x0000ffff0000ffffu);
  return a >> 32 | a << 32;
}
INLINE u64 reversed_bytes_32(u64 a) { return reversed_bytes_64(a) >> 32; }
INLINE u64 reversed_bits_64(u64 a)
{
  a = TURNED(a, 1, 0x5555555555555555u);
  a = TURNED(a, 2, 0x3333333333333333u);
  a = TURNED(a, 4, 0x0f0f0f0f0f0f0f0fu);
  return reversed_bytes_64(a);
}
INLINE u64 reversed_bits_32(u64 a) { return reversed_bits_64(a) >> 32; }
INLINE u64 high(u64 a, u64 b)
{
  u64 low = (u32)a, up = a >> 32, other = (u32)b, most = b >> 32;
  u64 middle = up * other + (low * other >> 32);
  u64 carried = low * most + (u32)middle;
  return up * most + (middle >> 32) + (carried >> 32);
}
INLINE u64 high_signed(u64 a, u64 b)
{
  return high(a, b) - ((i64)a < 0 ? b : 0) - ((i64)b < 0 ? a : 0);
}
INLINE u64 larger(u64 a, u64 b) { return a > b ? a : b; }
INLINE u64 smaller(u64 a, u64 b) { return a < b ? a : b; }

/*
 * Half a vector, with the first lane in the lowest bits. Lanes are computed at once: TOP_n has the highest bit of each
 * lane, which is kept apart so that no carry leaves it. FULL makes all bits of a lane of its highest one.
 */
#define TOP_8 0x8080808080808080u
#define TOP_16 0x8000800080008000u
#define TOP_32 0x8000000080000000u
#define TOP_64 0x8000000000000000u
#define FULL(tops, bits) ((tops) | ((tops) - ((tops) >> (bits - 1))))
#define LANES_AT_ONCE(bits) \
  INLINE u64 add_##bits(u64 a, u64 b) \
  { \
    return ((a & ~TOP_##bits) + (b & ~TOP_##bits)) ^ ((a ^ b) & TOP_##bits); \
  } \
  INLINE u64 sub_##bits(u64 a, u64 b) \
  { \
    return ((a | TOP_##bits) - (b & ~TOP_##bits)) ^ ((a ^ ~b) & TOP_##bits); \
  } \
  INLINE u64 cmeq_##bits(u64 a, u64 b) \
  { \
    u64 differ = a ^ b, tops = ~(((differ & ~TOP_##bits) + ~TOP_##bits) | differ) & TOP_##bits; \
    return FULL(tops, bits); \
  } \
  INLINE u64 cmhs_##bits(u64 a, u64 b) \
  { \
    u64 below = (a | TOP_##bits) - (b & ~TOP_##bits), tops = ((a & ~b) | (~(a ^ b) & below)) & TOP_##bits; \
    return FULL(tops, bits); \
  } \
  INLINE u64 cmhi_##bits(u64 a, u64 b) { return ~cmhs_##bits(b, a); } \
  INLINE u64 cmge_##bits(u64 a, u64 b) { return cmhs_##bits(a ^ TOP_##bits, b ^ TOP_##bits); } \
  INLINE u64 cmgt_##bits(u64 a, u64 b) { return ~cmge_##bits(b, a); } \
  INLINE u64 umax_##bits(u64 a, u64 b) { return b ^ ((a ^ b) & cmhs_##bits(a, b)); } \
  INLINE u64 umin_##bits(u64 a, u64 b) { return a ^ ((a ^ b) & cmhs_##bits(a, b)); } \
  INLINE u64 uqsub_##bits(u64 a, u64 b) { return sub_##bits(a, b) & cmhs_##bits(a, b); } \
  INLINE u64 ushr_##bits(u64 a, int by) \
  { \
    return a >> by & (TOP_##bits >> (bits - 1)) * (~(u64)0 >> (64 - bits) >> by); \
  } \
  INLINE u64 shl_##bits(u64 a, int by) \
  { \
    return (a & ushr_##bits(~(u64)0, by)) << by; \
  } \
  INLINE u64 sshr_##bits(u64 a, int by) \
  { \
    u64 tops = a & TOP_##bits; \
    return ushr_##bits(a, by) | (FULL(tops, bits) & ~ushr_##bits(~(u64)0, by)); \
  }
LANES_AT_ONCE(8)
LANES_AT_ONCE(16)
LANES_AT_ONCE(32)
LANES_AT_ONCE(64)

/* Operations whose lanes are computed one by one, each from the lanes x and y of two halves. */
#define LANE_BY_LANE(name, bits, value) \
  INLINE u64 name##_##bits(u64 a, u64 b) \
  { \
    u64 all = 0; \
    for (int at = 0; at < 64; at += bits) { \
      u64 x = (u##bits)(a >> at), y = (u##bits)(b >> at); \
      all |= (u64)(u##bits)(value) << at; \
    } \
    return all; \
  }
INLINE u64 shifted_lane(u64 lane, int by, int bits)
{
  return by <= -bits || by >= bits ? 0 : by < 0 ? lane >> -by : lane << by;
}
#define LANES_ONE_BY_ONE(bits) \
  LANE_BY_LANE(mul, bits, x * y) LANE_BY_LANE(ushl, bits, shifted_lane(x, (i8)y, bits))
LANES_ONE_BY_ONE(8)
LANES_ONE_BY_ONE(16)
LANES_ONE_BY_ONE(32)
LANES_ONE_BY_ONE(64)
INLINE u64 count_8(u64 a)
{
  a -= a >> 1 & 0x5555555555555555u;
  a = (a & 0x3333333333333333u) + (a >> 2 & 0x3333333333333333u);
  return (a + (a >> 4)) & 0x0f0f0f0f0f0f0f0fu;
}

/* One number of all lanes of a half. */
#define ACROSS(name, bits, start, step) \
  INLINE u64 name##_##bits(u64 a) \
  { \
    u64 all = start; \
    for (int at = 0; at < 64; at += bits) \
      all = step(all, (u##bits)(a >> at)); \
    return all; \
  }
#define SUM(a, b) ((a) + (b))
#define ALL_LANES(bits) \
  ACROSS(all_add, bits, 0, SUM) ACROSS(all_max, bits, 0, larger) ACROSS(all_min, bits, ~(u64)0, smaller)
ALL_LANES(8)
ALL_LANES(16)
ALL_LANES(32)

/* Lanes of 32 bits' worth with twice the width, their low halves in 32 bits, and the lanes of two by turns. */
#define OTHER_LANES(bits, twice) \
  INLINE u64 widened_u##bits(u64 a) \
  { \
    u64 all = 0; \
    for (int at = 0; at < 32; at += bits) \
      all |= (u64)(u##bits)(a >> at) << (2 * at); \
    return all; \
  } \
  INLINE u64 widened_i##bits(u64 a) \
  { \
    u64 all = 0; \
    for (int at = 0; at < 32; at += bits) \
      all |= (u64)(u##twice)(i##bits)(a >> at) << (2 * at); \
    return all; \
  } \
  INLINE u64 narrowed_##bits(u64 a) \
  { \
    u64 all = 0; \
    for (int at = 0; at < 32; at += bits) \
      all |= (u64)(u##bits)(a >> (2 * at)) << at; \
    return all; \
  } \
  INLINE u64 zipped_##bits(u64 a, u64 b) { return widened_u##bits(a) | widened_u##bits(b) << bits; }
OTHER_LANES(8, 16)
OTHER_LANES(16, 32)
OTHER_LANES(32, 64)

/* Floating-point numbers of 64 bits. */
INLINE double fraction_of(u64 bits) { double it; memcpy(&it, &bits, sizeof it); return it; }
INLINE u64 bits_of(double fraction) { u64 it; memcpy(&it, &fraction, sizeof it); return it; }
INLINE int is_unordered(double a, double b) { return a != a || b != b; }

#ifdef MACHINE_HAS_MEMORY
#define compared(a, b, count) ((u64)(u32)memcmp(a, b, count))
#else
INLINE u64 compared(const u8 *a, const u8 *b, size_t count)
{
  for (size_t place = 0; place < count; place++) {
    if (a[place] != b[place])
      return (u32)(a[place] - b[place]);
  }
  return 0;
}
#endif

/* The allocator that the proved code needs (heap.c). No block is larger than memory. */
#ifndef MACHINE_HAS_HEAP
struct tried {
  size_t given;
  void *at;
};
struct tried rattle_alloc(size_t size, size_t alignment);
struct tried rattle_realloc(void *at, size_t kept, size_t size, size_t alignment);
void rattle_dealloc(void *at);
#endif
#define HAS_x0_x1
struct x0_x1 { u64 x0, x1; };
INLINE struct x0_x1 allocated(u64 size, u64 alignment)
{
  struct x0_x1 result = { 0, 1 };
  if (size <= SIZE_MAX) {
    struct tried tried = rattle_alloc(SIZE(size), SIZE(alignment));
    result.x0 = tried.given;
    result.x1 = ADDRESS(tried.at);
  }
  return result;
}
INLINE struct x0_x1 reallocated(u64 at, u64 kept, u64 size, u64 alignment)
{
  struct x0_x1 result = { 0, 1 };
  if (size <= SIZE_MAX) {
    struct tried tried = rattle_realloc(PLACE(at), SIZE(kept), SIZE(size), SIZE(alignment));
    result.x0 = tried.given;
    result.x1 = ADDRESS(tried.at);
  }
  return result;
}

/* A call that the host of the program makes. */
#ifdef __wasm__
#define HOST_CALL(name) __attribute__((export_name(#name))) u32 name
#else
#define HOST_CALL(name) u32 name
#endif
