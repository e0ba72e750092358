/*
 * Runs each form of an instruction (instructions) on the same generated registers and memory, and writes the results:
 * as a program of AArch64; and as a module of WebAssembly, or a program for this machine, for which page/translate
 * wrote the forms.
 */
#include "forms.h" /* FORM_COUNT and forms, each a function of what it reads and what it writes */

#include <stdint.h>

enum { ROUNDS = 40, BYTES = 512 };

#ifdef __wasm__
__attribute__((import_module("host"), import_name("put"))) void put(const void *bytes, unsigned long count);
__attribute__((export_name("play"))) void play(void);
#elif __STDC_HOSTED__
#include <stdio.h>

void play(void);

static void put(const void *bytes, unsigned long count)
{
  fwrite(bytes, 1, count, stdout);
}

int main(void)
{
  play();
  return ferror(stdout) || fflush(stdout) != 0;
}
#else
void play(void);

static void call_system(long number, long first, const void *second, unsigned long third)
{
  register long x8 __asm__("x8") = number;
  register long x0 __asm__("x0") = first;
  register const void *x1 __asm__("x1") = second;
  register unsigned long x2 __asm__("x2") = third;
  __asm__ volatile("svc #0" : "+r"(x0) : "r"(x8), "r"(x1), "r"(x2) : "memory");
}

static void put(const void *bytes, unsigned long count)
{
  call_system(64, 1, bytes, count);
}

void _start(void)
{
  play();
  call_system(93, 0, 0, 0);
}
#endif

static _Alignas(64) union {
  uint64_t words[BYTES / 8];
  double fractions[BYTES / 8];
} given;
static _Alignas(64) uint64_t reported[BYTES / 8];
static uint64_t state = 88172645463325252;

static uint64_t chance(void)
{
  state ^= state << 13;
  state ^= state >> 7;
  state ^= state << 17;
  return state;
}

/* A number, often one at which something changes. */
static uint64_t made(void)
{
  static const uint64_t some[] = {
    0, 1, 2, UINT64_MAX, INT64_MAX, UINT64_C(1) << 63, UINT64_C(1) << 31, INT32_MAX, UINT32_MAX, UINT64_C(1) << 32,
    UINT64_C(0xffffffff80000000), 31, 32, 63, 64, 0x80, 0xff, UINT64_C(0x8080808080808080), UINT64_C(0xff00ff00ff00ff),
  };
  switch (chance() % 8) {
  case 0:
  case 1:
  case 2:
    return some[chance() % (sizeof some / sizeof *some)];
  case 3:
    return chance() >> chance() % 64;
  case 4:
    return (uint64_t)((int64_t)chance() >> chance() % 64);
  default:
    return chance();
  }
}

static double made_fraction(void)
{
  double sign = chance() % 2 ? 0.001 : -3.5;
  return (double)(1 + (chance() >> 4 >> chance() % 59)) * sign;
}

/* The inputs of a form: integers, in some rounds equal ones; floating-point numbers from byte 128, NaN from 256. */
static void make(int round)
{
  for (int place = 0; place < BYTES / 8; place++) {
    given.words[place] = made();
    reported[place] = UINT64_C(0xa5a5a5a5a5a5a5a5);
  }
  if (round % 5 == 0)
    given.words[1] = given.words[2];
  if (round % 7 == 0)
    given.words[14] = given.words[15];
  for (int place = 16; place < 24; place++)
    given.fractions[place] = made_fraction();
  if (round % 6 == 1)
    given.fractions[17] = given.fractions[16];
  given.words[32] = UINT64_C(0x7ff8000000000000);
}

void play(void)
{
  for (int form = 0; form < FORM_COUNT; form++) {
    for (int round = 0; round < ROUNDS; round++) {
      make(round);
      forms[form]((uintptr_t)&given, (uintptr_t)reported);
      put(reported, BYTES);
    }
  }
}
