/* The start of a program on a Cortex-M, and its output by semihosting, to a debugger or to qemu. */
#include "start.h"

#include <stddef.h>
#include <stdint.h>

extern unsigned char data_from[], data_begin[], data_end[], bss_begin[], bss_end[], stack_top[];

void reset(void);

/* What the processor loads first: the stack pointer, and where to begin. */
__attribute__((section(".vectors"), used)) static const struct {
  const void *stack;
  void (*reset)(void);
} vectors = { stack_top, reset };

/* A request to the host (Semihosting for AArch32 and AArch64): 4 writes a text, 24 ends the program. */
static void call_host(uint32_t request, uintptr_t argument)
{
  register uint32_t r0 __asm__("r0") = request;
  register uintptr_t r1 __asm__("r1") = argument;

  __asm__ volatile("bkpt 0xab" : "+r"(r0) : "r"(r1) : "memory");
}

void print(const char *text)
{
  call_host(4, (uintptr_t)text);
}

void print_number(uint32_t number)
{
  char digits[11], *at = digits + sizeof digits - 1;

  *at = '\0';
  do
    *--at = (char)('0' + number % 10);
  while ((number /= 10) != 0);
  print(at);
}

void reset(void)
{
  memcpy(data_begin, data_from, (size_t)(data_end - data_begin));
  memset(bss_begin, 0, (size_t)(bss_end - bss_begin));
  call_host(24, main() == 0 ? 0x20026 : 0x20023); /* ended by itself, or by an error */
  for (;;) {
  }
}
