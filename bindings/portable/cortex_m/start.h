/* What start.c has for a program, and what it calls. */
#include <stddef.h>
#include <stdint.h>

int main(void);
void *memcpy(void *to, const void *from, size_t count);
void *memset(void *to, int byte, size_t count);
void print(const char *text);
void print_number(uint32_t number);
