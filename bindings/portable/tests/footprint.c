/*
 * What a port needs on a Cortex-M4: two ports on a bus with random bit errors. Prints the bytes of stack that the calls
 * used at most, the bytes of one port from the allocator, and the bytes of its struct.
 */
#include "riddlesage.h"
#include "start.h"

enum { QUEUE = 4, LOG = 4, TIMES = 20000, LEFT = 64, PAINT = 0xa5 };

size_t pool_taken(void);

extern unsigned char bss_end[];

static uint32_t state = 1;

static uint32_t chance(uint32_t count)
{
  state = state * 1664525 + 1013904223;
  return (state >> 8) % count;
}

/* The calls of a bit time: one level in 200 is inverted for one of the ports. */
static void step(riddlesage_port *ports, uint32_t time)
{
  riddlesage_frame frame = { chance(0x800), 0, 0, (uint8_t)chance(9), { 0xaa, 0x55 } };
  riddlesage_standing standing;
  uint16_t transmit, receive;
  uint8_t level, other, event, place;
  size_t count;

  if (time % 64 == 0)
    riddlesage_port_offer(&ports[chance(2)], &frame);
  riddlesage_port_drive(&ports[0], &level);
  riddlesage_port_drive(&ports[1], &other);
  level &= other;
  for (place = 0; place < 2; place++) {
    riddlesage_port_sample(&ports[place], chance(200) == 0 ? !level : level, &event, &frame);
    riddlesage_port_counters(&ports[place], &transmit, &receive);
    riddlesage_port_phase(&ports[place], &standing);
    riddlesage_port_log_length(&ports[place], &count);
  }
}

static void play(riddlesage_port *ports)
{
  uint32_t time;

  for (time = 0; time < TIMES; time++)
    step(ports, time);
}

/* Runs a function on a painted stack, and returns how much of it was used. */
static size_t painted(void (*run)(riddlesage_port *), riddlesage_port *ports)
{
  unsigned char here;
  uintptr_t at, end = (uintptr_t)&here;

  for (at = (uintptr_t)bss_end; at < end - LEFT; at++)
    *(volatile unsigned char *)at = PAINT;
  run(ports);
  for (at = (uintptr_t)bss_end; *(volatile unsigned char *)at == PAINT; at++)
    ;
  return (size_t)(end - at);
}

int main(void)
{
  riddlesage_port ports[2] = { RIDDLESAGE_PORT_INIT, RIDDLESAGE_PORT_INIT };
  size_t first, stack;

  if (riddlesage_port_idle(&ports[0], QUEUE, LOG) != RIDDLESAGE_OK)
    return 1;
  first = pool_taken();
  if (riddlesage_port_idle(&ports[1], QUEUE, LOG) != RIDDLESAGE_OK)
    return 1;
  stack = painted(play, ports);
  print("stack ");
  print_number((uint32_t)stack);
  print(" allocated ");
  print_number((uint32_t)first);
  print(" struct ");
  print_number(sizeof ports[0]);
  print("\n");
  return 0;
}
