/*
 * A port and a controller of your own on one bus, bit time by bit time. An injected bit error makes the port send its
 * frame again.
 *
 *     cc -I bindings -o one_wire bindings/examples/one_wire.c bindings/out/libriddlesage.a
 */
#include "riddlesage.h"

#include <stdio.h>
#include <stdlib.h>

/* Your own controller. Here it is another port. */
static riddlesage_port own = RIDDLESAGE_PORT_INIT;

static uint8_t own_drive(void)
{
  uint8_t level;

  riddlesage_port_drive(&own, &level);
  return level;
}

static void own_sample(uint8_t level)
{
  uint8_t event;

  riddlesage_port_sample(&own, level, &event, NULL);
}

int main(void)
{
  riddlesage_port port = RIDDLESAGE_PORT_INIT;
  riddlesage_frame frame = { 0x123, 0, 0, 0, { 0 } };
  riddlesage_wire wire = RIDDLESAGE_WIRE_INIT;
  riddlesage_hit hit = { 0, 0, 16, 0, RIDDLESAGE_HIT_IN }; /* 16 bit times after the start of attempt 0 */
  riddlesage_status status = RIDDLESAGE_OK;
  uint8_t drives[2], seen[2], level, event;

  riddlesage_port_idle(&port, 16, 64);
  riddlesage_port_idle(&own, 16, 64);
  riddlesage_port_offer(&port, &frame);
  while (status == RIDDLESAGE_OK && wire.time < 200) {
    riddlesage_port_drive(&port, &drives[0]);
    drives[1] = own_drive();
    status = riddlesage_wire_step(&wire, drives, 2, &hit, 1, &level, seen);
    riddlesage_port_sample(&port, seen[0], &event, NULL);
    own_sample(seen[1]);
  }
  printf("attempts %d\n", (int)wire.attempts); /* attempts 2 */
  riddlesage_port_free(&port);
  riddlesage_port_free(&own);
  return status == RIDDLESAGE_OK ? EXIT_SUCCESS : EXIT_FAILURE;
}
