/*
 * Two ports on a bus, simulated with one call. One of them is given a frame at run time, and an injected bit error makes
 * it send the frame again.
 *
 *     cc -I bindings -o one_bus bindings/examples/one_bus.c bindings/out/libriddlesage.a
 */
#include "riddlesage.h"

#include <stdio.h>
#include <stdlib.h>

int main(void)
{
  riddlesage_port sender = RIDDLESAGE_PORT_INIT, receiver = RIDDLESAGE_PORT_INIT;
  riddlesage_port *ports[] = { &sender, &receiver };
  riddlesage_offer offer = { 5, 0, { 0x123, 0, 0, 0, { 0 } } }; /* to port 0, before bit time 5 */
  riddlesage_hit hit = { 0, 0, 16, 0, RIDDLESAGE_HIT_IN };      /* 16 bit times after the start of attempt 0 */
  riddlesage_status status;
  uint16_t transmit, receive;
  uint8_t levels[200];
  size_t count;

  riddlesage_port_idle(&sender, 16, 64);
  riddlesage_port_idle(&receiver, 16, 64);
  status = riddlesage_play(ports, 2, &offer, 1, &hit, 1, levels, 200, NULL);
  riddlesage_port_counters(&sender, &transmit, &receive);
  riddlesage_port_log_length(&receiver, &count);
  printf("tec %d, received %d\n", transmit, (int)count); /* tec 7, received 1 */
  riddlesage_port_free(&sender);
  riddlesage_port_free(&receiver);
  return status == RIDDLESAGE_OK ? EXIT_SUCCESS : EXIT_FAILURE;
}
