/*
 * `door N`: two ports on one bus, for N bit times. The first transmits frame after frame; the number of frames is
 * printed. With `door N wire` the bus is a riddlesage_wire.
 */
#include "riddlesage.h"

#include <stdio.h>
#include <stdlib.h>

static void demand(riddlesage_status status)
{
  if (status != RIDDLESAGE_OK)
    exit(EXIT_FAILURE);
}

int main(int count, char **words)
{
  static const riddlesage_frame frame = { 0x123, 0, 0, 8, { 0x01, 0x23, 0x45, 0x67, 0x89, 0xab, 0xcd, 0xef } };
  riddlesage_port one = RIDDLESAGE_PORT_INIT, other = RIDDLESAGE_PORT_INIT;
  riddlesage_wire wire = RIDDLESAGE_WIRE_INIT;
  long bits = count > 1 ? atol(words[1]) : 0, time, sent = 0;

  demand(riddlesage_port_idle(&one, 1, 0));
  demand(riddlesage_port_idle(&other, 0, 0));
  demand(riddlesage_port_offer(&one, &frame));
  for (time = 0; time < bits; time++) {
    uint8_t drives[2], seen[2], level, event;
    demand(riddlesage_port_drive(&one, &drives[0]));
    demand(riddlesage_port_drive(&other, &drives[1]));
    if (count > 2)
      demand(riddlesage_wire_step(&wire, drives, 2, NULL, 0, &level, seen));
    else
      seen[0] = seen[1] = drives[0] & drives[1];
    demand(riddlesage_port_sample(&other, seen[1], &event, NULL));
    demand(riddlesage_port_sample(&one, seen[0], &event, NULL));
    if (event == RIDDLESAGE_SENT) {
      sent++;
      demand(riddlesage_port_offer(&one, &frame));
    }
  }
  printf("%ld\n", sent);
  demand(riddlesage_port_free(&one));
  demand(riddlesage_port_free(&other));
  return EXIT_SUCCESS;
}
