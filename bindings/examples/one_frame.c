/*
 * The example of bindings/README.md: one port sends a frame, and another receives it.
 *
 *     cc -I bindings -o one_frame bindings/examples/one_frame.c bindings/out/libriddlesage.a
 */
#include "riddlesage.h"

#include <stdio.h>

int main(void)
{
  riddlesage_port sender = RIDDLESAGE_PORT_INIT, receiver = RIDDLESAGE_PORT_INIT;
  riddlesage_frame frame = { 0x123, 0, 0, 2, { 0xaa, 0x55 } };
  uint8_t level, other, event;
  int time;

  riddlesage_port_idle(&sender, 16, 64); /* capacity: 16 queued frames, 64 log entries */
  riddlesage_port_idle(&receiver, 16, 64);
  riddlesage_port_offer(&sender, &frame);
  for (time = 0; time < 80; time++) {
    riddlesage_port_drive(&sender, &level); /* 0 at first: a start of frame */
    riddlesage_port_drive(&receiver, &other);
    riddlesage_port_sample(&sender, level & other, &event, NULL);
    riddlesage_port_sample(&receiver, level & other, &event, &frame);
    if (event == RIDDLESAGE_RECEIVED)
      printf("%03x %02x%02x at %d\n", frame.identifier, frame.data[0], frame.data[1], time); /* 123 aa55 at 60 */
  }
  riddlesage_port_free(&sender);
  riddlesage_port_free(&receiver);
  return 0;
}
