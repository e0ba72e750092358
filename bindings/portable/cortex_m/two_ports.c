/* Two ports on a bus, on a Cortex-M4 without a C library: the first sends a frame, the second receives it. */
#include "riddlesage.h"
#include "start.h"

enum { QUEUE = 4, LOG = 4, TIMES = 80 };

static void print_hex(uint32_t number, int digits)
{
  char text[2] = { 0, 0 };

  while (digits-- > 0) {
    text[0] = "0123456789abcdef"[number >> 4 * digits & 15];
    print(text);
  }
}

int main(void)
{
  riddlesage_port sender = RIDDLESAGE_PORT_INIT, receiver = RIDDLESAGE_PORT_INIT;
  riddlesage_frame frame = { 0x123, 0, 0, 2, { 0xaa, 0x55 } };
  uint8_t level, other, event;
  uint32_t time;

  if (riddlesage_port_idle(&sender, QUEUE, LOG) != RIDDLESAGE_OK ||
      riddlesage_port_idle(&receiver, QUEUE, LOG) != RIDDLESAGE_OK)
    return 1;
  riddlesage_port_offer(&sender, &frame);
  for (time = 0; time < TIMES; time++) {
    riddlesage_port_drive(&sender, &level);
    riddlesage_port_drive(&receiver, &other);
    riddlesage_port_sample(&sender, level & other, &event, NULL);
    riddlesage_port_sample(&receiver, level & other, &event, &frame);
    if (event == RIDDLESAGE_RECEIVED) {
      print_hex(frame.identifier, 3);
      print(" ");
      print_hex((uint32_t)frame.data[0] << 8 | frame.data[1], 4);
      print(" at ");
      print_number(time);
      print("\n"); /* 123 aa55 at 60 */
    }
  }
  return 0;
}
