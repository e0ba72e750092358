// The header from C++: a port alone on a bus sends a frame, and nobody acknowledges it.
#include "riddlesage.h"

#include <cstdint>
#include <cstdio>

int main()
{
  riddlesage_port port = RIDDLESAGE_PORT_INIT;
  riddlesage_frame frame = { 0x123, 0, 0, 2, { 0xaa, 0x55 } }, reported = {};
  std::uint8_t level = 9, event = 9;
  bool sent = false;

  if (riddlesage_port_idle(&port, 1, 1) != RIDDLESAGE_OK || riddlesage_port_offer(&port, &frame) != RIDDLESAGE_OK)
    return 1;
  for (int time = 0; time < 100 && !sent; time++) {
    if (riddlesage_port_drive(&port, &level) != RIDDLESAGE_OK)
      return 1;
    if (riddlesage_port_sample(&port, level, &event, &reported) != RIDDLESAGE_OK)
      return 1;
    sent = event == RIDDLESAGE_ACK_ERROR;
  }
  std::printf("%s\n", riddlesage_event_name(static_cast<riddlesage_event>(event)));
  return riddlesage_port_free(&port) == RIDDLESAGE_OK && sent ? 0 : 1;
}
