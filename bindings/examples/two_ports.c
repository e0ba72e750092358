/*
 * Two ports on one bus, each with a frame to send. It prints the levels of the bus, and the state, counters and log of
 * each port: the output of `canbit run` for examples/scenarios/two_ports.toml.
 *
 *     cc -I bindings -o two_ports bindings/examples/two_ports.c bindings/examples/frame_text.c bindings/out/libriddlesage.a
 */
#include "frame_text.h"
#include "riddlesage.h"

#include <stdio.h>
#include <stdlib.h>

enum { PORTS = 2, BIT_TIMES = 103 };

static void demand(riddlesage_status status)
{
  if (status != RIDDLESAGE_OK) {
    fprintf(stderr, "two_ports: %s\n", riddlesage_status_name(status));
    exit(EXIT_FAILURE);
  }
}

static void offer(riddlesage_port *port, uint32_t identifier)
{
  riddlesage_frame frame = { 0, 0, 0, 0, { 0 } };

  frame.identifier = identifier;
  demand(riddlesage_port_offer(port, &frame));
}

/* One bit time: the bus is dominant if a port drives dominant, and each port samples it. */
static uint8_t bit_time(riddlesage_port ports[PORTS])
{
  uint8_t bus = RIDDLESAGE_RECESSIVE;
  int place;

  for (place = 0; place < PORTS; place++) {
    uint8_t level;
    demand(riddlesage_port_drive(&ports[place], &level));
    bus &= level;
  }
  for (place = 0; place < PORTS; place++) {
    uint8_t event;
    demand(riddlesage_port_sample(&ports[place], bus, &event, NULL));
  }
  return bus;
}

static void print_port(riddlesage_port *port, int place)
{
  static const char *const states[] = { "active", "passive", "off" };
  uint16_t transmit, receive;
  uint32_t missed;
  uint8_t state;
  size_t count, number;

  demand(riddlesage_port_counters(port, &transmit, &receive));
  demand(riddlesage_port_state(port, &state));
  demand(riddlesage_port_missed(port, &missed));
  printf("port %d %s tec %u rec %u missed %lu\n", place, states[state], transmit, receive, (unsigned long)missed);
  demand(riddlesage_port_log_length(port, &count));
  for (number = 0; number < count; number++) {
    riddlesage_frame frame;
    char text[FRAME_TEXT_ROOM];
    uint8_t sent;
    demand(riddlesage_port_entry(port, number, &frame, &sent));
    frame_to_text(&frame, text);
    printf("  %s %s\n", sent ? "sent" : "took", text);
  }
}

int main(void)
{
  riddlesage_port ports[PORTS] = { RIDDLESAGE_PORT_INIT, RIDDLESAGE_PORT_INIT };
  int place;

  for (place = 0; place < PORTS; place++)
    demand(riddlesage_port_idle(&ports[place], 1, 64));
  offer(&ports[0], 0x001);
  offer(&ports[1], 0x000);

  printf("bits %d\n", BIT_TIMES);
  for (place = 0; place < BIT_TIMES; place++)
    putchar('0' + bit_time(ports));
  putchar('\n');
  for (place = 0; place < PORTS; place++)
    print_port(&ports[place], place);
  for (place = 0; place < PORTS; place++)
    demand(riddlesage_port_free(&ports[place]));
  return EXIT_SUCCESS;
}
