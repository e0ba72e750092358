/*
 * Speed of one port through the C library, with a call for each level that it drives and samples (`speed step`), or
 * with one call for all (`speed run`). The levels are those of a busy bus, recorded before; the port receives. Prints
 * millions of bit times per second, the best of five rounds.
 */
#include "riddlesage.h"

#include <stdio.h>
#include <stdlib.h>
#include <string.h>
#include <time.h>

enum { BITS = 1000000, ROUNDS = 5 };

static uint8_t levels[BITS], drives[BITS], events[BITS];

static void demand(riddlesage_status status)
{
  if (status != RIDDLESAGE_OK) {
    fprintf(stderr, "speed: %s\n", riddlesage_status_name(status));
    exit(EXIT_FAILURE);
  }
}

/* Records a bus on which one port sends frame after frame, and another acknowledges. */
static void record(void)
{
  riddlesage_port ports[2] = { RIDDLESAGE_PORT_INIT, RIDDLESAGE_PORT_INIT };
  riddlesage_frame frame = { 0x123, 0, 0, 8, { 0x01, 0x23, 0x45, 0x67, 0x89, 0xab, 0xcd, 0xef } };
  uint8_t level, other, event;
  size_t time;

  demand(riddlesage_port_idle(&ports[0], 1, 0));
  demand(riddlesage_port_idle(&ports[1], 0, 0));
  for (time = 0; time < BITS; time++) {
    if (riddlesage_port_offer(&ports[0], &frame) == RIDDLESAGE_OK)
      frame.identifier = (frame.identifier + 7) % 0x800;
    demand(riddlesage_port_drive(&ports[0], &level));
    demand(riddlesage_port_drive(&ports[1], &other));
    levels[time] = level & other;
    demand(riddlesage_port_sample(&ports[0], levels[time], &event, NULL));
    demand(riddlesage_port_sample(&ports[1], levels[time], &event, NULL));
  }
  demand(riddlesage_port_free(&ports[0]));
  demand(riddlesage_port_free(&ports[1]));
}

static void step(riddlesage_port *port)
{
  size_t time;

  for (time = 0; time < BITS; time++) {
    demand(riddlesage_port_drive(port, &drives[time]));
    demand(riddlesage_port_sample(port, levels[time], &events[time], NULL));
  }
}

static void run(riddlesage_port *port)
{
  demand(riddlesage_port_run(port, levels, BITS, drives, events));
}

int main(int count, char **words)
{
  double best = 0;
  int round;

  if (count != 2)
    return 2;
  record();
  for (round = 0; round < ROUNDS; round++) {
    riddlesage_port port = RIDDLESAGE_PORT_INIT;
    clock_t begun;
    double seconds;
    demand(riddlesage_port_idle(&port, 0, 64));
    begun = clock();
    (strcmp(words[1], "run") == 0 ? run : step)(&port);
    seconds = (double)(clock() - begun) / CLOCKS_PER_SEC;
    if (BITS / seconds / 1e6 > best)
      best = BITS / seconds / 1e6;
    demand(riddlesage_port_free(&port));
  }
  printf("%.1f\n", best);
  return EXIT_SUCCESS;
}
