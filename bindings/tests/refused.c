/*
 * Each allocation of the library is refused in turn: a call must return the status for that, and lose nothing; without
 * a refusal it must succeed. Link with -Wl,--wrap=malloc,--wrap=realloc.
 */
#include "riddlesage.h"

#include <stdio.h>
#include <stdlib.h>

/* How many allocations succeed before one is refused; and whether one was. */
static int given;
static bool refused;

void *__real_malloc(size_t size);
void *__real_realloc(void *at, size_t size);
void *__wrap_malloc(size_t size);
void *__wrap_realloc(void *at, size_t size);

static bool refuses(void)
{
  bool now = given-- == 0;
  refused = refused || now;
  return now;
}

void *__wrap_malloc(size_t size)
{
  return refuses() ? NULL : __real_malloc(size);
}

void *__wrap_realloc(void *at, size_t size)
{
  return refuses() ? NULL : __real_realloc(at, size);
}

/* Makes a port, another one in its place, uses and deletes it: whether exactly the refusals are reported. */
static bool play(void)
{
  static const riddlesage_frame frame = { 0x123, 0, 0, 2, { 0xaa, 0x55 } };
  riddlesage_port *port = riddlesage_port_new();
  riddlesage_status first, second;
  uint8_t level;
  bool well;

  if (port == NULL)
    return refused;
  first = riddlesage_port_idle(port, 4, 4);
  second = riddlesage_port_joining(port, 8, 8);
  well = first == RIDDLESAGE_OK || second == RIDDLESAGE_OK
             ? riddlesage_port_offer(port, &frame) == RIDDLESAGE_OK
             : riddlesage_port_drive(port, &level) == RIDDLESAGE_NO_PORT;
  well = well && (first == RIDDLESAGE_OK || first == RIDDLESAGE_NO_MEMORY);
  well = well && (second == RIDDLESAGE_OK || second == RIDDLESAGE_NO_MEMORY);
  well = well && (first != second) == refused;
  return riddlesage_port_delete(port) == RIDDLESAGE_OK && well;
}

/* Copies a port: whether exactly the refusals are reported, and without memory the port that was there stays. */
static bool play_copy(void)
{
  riddlesage_port one = RIDDLESAGE_PORT_INIT, other = RIDDLESAGE_PORT_INIT;
  bool before, well = true;
  riddlesage_status status;
  uint8_t level;

  if (riddlesage_port_idle(&one, 4, 4) == RIDDLESAGE_OK && riddlesage_port_idle(&other, 0, 0) == RIDDLESAGE_OK) {
    before = refused;
    status = riddlesage_port_copy(&other, &one);
    well = status == (refused != before ? RIDDLESAGE_NO_MEMORY : RIDDLESAGE_OK) &&
           riddlesage_port_drive(&other, &level) == RIDDLESAGE_OK;
  }
  return riddlesage_port_free(&one) == RIDDLESAGE_OK && riddlesage_port_free(&other) == RIDDLESAGE_OK && well;
}

/* Runs a bus: whether exactly the refusals are reported, and without memory its ports are unchanged. */
static bool play_bus(void)
{
  static const riddlesage_offer offers[] = { { 0, 0, { 0x123, 0, 0, 0, { 0 } } }, { 1, 1, { 0x124, 0, 0, 0, { 0 } } } };
  static const riddlesage_hit hit = { 0, 0, 0, 1, RIDDLESAGE_HIT_VIEW };
  riddlesage_port one = RIDDLESAGE_PORT_INIT, other = RIDDLESAGE_PORT_INIT;
  riddlesage_port *const ports[] = { &one, &other };
  bool before, well = true;
  riddlesage_status status;
  riddlesage_standing standing;
  uint8_t levels[8];

  if (riddlesage_port_idle(&one, 1, 1) == RIDDLESAGE_OK && riddlesage_port_idle(&other, 1, 1) == RIDDLESAGE_OK) {
    before = refused;
    status = riddlesage_play(ports, 2, offers, 2, &hit, 1, levels, sizeof levels, NULL);
    well = status == (refused != before ? RIDDLESAGE_NO_MEMORY : RIDDLESAGE_OK) &&
           riddlesage_port_phase(&one, &standing) == RIDDLESAGE_OK &&
           (standing.phase == RIDDLESAGE_PHASE_IDLE) == (status != RIDDLESAGE_OK);
  }
  return riddlesage_port_free(&one) == RIDDLESAGE_OK && riddlesage_port_free(&other) == RIDDLESAGE_OK && well;
}

/* Simulates a scenario, and decodes a trace from text and levels: whether exactly the refusals are reported. */
static bool play_texts(void)
{
  static const char scenario[] = "version = 1\nbits = 60\nport = [{ queue = [\"S 001 D 0\"], log = 1 }, { log = 1 }]\n";
  static const uint8_t levels[] = { 1, 1, 1, 0, 0, 0, 0, 0, 0 };
  static char text[4096];
  size_t count;
  bool before = refused, well;
  riddlesage_status status = riddlesage_run(scenario, sizeof scenario - 1, text, sizeof text, &count, NULL);

  well = status == (refused != before ? RIDDLESAGE_NO_MEMORY : RIDDLESAGE_OK);
  before = refused;
  status = riddlesage_decode_trace("111 000000", 10, text, sizeof text, &count, NULL);
  well = well && status == (refused != before ? RIDDLESAGE_NO_MEMORY : RIDDLESAGE_OK);
  before = refused;
  status = riddlesage_decode_levels(levels, sizeof levels, text, sizeof text, &count, NULL);
  return well && status == (refused != before ? RIDDLESAGE_NO_MEMORY : RIDDLESAGE_OK);
}

/* Port times, an analysis and a worst case; and a wrong text, whose field another call finds: the same. */
static bool play_networks(void)
{
  static const char scenario[] = "version = 1\nbits = 60\nport = [{ queue = [\"S 001 D 0\"], log = 1 }, { log = 1 }]\n";
  static const char network[] = "version = 1\n[[message]]\nframe = \"S 100 D\"\nperiod = 500\n";
  static char text[4096], field[RIDDLESAGE_FIELD_ROOM];
  riddlesage_port_time times[60];
  riddlesage_wrong wrong;
  size_t count;
  bool before = refused, well;
  riddlesage_status status = riddlesage_port_times(scenario, sizeof scenario - 1, 1, times, 60, &count, field);

  well = status == (refused != before ? RIDDLESAGE_NO_MEMORY : RIDDLESAGE_OK);
  before = refused;
  status = riddlesage_port_times("version = 1", 11, 1, times, 60, &count, field);
  well = well && status == (refused != before ? RIDDLESAGE_NO_MEMORY : RIDDLESAGE_BAD_SCENARIO);
  before = refused;
  status = riddlesage_plan(network, sizeof network - 1, 1, text, sizeof text, &count, NULL, &wrong);
  well = well && status == (refused != before ? RIDDLESAGE_NO_MEMORY : RIDDLESAGE_OK);
  before = refused;
  status = riddlesage_worst_case(network, sizeof network - 1, "S 100 D", 7, text, sizeof text, &count, &wrong);
  well = well && status == (refused != before ? RIDDLESAGE_NO_MEMORY : RIDDLESAGE_OK);
  before = refused;
  status = riddlesage_worst_case("version = 1", 11, "S 100 D", 7, text, sizeof text, &count, &wrong);
  return well && status == (refused != before ? RIDDLESAGE_NO_MEMORY : RIDDLESAGE_BAD_NETWORK);
}

int main(void)
{
  int number = 0;

  do {
    refused = false;
    given = number++;
    if (!play() || !play_copy() || !play_bus() || !play_texts() || !play_networks()) {
      printf("allocation %d is refused, and no call reports it\n", number);
      return EXIT_FAILURE;
    }
  } while (refused);
  printf("%d allocations refused\n", number - 1);
  return number > 20 ? EXIT_SUCCESS : EXIT_FAILURE;
}
