/*
 * Simulates a scenario with the C library, and prints the report that `canbit run` prints for it. The scenario comes on
 * standard input in plain lines, to which tests/scenarios.py converts a TOML document:
 *
 *   bits N                         how many bit times
 *   port START QUEUE LOG HOLD      the next port: idle or joining, its capacities, its requested overload frames
 *   offer TIME PORT FRAME          a frame, and the bit time before which it is queued; times rise
 *   at TIME, in ATTEMPT OFFSET, view TIME PORT    a bit error, in the order of docs/BUS.md
 *
 * With the argument `play` the library runs the bus with one call. Otherwise each port is called here, bit time by bit
 * time, with a riddlesage_wire.
 */
#include "../examples/frame_text.h"
#include "riddlesage.h"

#include <stdio.h>
#include <stdlib.h>
#include <string.h>

enum { LINE_ROOM = 128 };

struct scenario {
  unsigned long bits;
  riddlesage_port ports[RIDDLESAGE_MOST_PORTS];
  size_t port_count;
  riddlesage_offer *offers;
  size_t offer_count, made;
  riddlesage_hit *hits;
  size_t hit_count;
};

static void demand(riddlesage_status status)
{
  if (status != RIDDLESAGE_OK) {
    fprintf(stderr, "scenario: %s\n", riddlesage_status_name(status));
    exit(EXIT_FAILURE);
  }
}

/* Makes room for one more item. */
static void *grown(void *items, size_t count, size_t size)
{
  if ((count & (count + 1)) != 0)
    return items;
  items = realloc(items, (2 * count + 2) * size);
  if (items == NULL)
    exit(EXIT_FAILURE);
  return items;
}

static void read_port(struct scenario *scenario, const char *line)
{
  char start[8];
  unsigned queue, log, hold;
  riddlesage_port *port = &scenario->ports[scenario->port_count++];

  if (sscanf(line, "port %7s %u %u %u", start, &queue, &log, &hold) != 4)
    exit(EXIT_FAILURE);
  demand((strcmp(start, "joining") == 0 ? riddlesage_port_joining : riddlesage_port_idle)(port, queue, log));
  demand(riddlesage_port_hold(port, (uint8_t)hold));
}

static void read_offer(struct scenario *scenario, const char *line)
{
  riddlesage_offer offer;
  unsigned long time, port;
  int read;

  if (sscanf(line, "offer %lu %lu %n", &time, &port, &read) != 2 || port >= scenario->port_count ||
      !frame_from_text(line + read, &offer.frame))
    exit(EXIT_FAILURE);
  offer.time = time;
  offer.port = port;
  scenario->offers = grown(scenario->offers, scenario->offer_count, sizeof offer);
  scenario->offers[scenario->offer_count++] = offer;
}

static void read_hit(struct scenario *scenario, const char *line)
{
  riddlesage_hit hit = { 0, 0, 0, 0, 0 };
  unsigned long first, second;

  if (sscanf(line, "at %lu", &first) == 1) {
    hit.kind = RIDDLESAGE_HIT_AT;
    hit.time = first;
  } else if (sscanf(line, "in %lu %lu", &first, &second) == 2) {
    hit.kind = RIDDLESAGE_HIT_IN;
    hit.attempt = first;
    hit.offset = second;
  } else if (sscanf(line, "view %lu %lu", &first, &second) == 2) {
    hit.kind = RIDDLESAGE_HIT_VIEW;
    hit.time = first;
    hit.port = second;
  } else {
    exit(EXIT_FAILURE);
  }
  scenario->hits = grown(scenario->hits, scenario->hit_count, sizeof hit);
  scenario->hits[scenario->hit_count++] = hit;
}

static void read_line(struct scenario *scenario, const char *line)
{
  if (sscanf(line, "bits %lu", &scenario->bits) == 1)
    return;
  if (strncmp(line, "port ", 5) == 0)
    read_port(scenario, line);
  else if (strncmp(line, "offer ", 6) == 0)
    read_offer(scenario, line);
  else
    read_hit(scenario, line);
}

/* Makes the offers of this bit time. */
static void offer_all(struct scenario *scenario, unsigned long time)
{
  for (; scenario->made < scenario->offer_count && scenario->offers[scenario->made].time == time; scenario->made++) {
    const riddlesage_offer *offer = &scenario->offers[scenario->made];
    demand(riddlesage_port_offer(&scenario->ports[offer->port], &offer->frame));
  }
}

static void run(struct scenario *scenario)
{
  riddlesage_wire wire = RIDDLESAGE_WIRE_INIT;
  uint8_t levels[RIDDLESAGE_MOST_PORTS], seen[RIDDLESAGE_MOST_PORTS], level, event;
  size_t place;

  while (wire.time < scenario->bits) {
    offer_all(scenario, wire.time);
    for (place = 0; place < scenario->port_count; place++)
      demand(riddlesage_port_drive(&scenario->ports[place], &levels[place]));
    demand(riddlesage_wire_step(&wire, levels, scenario->port_count, scenario->hits, scenario->hit_count, &level, seen));
    for (place = 0; place < scenario->port_count; place++)
      demand(riddlesage_port_sample(&scenario->ports[place], seen[place], &event, NULL));
    putchar('0' + level);
  }
}

static void play(struct scenario *scenario)
{
  riddlesage_port *ports[RIDDLESAGE_MOST_PORTS];
  uint8_t *levels = malloc(scenario->bits + 1);
  size_t place;

  if (levels == NULL)
    exit(EXIT_FAILURE);
  for (place = 0; place < scenario->port_count; place++)
    ports[place] = &scenario->ports[place];
  demand(riddlesage_play(ports, scenario->port_count, scenario->offers, scenario->offer_count, scenario->hits,
                         scenario->hit_count, levels, scenario->bits, NULL));
  for (place = 0; place < scenario->bits; place++)
    putchar('0' + levels[place]);
  free(levels);
}

static void print_port(riddlesage_port *port, size_t place)
{
  static const char *const states[] = { "active", "passive", "off" };
  uint16_t transmit, receive;
  uint32_t missed;
  uint8_t state;
  size_t count, number;

  demand(riddlesage_port_counters(port, &transmit, &receive));
  demand(riddlesage_port_state(port, &state));
  demand(riddlesage_port_missed(port, &missed));
  printf("port %lu %s tec %u rec %u missed %lu\n", (unsigned long)place, states[state], transmit, receive,
         (unsigned long)missed);
  demand(riddlesage_port_log_length(port, &count));
  for (number = 0; number < count; number++) {
    riddlesage_frame frame;
    char text[FRAME_TEXT_ROOM];
    uint8_t sent;
    demand(riddlesage_port_entry(port, number, &frame, &sent));
    frame_to_text(&frame, text);
    printf("  %s %s\n", sent ? "sent" : "took", text);
  }
}

int main(int count, char **words)
{
  static struct scenario scenario;
  char line[LINE_ROOM];
  size_t place;

  while (fgets(line, sizeof line, stdin) != NULL) {
    line[strcspn(line, "\n")] = '\0';
    read_line(&scenario, line);
  }
  printf("bits %lu\n", scenario.bits);
  (count > 1 && strcmp(words[1], "play") == 0 ? play : run)(&scenario);
  putchar('\n');
  for (place = 0; place < scenario.port_count; place++) {
    print_port(&scenario.ports[place], place);
    demand(riddlesage_port_free(&scenario.ports[place]));
  }
  free(scenario.offers);
  free(scenario.hits);
  return EXIT_SUCCESS;
}
