/*
 * Plays the calls of a bus with the C library, and prints the same lines as bench/calls.rs, where the format of the
 * scenario on standard input is described. With the argument `run` standard input is a scenario of `canbit run`, and
 * the library's report is printed.
 */
#include "frame_text.h"
#include "riddlesage.h"

#include <inttypes.h>
#include <stdio.h>
#include <stdlib.h>
#include <string.h>

enum { LINE_ROOM = 512, MOST_OFFERS = 1024, MOST_HITS = 4096, MOST_BITS = 65536 };

/* The ports, and the offers and hits of the next call. */
struct scenario {
  riddlesage_port ports[RIDDLESAGE_MOST_PORTS];
  riddlesage_offer offers[MOST_OFFERS];
  riddlesage_hit hits[MOST_HITS];
  size_t port_count, offer_count, hit_count;
};

static void require(bool holds, const char *what)
{
  if (!holds) {
    fprintf(stderr, "library: %s\n", what);
    exit(EXIT_FAILURE);
  }
}

static void demand(riddlesage_status status)
{
  require(status == RIDDLESAGE_OK, riddlesage_status_name(status));
}

static riddlesage_port *port_at(struct scenario *scenario, size_t place)
{
  require(place < scenario->port_count, "no such port");
  return &scenario->ports[place];
}

static void add_port(struct scenario *scenario, const char *line)
{
  char start[8];
  size_t queue, log;

  require(sscanf(line, "port %7s %zu %zu", start, &queue, &log) == 3, line);
  require(scenario->port_count < RIDDLESAGE_MOST_PORTS, "too many ports");
  demand((strcmp(start, "joining") == 0 ? riddlesage_port_joining : riddlesage_port_idle)(
      &scenario->ports[scenario->port_count++], queue, log));
}

static void give(struct scenario *scenario, const char *line)
{
  riddlesage_frame frame;
  riddlesage_status status;
  size_t place;
  int read;

  require(sscanf(line, "give %zu %n", &place, &read) == 1 && frame_from_text(line + read, &frame), line);
  status = riddlesage_port_offer(port_at(scenario, place), &frame);
  printf("given %s\n", riddlesage_status_name(status));
}

static void add_offer(struct scenario *scenario, const char *line)
{
  riddlesage_offer offer;
  int read;

  require(sscanf(line, "offer %" SCNu64 " %" SCNu64 " %n", &offer.time, &offer.port, &read) == 2 &&
              frame_from_text(line + read, &offer.frame),
          line);
  require(scenario->offer_count < MOST_OFFERS, "too many offers");
  scenario->offers[scenario->offer_count++] = offer;
}

/* Adds a hit. Fields that its kind does not use have invalid values. */
static void add_hit(struct scenario *scenario, const char *line)
{
  riddlesage_hit hit = { UINT64_MAX, UINT64_MAX, UINT64_MAX, SIZE_MAX, RIDDLESAGE_HIT_AT };

  if (sscanf(line, "in %" SCNu64 " %" SCNu64, &hit.attempt, &hit.offset) == 2)
    hit.kind = RIDDLESAGE_HIT_IN;
  else if (sscanf(line, "view %" SCNu64 " %" SCNu64, &hit.time, &hit.port) == 2)
    hit.kind = RIDDLESAGE_HIT_VIEW;
  else
    require(sscanf(line, "at %" SCNu64, &hit.time) == 1, line);
  require(scenario->hit_count < MOST_HITS, "too many hits");
  scenario->hits[scenario->hit_count++] = hit;
}

static void print_port(riddlesage_port *port, size_t place)
{
  static const char *const states[] = { "active", "passive", "off" };
  uint16_t transmit, receive;
  uint32_t missed;
  uint8_t state;
  size_t count, number;

  demand(riddlesage_port_counters(port, &transmit, &receive));
  demand(riddlesage_port_state(port, &state));
  demand(riddlesage_port_missed(port, &missed));
  printf("port %zu %s tec %u rec %u missed %" PRIu32 "\n", place, states[state], transmit, receive, missed);
  demand(riddlesage_port_log_length(port, &count));
  for (number = 0; number < count; number++) {
    riddlesage_frame frame;
    char text[FRAME_TEXT_ROOM];
    uint8_t sent;
    demand(riddlesage_port_entry(port, number, &frame, &sent));
    frame_to_text(&frame, text);
    printf("  %s %s\n", sent ? "sent" : "took", text);
  }
}

/* Prints the status of a call, and after an OK the number of refused frames, and the levels. */
static void print_call(riddlesage_status status, size_t refused, const uint8_t *levels, size_t bits)
{
  size_t time;

  printf("answer %s", riddlesage_status_name(status));
  if (status == RIDDLESAGE_OK) {
    printf(", %zu refused\nbits %zu\n", refused, bits);
    for (time = 0; time < bits; time++)
      putchar('0' + levels[time]);
  }
  putchar('\n');
}

static void play(struct scenario *scenario, const char *line)
{
  static uint8_t levels[MOST_BITS];
  riddlesage_port *bus[RIDDLESAGE_MOST_PORTS];
  size_t bits, place, refused = 0, count = 0;
  riddlesage_status status;
  int read;

  require(sscanf(line, "play %zu%n", &bits, &read) == 1 && bits <= MOST_BITS, line);
  for (line += read; sscanf(line, "%zu%n", &place, &read) == 1; line += read) {
    require(count < RIDDLESAGE_MOST_PORTS, "too many ports");
    bus[count++] = port_at(scenario, place);
  }
  status = riddlesage_play(bus, count, scenario->offers, scenario->offer_count, scenario->hits, scenario->hit_count,
                           levels, bits, &refused);
  scenario->offer_count = scenario->hit_count = 0;
  print_call(status, refused, levels, bits);
  for (place = 0; place < scenario->port_count; place++)
    print_port(&scenario->ports[place], place);
}

static void read_line(struct scenario *scenario, const char *line)
{
  size_t place;
  unsigned count;

  if (strncmp(line, "port ", 5) == 0)
    add_port(scenario, line);
  else if (strncmp(line, "give ", 5) == 0)
    give(scenario, line);
  else if (strncmp(line, "offer ", 6) == 0)
    add_offer(scenario, line);
  else if (strncmp(line, "play ", 5) == 0)
    play(scenario, line);
  else if (sscanf(line, "hold %zu %u", &place, &count) == 2)
    demand(riddlesage_port_hold(port_at(scenario, place), (uint8_t)count));
  else
    add_hit(scenario, line);
}

static void play_all(void)
{
  static struct scenario scenario;
  char line[LINE_ROOM];
  size_t place;

  while (fgets(line, sizeof line, stdin) != NULL) {
    line[strcspn(line, "\n")] = '\0';
    read_line(&scenario, line);
  }
  for (place = 0; place < scenario.port_count; place++)
    demand(riddlesage_port_free(&scenario.ports[place]));
}

static void report(void)
{
  enum { TEXT_ROOM = 1 << 20 };
  static char text[TEXT_ROOM], output[TEXT_ROOM];
  size_t length = fread(text, 1, sizeof text, stdin), count;

  demand(riddlesage_run(text, length, output, sizeof output, &count, NULL));
  fwrite(output, 1, count, stdout);
}

int main(int count, char **words)
{
  if (count > 1 && strcmp(words[1], "run") == 0)
    report();
  else
    play_all();
  return EXIT_SUCCESS;
}
