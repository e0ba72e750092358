/* The library as an adapter of the conformance kit: its line protocol over one port. (conformance/README.md) */
#include "../examples/frame_text.h"
#include "riddlesage.h"

#include <stdio.h>
#include <stdlib.h>
#include <string.h>

enum { LINE_ROOM = 8194, QUEUE_ROOM = 4096, LOG_ROOM = 0 };

static const char *const event_words[] = {
  [RIDDLESAGE_SENT] = "sent",
  [RIDDLESAGE_RECEIVED] = "received",
  [RIDDLESAGE_LOST] = "lost",
  [RIDDLESAGE_BIT_ERROR] = "bit error",
  [RIDDLESAGE_STUFF_ERROR] = "stuff error",
  [RIDDLESAGE_CRC_ERROR] = "crc error",
  [RIDDLESAGE_FORM_ERROR] = "form error",
  [RIDDLESAGE_ACK_ERROR] = "ack error",
  [RIDDLESAGE_OVERLOAD] = "overload",
  [RIDDLESAGE_WENT_OFF] = "went off",
  [RIDDLESAGE_RECOVERED] = "recovered",
};

static void demand(riddlesage_status status)
{
  if (status != RIDDLESAGE_OK)
    printf("error %s\n", riddlesage_status_name(status));
}

static void print_event(unsigned place, uint8_t event, const riddlesage_frame *frame)
{
  char text[FRAME_TEXT_ROOM];

  printf("event %u %s", place, event_words[event]);
  if (event == RIDDLESAGE_SENT || event == RIDDLESAGE_RECEIVED) {
    frame_to_text(frame, text);
    printf(" %s", text);
  }
  putchar('\n');
}

/* Levels of the tester, bit time by bit time: with `f` the port samples recessive, whatever it drives. */
static void play(riddlesage_port *port, const char *levels)
{
  static char drove[LINE_ROOM];
  unsigned place = 0;

  for (; levels[place] != '\0'; place++) {
    riddlesage_frame frame;
    uint8_t driven = RIDDLESAGE_RECESSIVE, event = RIDDLESAGE_NOTHING, seen;

    demand(riddlesage_port_drive(port, &driven));
    seen = levels[place] == '0' ? RIDDLESAGE_DOMINANT : levels[place] == 'f' ? RIDDLESAGE_RECESSIVE : driven;
    demand(riddlesage_port_sample(port, seen, &event, &frame));
    drove[place] = (char)('0' + driven);
    if (event != RIDDLESAGE_NOTHING)
      print_event(place, event, &frame);
  }
  drove[place] = '\0';
  printf("drove %s\n", drove);
}

static void begin_case(riddlesage_port *port, const char *line)
{
  const char *start = strrchr(line, ' ');
  bool joining = start != NULL && strcmp(start, " joining") == 0;

  demand((joining ? riddlesage_port_joining : riddlesage_port_idle)(port, QUEUE_ROOM, LOG_ROOM));
  puts("ready");
}

static void print_state(riddlesage_port *port)
{
  static const char *const states[] = { "active", "passive", "off" };
  uint16_t transmit = 0, receive = 0;
  uint8_t state = 0;

  demand(riddlesage_port_counters(port, &transmit, &receive));
  demand(riddlesage_port_state(port, &state));
  printf("state %s %u %u\n", states[state], transmit, receive);
}

static void answer(riddlesage_port *port, const char *line)
{
  riddlesage_frame frame;

  if (strncmp(line, "case ", 5) == 0)
    begin_case(port, line);
  else if (strncmp(line, "offer ", 6) == 0 && frame_from_text(line + 6, &frame))
    demand(riddlesage_port_offer(port, &frame));
  else if (strncmp(line, "hold ", 5) == 0)
    demand(riddlesage_port_hold(port, (uint8_t)atoi(line + 5)));
  else if (strncmp(line, "play ", 5) == 0)
    play(port, line + 5);
  else if (strcmp(line, "end") == 0)
    print_state(port);
  else
    puts("error this line is none of the protocol");
}

int main(void)
{
  static char line[LINE_ROOM];
  riddlesage_port port = RIDDLESAGE_PORT_INIT;
  bool asked = true;

  puts("can-kit 1 riddlesage by its C library");
  fflush(stdout);
  while (asked && fgets(line, sizeof line, stdin) != NULL) {
    line[strcspn(line, "\n")] = '\0';
    asked = strcmp(line, "quit") != 0;
    if (asked)
      answer(&port, line);
    fflush(stdout);
  }
  riddlesage_port_free(&port);
  return asked ? EXIT_FAILURE : EXIT_SUCCESS;
}
