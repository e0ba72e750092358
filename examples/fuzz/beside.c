#include "beside.h"

#include <stdio.h>
#include <stdlib.h>
#include <string.h>

#include "../../bindings/examples/frame_text.h"
#include "dut.h"

enum { MOST_LATE = 64, MOST_SHOWN = 50, TEXT_ROOM = 80 };

struct happened {
  unsigned time;
  uint8_t event;
  riddlesage_frame frame;
};

static riddlesage_port model = RIDDLESAGE_PORT_INIT;
static riddlesage_standing standing;
static uint8_t drives;
static unsigned now, recorded;
static unsigned offers, pending;        /* since the reset; at the model */
static struct happened last;            /* the model's last event before this bit time */
static struct happened due[MOST_LATE];  /* the model's events that the controller has to report, from the oldest on */
static unsigned due_count;
static char tester_levels[MOST_BITS], drove_levels[MOST_BITS], due_levels[MOST_BITS];

static void must(riddlesage_status status)
{
  if (status == RIDDLESAGE_OK)
    return;
  fprintf(stderr, "fuzz: the library refuses a call: %s\n", riddlesage_status_name(status));
  abort();
}

/* The model's state before the next bit time. */
static void look(void)
{
  must(riddlesage_port_phase(&model, &standing));
  must(riddlesage_port_drive(&model, &drives));
}

/* The event in the words of a verdict. */
static const char *event_text(const struct happened *what, char text[TEXT_ROOM])
{
  const char *name = riddlesage_event_name((riddlesage_event)what->event);
  char frame[FRAME_TEXT_ROOM] = "";

  if (what->event == RIDDLESAGE_SENT || what->event == RIDDLESAGE_RECEIVED)
    frame_to_text(&what->frame, frame);
  snprintf(text, TEXT_ROOM, "%s%s%s", name == NULL ? "unknown event" : name, *frame == '\0' ? "" : " ", frame);
  return text;
}

static void print_levels(const char *name, const char *levels)
{
  unsigned count = recorded < MOST_SHOWN ? recorded : MOST_SHOWN;
  fprintf(stderr, "  %s %.*s\n", name, (int)count, &levels[recorded - count]);
}

/* Whether this phase has a place worth printing. */
static bool has_place(uint8_t phase)
{
  return phase != RIDDLESAGE_PHASE_IDLE &&
         (phase < RIDDLESAGE_PHASE_CRC_DELIMITER || phase > RIDDLESAGE_PHASE_ACK_DELIMITER);
}

/* Prints a verdict as canhold judge does, then the last levels, and aborts. */
static void fail(const char *difference)
{
  char place[8] = "";

  if (has_place(standing.phase))
    snprintf(place, sizeof place, " %u", standing.place);
  fprintf(stderr, "fail fuzz at %u: %s; %s%s, %s; %s", now, difference,
          riddlesage_phase_name((riddlesage_phase)standing.phase), place, standing.sender != 0 ? "sender" : "receiver",
          riddlesage_rule_name((riddlesage_rule)standing.rule));
  if (last.event != RIDDLESAGE_NOTHING) {
    char text[TEXT_ROOM];
    fprintf(stderr, "; since %s at %u", event_text(&last, text), last.time);
  }
  fputc('\n', stderr);
  print_levels("tester", tester_levels);
  print_levels("drove ", drove_levels);
  print_levels("due   ", due_levels);
  abort();
}

static void fail_event(const struct happened *given, const struct happened *expected)
{
  char one[TEXT_ROOM], other[TEXT_ROOM], difference[2 * TEXT_ROOM + 40], since[40] = "";

  if (expected->event != RIDDLESAGE_NOTHING && expected->time < now)
    snprintf(since, sizeof since, ", due at %u", expected->time);
  snprintf(difference, sizeof difference, "reported %s not %s%s", event_text(given, one), event_text(expected, other),
           since);
  fail(difference);
}

static bool same(const struct happened *one, const struct happened *other)
{
  char text[TEXT_ROOM], expected[TEXT_ROOM];
  return one->event == other->event && strcmp(event_text(one, text), event_text(other, expected)) == 0;
}

/* Compares what the controller reports with the events that are due, in their order. */
static void compare_events(const struct happened *event)
{
  static const struct happened nothing;
  struct happened given = { now, RIDDLESAGE_NOTHING, { 0, 0, 0, 0, { 0 } } };

  if (event->event != RIDDLESAGE_NOTHING && (dut_traits.events >> event->event & 1) != 0)
    due[due_count++] = *event;
  while (dut_event(&given.event, &given.frame) && given.event != RIDDLESAGE_NOTHING) {
    if (due_count == 0 || !same(&given, &due[0]))
      fail_event(&given, due_count == 0 ? &nothing : &due[0]);
    memmove(due, due + 1, --due_count * sizeof due[0]);
  }
  if (due_count > 0 && now - due[0].time >= dut_traits.latency)
    fail_event(&nothing, &due[0]);
}

static void compare_counters(void)
{
  uint16_t transmit = 0, receive = 0, expected_transmit, expected_receive;
  char difference[TEXT_ROOM];

  if (!dut_traits.counters)
    return;
  dut_counters(&transmit, &receive);
  must(riddlesage_port_counters(&model, &expected_transmit, &expected_receive));
  if (transmit == expected_transmit && receive == expected_receive)
    return;
  snprintf(difference, sizeof difference, "counted %u %u not %u %u", transmit, receive, expected_transmit,
           expected_receive);
  fail(difference);
}

void both_reset(bool integrating)
{
  dut_reset(integrating);
  must((integrating ? riddlesage_port_joining : riddlesage_port_idle)(&model, MOST_OFFERS, 0));
  now = recorded = offers = pending = due_count = 0;
  last.event = RIDDLESAGE_NOTHING;
  look();
}

/* Passes the bit times until the controller has taken what it was given. */
static void wait_for_dut(void)
{
  unsigned bits;
  for (bits = 0; bits < dut_traits.offer_delay; bits++)
    both_bit('1');
}

/* The controller has no space for a frame. */
static void take_refusal(const riddlesage_frame *frame)
{
  char text[FRAME_TEXT_ROOM], difference[TEXT_ROOM];

  if (pending >= dut_traits.queue)
    return;
  frame_to_text(frame, text);
  snprintf(difference, sizeof difference, "refused %s, with %u pending", text, pending);
  fail(difference);
}

void both_offer(const riddlesage_frame *frame)
{
  if (offers == MOST_OFFERS)
    return;
  if (!dut_offer(frame)) {
    take_refusal(frame);
    return;
  }
  offers++;
  wait_for_dut();
  pending++;
  must(riddlesage_port_offer(&model, frame));
  look();
}

void both_hold(uint8_t overloads)
{
#ifndef NO_HOLD
  dut_hold(overloads);
  wait_for_dut();
  must(riddlesage_port_hold(&model, overloads));
#else
  (void)overloads;
#endif
}

void both_bit(char tester)
{
  struct happened event = { now, RIDDLESAGE_NOTHING, { 0, 0, 0, 0, { 0 } } };
  uint8_t driven, seen;

  if (both_ended())
    return;
  driven = dut_drive();
  tester_levels[now] = tester;
  drove_levels[now] = driven == RIDDLESAGE_DOMINANT ? '0' : '1';
  due_levels[now] = drives == RIDDLESAGE_DOMINANT ? '0' : '1';
  recorded = now + 1;
  if (driven != drives)
    fail(drives == RIDDLESAGE_DOMINANT ? "drove 1 not 0" : "drove 0 not 1");
  seen = tester == '0' ? RIDDLESAGE_DOMINANT : tester == 'f' ? RIDDLESAGE_RECESSIVE : driven;
  dut_sample(seen);
  must(riddlesage_port_sample(&model, seen, &event.event, &event.frame));
  pending -= event.event == RIDDLESAGE_SENT;
  compare_events(&event);
  compare_counters();
  if (event.event != RIDDLESAGE_NOTHING)
    last = event;
  now++;
  look();
}

bool both_ended(void)
{
  return now == MOST_BITS;
}

const riddlesage_standing *model_standing(void)
{
  return &standing;
}

uint8_t model_drives(void)
{
  return drives;
}
