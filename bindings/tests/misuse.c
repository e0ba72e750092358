/*
 * Misuse of every call except those of misuse_of_buses.c: NULL pointers; ports that were not made, were freed, freed
 * twice, copied, or not initialised with zeros; invalid frames, levels, counts and numbers; lists that are too short or
 * empty; too much memory. Each must be refused with its status, and change nothing. It runs with AddressSanitizer and
 * with valgrind.
 */
#include "misuse.h"

/* The outputs of calls that succeed. */
static riddlesage_frame frame, reported;
static riddlesage_heard heard;
static riddlesage_standing standing;
static uint8_t level, event, state, sent, levels[RIDDLESAGE_MOST_LEVELS], drives[RIDDLESAGE_MOST_LEVELS],
    events[RIDDLESAGE_MOST_LEVELS], fields[RIDDLESAGE_MOST_LEVELS], stuffed[RIDDLESAGE_MOST_LEVELS];
static uint16_t transmit, receive;
static uint32_t missed;
static size_t count, place;
static char text[4096], field[RIDDLESAGE_FIELD_ROOM];
#ifndef RIDDLESAGE_PORTS_ONLY
static size_t late;
static riddlesage_wrong wrong_field;
static riddlesage_port_time times[4];
#endif

/* Each call on a port, with valid other arguments. */
static void call_all(riddlesage_port *port, riddlesage_status wanted)
{
  static riddlesage_coverage coverage;

  want(wanted, riddlesage_port_offer(port, &frame), "offer", __LINE__);
  want(wanted, riddlesage_port_hold(port, 1), "hold", __LINE__);
  want(wanted, riddlesage_port_drive(port, &level), "drive", __LINE__);
  want(wanted, riddlesage_port_sample(port, 1, &event, &reported), "sample", __LINE__);
  want(wanted, riddlesage_port_sample(port, 1, &event, NULL), "sample", __LINE__);
  want(wanted, riddlesage_coverage_sample(port, &coverage, 1, &event, &reported), "coverage_sample", __LINE__);
  want(wanted, riddlesage_port_run(port, levels, 3, drives, events), "run", __LINE__);
  want(wanted, riddlesage_port_counters(port, &transmit, &receive), "counters", __LINE__);
  want(wanted, riddlesage_port_state(port, &state), "state", __LINE__);
  want(wanted, riddlesage_port_phase(port, &standing), "phase", __LINE__);
  want(wanted, riddlesage_port_log_length(port, &count), "log_length", __LINE__);
  want(wanted, riddlesage_port_missed(port, &missed), "missed", __LINE__);
  if (wanted != RIDDLESAGE_OK)
    want(wanted, riddlesage_port_entry(port, 0, &reported, &sent), "entry", __LINE__);
}

static void null_pointers(riddlesage_port *port)
{
  call_all(NULL, RIDDLESAGE_NULL_POINTER);
  WANT(NULL_POINTER, riddlesage_port_delete(NULL));
  WANT(NULL_POINTER, riddlesage_port_idle(NULL, 1, 1));
  WANT(NULL_POINTER, riddlesage_port_joining(NULL, 1, 1));
  WANT(NULL_POINTER, riddlesage_port_free(NULL));
  WANT(NULL_POINTER, riddlesage_port_offer(port, NULL));
  WANT(NULL_POINTER, riddlesage_port_drive(port, NULL));
  WANT(NULL_POINTER, riddlesage_port_sample(port, 1, NULL, &reported));
  WANT(NULL_POINTER, riddlesage_port_run(port, NULL, 3, drives, events));
  WANT(NULL_POINTER, riddlesage_port_run(port, levels, 3, NULL, events));
  WANT(NULL_POINTER, riddlesage_port_run(port, levels, 3, drives, NULL));
  WANT(NULL_POINTER, riddlesage_port_counters(port, NULL, &receive));
  WANT(NULL_POINTER, riddlesage_port_counters(port, &transmit, NULL));
  WANT(NULL_POINTER, riddlesage_port_state(port, NULL));
  WANT(NULL_POINTER, riddlesage_port_phase(port, NULL));
  WANT(NULL_POINTER, riddlesage_port_log_length(port, NULL));
  WANT(NULL_POINTER, riddlesage_port_missed(port, NULL));
  WANT(NULL_POINTER, riddlesage_port_entry(port, 0, NULL, &sent));
  WANT(NULL_POINTER, riddlesage_port_entry(port, 0, &reported, NULL));
  WANT(NULL_POINTER, riddlesage_encode(NULL, levels, sizeof levels, &count));
  WANT(NULL_POINTER, riddlesage_encode(&frame, NULL, sizeof levels, &count));
  WANT(NULL_POINTER, riddlesage_encode(&frame, NULL, 0, &count));
  WANT(NULL_POINTER, riddlesage_encode(&frame, levels, sizeof levels, NULL));
  WANT(NULL_POINTER, riddlesage_decode(NULL, 1, &heard, &place));
  WANT(NULL_POINTER, riddlesage_decode(NULL, 0, &heard, &place));
  WANT(NULL_POINTER, riddlesage_decode(levels, 1, NULL, &place));
  WANT(NULL_POINTER, riddlesage_decode(levels, 1, &heard, NULL));
#ifndef RIDDLESAGE_PORTS_ONLY
  WANT(NULL_POINTER, riddlesage_run(NULL, 0, text, sizeof text, &count, field));
  WANT(NULL_POINTER, riddlesage_run("", 0, NULL, sizeof text, &count, field));
  WANT(NULL_POINTER, riddlesage_run("", 0, text, sizeof text, NULL, field));
  WANT(NULL_POINTER, riddlesage_port_times(NULL, 0, 0, times, 4, &count, field));
  WANT(NULL_POINTER, riddlesage_port_times("", 0, 0, NULL, 4, &count, field));
  WANT(NULL_POINTER, riddlesage_port_times("", 0, 0, times, 4, NULL, field));
  WANT(NULL_POINTER, riddlesage_plan(NULL, 0, 2, text, sizeof text, &count, &late, &wrong_field));
  WANT(NULL_POINTER, riddlesage_plan("", 0, 2, NULL, sizeof text, &count, &late, &wrong_field));
  WANT(NULL_POINTER, riddlesage_plan("", 0, 2, text, sizeof text, NULL, &late, &wrong_field));
  WANT(NULL_POINTER, riddlesage_worst_case(NULL, 0, "", 0, text, sizeof text, &count, &wrong_field));
  WANT(NULL_POINTER, riddlesage_worst_case("", 0, NULL, 0, text, sizeof text, &count, &wrong_field));
  WANT(NULL_POINTER, riddlesage_worst_case("", 0, "", 0, NULL, sizeof text, &count, &wrong_field));
  WANT(NULL_POINTER, riddlesage_worst_case("", 0, "", 0, text, sizeof text, NULL, &wrong_field));
  WANT(NULL_POINTER, riddlesage_decode_trace(NULL, 0, text, sizeof text, &count, &place));
  WANT(NULL_POINTER, riddlesage_decode_trace("", 0, NULL, sizeof text, &count, &place));
  WANT(NULL_POINTER, riddlesage_decode_trace("", 0, text, sizeof text, NULL, &place));
  WANT(NULL_POINTER, riddlesage_decode_levels(NULL, 0, text, sizeof text, &count, &place));
  WANT(NULL_POINTER, riddlesage_decode_levels(levels, 0, NULL, sizeof text, &count, &place));
  WANT(NULL_POINTER, riddlesage_decode_levels(levels, 0, text, sizeof text, NULL, &place));
  WANT(NULL_POINTER, riddlesage_marks(NULL, 0, fields, stuffed, &count));
  WANT(NULL_POINTER, riddlesage_marks(levels, 0, NULL, stuffed, &count));
  WANT(NULL_POINTER, riddlesage_marks(levels, 0, fields, NULL, &count));
  WANT(NULL_POINTER, riddlesage_marks(levels, 0, fields, stuffed, NULL));
#endif
}

/* Frames with one field out of range. */
static void bad_frames(riddlesage_port *port)
{
  static const struct {
    riddlesage_frame frame;
    riddlesage_status status;
  } rows[] = {
    { { 0x800, 0, 0, 0, { 0 } }, RIDDLESAGE_BAD_IDENTIFIER },
    { { 0xffffffff, 0, 0, 0, { 0 } }, RIDDLESAGE_BAD_IDENTIFIER },
    { { 0x20000000, 1, 0, 0, { 0 } }, RIDDLESAGE_BAD_IDENTIFIER },
    { { 0xffffffff, 1, 1, 200, { 0 } }, RIDDLESAGE_BAD_IDENTIFIER },
    { { 0, 2, 0, 0, { 0 } }, RIDDLESAGE_BAD_FLAG },
    { { 0, 255, 0, 0, { 0 } }, RIDDLESAGE_BAD_FLAG },
    { { 0, 0, 2, 0, { 0 } }, RIDDLESAGE_BAD_FLAG },
    { { 0xffffffff, 0, 255, 255, { 0 } }, RIDDLESAGE_BAD_FLAG },
    { { 0, 0, 0, 16, { 0 } }, RIDDLESAGE_BAD_DLC },
    { { 0, 0, 0, 200, { 0 } }, RIDDLESAGE_BAD_DLC },
    { { 0, 0, 1, 16, { 0 } }, RIDDLESAGE_BAD_DLC },
    { { 0, 1, 1, 255, { 0 } }, RIDDLESAGE_BAD_DLC },
  };
  size_t row;

  for (row = 0; row < sizeof rows / sizeof rows[0]; row++) {
    want(rows[row].status, riddlesage_port_offer(port, &rows[row].frame), "a frame that is none", (int)row);
    count = 99;
    want(rows[row].status, riddlesage_encode(&rows[row].frame, levels, sizeof levels, &count), "encode", (int)row);
    want(count == 99 ? RIDDLESAGE_OK : RIDDLESAGE_NO_ROOM, RIDDLESAGE_OK, "count is written", (int)row);
  }
}

static void bad_numbers(riddlesage_port *port)
{
  uint8_t three[3] = { 1, 1, 2 }, before;
  unsigned code;

  for (code = 2; code < 256; code++) {
    event = 77;
    want(RIDDLESAGE_BAD_LEVEL, riddlesage_port_sample(port, (uint8_t)code, &event, &reported), "sample", (int)code);
    want(event == 77 ? RIDDLESAGE_OK : RIDDLESAGE_BAD_LEVEL, RIDDLESAGE_OK, "event is written", (int)code);
  }
  for (code = 3; code < 256; code++)
    want(RIDDLESAGE_BAD_COUNT, riddlesage_port_hold(port, (uint8_t)code), "hold", (int)code);
  WANT(OK, riddlesage_port_drive(port, &before));
  WANT(BAD_LEVEL, riddlesage_port_run(port, three, 3, drives, events));
  WANT(NO_LEVELS, riddlesage_port_run(port, three, 0, drives, events));
  WANT(BAD_LEVEL, riddlesage_decode(three, 3, &heard, &place));
  place = 99;
  WANT(SHORT, riddlesage_decode(three, 0, &heard, &place));
  want(place == 0 ? RIDDLESAGE_OK : RIDDLESAGE_SHORT, RIDDLESAGE_OK, "the place of nothing", __LINE__);
  WANT(NO_ENTRY, riddlesage_port_entry(port, 0, &reported, &sent));
  WANT(NO_ENTRY, riddlesage_port_entry(port, SIZE_MAX, &reported, &sent));
  WANT(NO_ROOM, riddlesage_encode(&frame, levels, 0, &count));
  WANT(NO_ROOM, riddlesage_encode(&frame, levels, 49, &count));
  WANT(OK, riddlesage_encode(&frame, levels, 50, &count));
}

/* A line of coverage is never too long for its buffer, whatever the count. */
static void coverages(riddlesage_port *port)
{
  riddlesage_coverage coverage = RIDDLESAGE_COVERAGE_INIT, nothing = RIDDLESAGE_COVERAGE_INIT;
  char line[RIDDLESAGE_COVERAGE_LINE];
  size_t item;

  WANT(NULL_POINTER, riddlesage_coverage_sample(NULL, &coverage, 1, &event, &reported));
  WANT(NULL_POINTER, riddlesage_coverage_sample(port, NULL, 1, &event, &reported));
  WANT(NULL_POINTER, riddlesage_coverage_sample(port, &coverage, 1, NULL, &reported));
  WANT(BAD_LEVEL, riddlesage_coverage_sample(port, &coverage, 2, &event, &reported));
  WANT_SAME(nothing, coverage);
  WANT(OK, riddlesage_coverage_sample(port, &coverage, 1, &event, NULL));
  WANT(NULL_POINTER, riddlesage_coverage_line(NULL, 0, line));
  WANT(NULL_POINTER, riddlesage_coverage_line(&coverage, 0, NULL));
  WANT(NO_ENTRY, riddlesage_coverage_line(&coverage, RIDDLESAGE_COVERAGE_ITEMS, line));
  for (item = 0; item < RIDDLESAGE_COVERAGE_ITEMS; item++) {
    WANT(OK, riddlesage_coverage_line(&nothing, item, line));
    want(strstr(line, " reaches it") != NULL ? RIDDLESAGE_OK : RIDDLESAGE_NO_ROOM, RIDDLESAGE_OK, line, (int)item);
    coverage.counts[item] = UINT64_MAX;
    WANT(OK, riddlesage_coverage_line(&coverage, item, line));
    want(strstr(line, "ive") != NULL || strstr(line, "Bus off") != NULL ? RIDDLESAGE_OK : RIDDLESAGE_NO_ROOM,
         RIDDLESAGE_OK, line, (int)item);
  }
  if (riddlesage_coverage_name(item) != NULL || riddlesage_coverage_case(item) != NULL)
    wrong++;
}

/* A block of exactly `size` bytes: a tool would find a read or write after it. */
static uint8_t *block(size_t size)
{
  uint8_t *at = malloc(size);

  if (at == NULL)
    exit(2);
  memset(at, 1, size);
  return at;
}

/* Lists are not read or written after their ends. */
static void exact_lists(riddlesage_port *port)
{
  size_t size;

  for (size = 1; size <= RIDDLESAGE_MOST_LEVELS + 3; size++) {
    uint8_t *in = block(size), *out = block(size), *events_here = block(size);
    riddlesage_frame longest = { 0x1fffffff, 1, 0, 15, { 0, 0, 0, 0, 0, 0, 0, 0 } };
    riddlesage_status status = riddlesage_encode(&longest, out, size, &count);
    want(status == RIDDLESAGE_OK && count <= size ? RIDDLESAGE_OK : RIDDLESAGE_NO_ROOM, status, "encode", (int)size);
    WANT(OK, riddlesage_port_run(port, in, size, out, events_here));
    WANT(NO_START, riddlesage_decode(in, size, &heard, &place));
    memset(in, 0, size);
    want(size < 6 ? RIDDLESAGE_SHORT : RIDDLESAGE_STUFF, riddlesage_decode(in, size, &heard, &place), "decode",
         (int)size);
    free(in);
    free(out);
    free(events_here);
  }
}

/* No frame has more levels, so none after them is read. */
static void behind_the_longest(void)
{
  static const char frame_001[] = "00000100000101000001000100010000100111011111111";
  uint8_t in[RIDDLESAGE_MOST_LEVELS + 43];

  memset(in, 7, sizeof in);
  memset(in, 0, RIDDLESAGE_MOST_LEVELS);
  WANT(STUFF, riddlesage_decode(in, sizeof in, &heard, &place));
  want(place == 5 ? RIDDLESAGE_OK : RIDDLESAGE_STUFF, RIDDLESAGE_OK, "the place of the sixth level", __LINE__);
  for (count = 0; count < sizeof frame_001 - 1; count++)
    in[count] = (uint8_t)(frame_001[count] - '0');
  WANT(OK, riddlesage_decode(in, sizeof in, &heard, &place));
  want(place == count ? RIDDLESAGE_OK : RIDDLESAGE_SHORT, RIDDLESAGE_OK, "the length of a frame", __LINE__);
  in[RIDDLESAGE_MOST_LEVELS - 1] = 7;
  WANT(BAD_LEVEL, riddlesage_decode(in, sizeof in, &heard, &place));
}

static void never_made(riddlesage_port *port)
{
  riddlesage_port zeros, garbage;

  memset(&zeros, 0, sizeof zeros);
  memset(&garbage, 0xa5, sizeof garbage);
  call_all(port, RIDDLESAGE_NO_PORT);
  call_all(&zeros, RIDDLESAGE_NO_PORT);
  WANT(OK, riddlesage_port_free(port));
  call_all(&garbage, RIDDLESAGE_MOVED);
  WANT(MOVED, riddlesage_port_idle(&garbage, 1, 1));
  WANT(MOVED, riddlesage_port_free(&garbage));
}

static void copied_as_a_struct(riddlesage_port *port)
{
  riddlesage_port copy;

  WANT(OK, riddlesage_port_idle(port, 1, 1));
  count = 9;
  WANT(OK, riddlesage_port_log_length(port, &count));
  want(count == 0 ? RIDDLESAGE_OK : RIDDLESAGE_NO_ENTRY, RIDDLESAGE_OK, "the log of a new port", __LINE__);
  copy = *port;
  call_all(&copy, RIDDLESAGE_MOVED);
  WANT(MOVED, riddlesage_port_joining(&copy, 1, 1));
  WANT(MOVED, riddlesage_port_free(&copy));
  WANT(OK, riddlesage_port_free(port));
  WANT(OK, riddlesage_port_free(port));
  call_all(port, RIDDLESAGE_NO_PORT);
  call_all(&copy, RIDDLESAGE_MOVED);
}

/* A port in place of one that was freed, and in place of a live one. */
static void made_again(riddlesage_port *freed)
{
  WANT(OK, riddlesage_port_joining(freed, 2, 2));
  WANT(OK, riddlesage_port_idle(freed, 1, 1));
  call_all(freed, RIDDLESAGE_OK);
  WANT(QUEUE_FULL, riddlesage_port_offer(freed, &frame));
  WANT(NO_MEMORY, riddlesage_port_idle(freed, SIZE_MAX, 0));
  WANT(NO_MEMORY, riddlesage_port_joining(freed, 0, SIZE_MAX));
  WANT(NO_MEMORY, riddlesage_port_idle(freed, SIZE_MAX / 16, SIZE_MAX / 16));
  WANT(QUEUE_FULL, riddlesage_port_offer(freed, &frame));
  WANT(OK, riddlesage_port_free(freed));
}

/* A copy in place of nothing, in place of itself, and from ports that are not there. */
static void copied(riddlesage_port *port)
{
  riddlesage_port zeros, copy;

  memset(&zeros, 0, sizeof zeros);
  WANT(OK, riddlesage_port_idle(port, 1, 1));
  WANT(OK, riddlesage_port_copy(&zeros, port));
  WANT(OK, riddlesage_port_offer(&zeros, &frame));
  WANT(QUEUE_FULL, riddlesage_port_offer(&zeros, &frame));
  WANT(OK, riddlesage_port_copy(&zeros, &zeros));
  WANT(QUEUE_FULL, riddlesage_port_offer(&zeros, &frame));
  WANT(OK, riddlesage_port_copy(port, &zeros));
  WANT(QUEUE_FULL, riddlesage_port_offer(port, &frame));
  copy = *port;
  WANT(MOVED, riddlesage_port_copy(&copy, port));
  WANT(MOVED, riddlesage_port_copy(port, &copy));
  WANT(OK, riddlesage_port_free(&zeros));
  WANT(NO_PORT, riddlesage_port_copy(port, &zeros));
  WANT(NO_PORT, riddlesage_port_copy(&zeros, &zeros));
  WANT(NULL_POINTER, riddlesage_port_copy(NULL, port));
  WANT(NULL_POINTER, riddlesage_port_copy(port, NULL));
  WANT(QUEUE_FULL, riddlesage_port_offer(port, &frame));
  WANT(OK, riddlesage_port_free(port));
}

static void without_room(riddlesage_port *port)
{
  WANT(OK, riddlesage_port_idle(port, 0, 0));
  WANT(QUEUE_FULL, riddlesage_port_offer(port, &frame));
  WANT(NO_ENTRY, riddlesage_port_entry(port, 0, &reported, &sent));
  WANT(OK, riddlesage_port_free(port));
}

static void handles(void)
{
  riddlesage_port port = RIDDLESAGE_PORT_INIT;

  never_made(&port);
  copied_as_a_struct(&port);
  made_again(&port);
  copied(&port);
  without_room(&port);
}

/* Ports that the library allocates, made or not, and copies of them. */
static void kept(void)
{
  riddlesage_port *port = riddlesage_port_new(), *unmade = riddlesage_port_new(), copy;

  if (port == NULL || unmade == NULL)
    exit(2);
  call_all(unmade, RIDDLESAGE_NO_PORT);
  WANT(OK, riddlesage_port_delete(unmade));
  WANT(OK, riddlesage_port_joining(port, 1, 1));
  copy = *port;
  WANT(MOVED, riddlesage_port_delete(&copy));
  call_all(port, RIDDLESAGE_OK);
  WANT(OK, riddlesage_port_free(port));
  call_all(port, RIDDLESAGE_NO_PORT);
  WANT(OK, riddlesage_port_idle(port, 1, 1));
  WANT(OK, riddlesage_port_delete(port));
}

#ifndef RIDDLESAGE_PORTS_ONLY
static void want_text(const char *wanted, const char *given, int line)
{
  tried++;
  if (strcmp(wanted, given) == 0)
    return;
  wrong++;
  printf("line %d: %s and not %s\n", line, given, wanted);
}

/* Whether two bit times are the same; the bytes between their fields are not compared. */
static bool same_time(const riddlesage_port_time *one, const riddlesage_port_time *other)
{
  return one->transmit == other->transmit && one->receive == other->receive && one->phase == other->phase &&
         one->sender == other->sender && one->drives == other->drives && one->samples == other->samples &&
         one->event == other->event;
}

#define WANT_FIELD(name, scenario)                                                                        \
  do {                                                                                                    \
    WANT(BAD_SCENARIO, riddlesage_run(scenario, strlen(scenario), text, sizeof text, &count, field));     \
    want_text(name, field, __LINE__);                                                                     \
  } while (0)

/* Invalid scenarios, by the wrong field, in the order of docs/FORMATS.md. */
static void bad_scenarios(void)
{
  WANT_FIELD("toml", "version = ");
  WANT_FIELD("toml", "\xff");
  WANT_FIELD("version", "");
  WANT_FIELD("version", "version = 3");
  WANT_FIELD("key", "version = 1\nbits = 1\ncolour = 1\n[[port]]\nlog = 1\n[[port]]\nlog = 1");
  WANT_FIELD("bits", "version = 1\n[[port]]\nlog = 1");
  WANT_FIELD("port", "version = 1\nbits = 1");
  WANT_FIELD("port[0].log", "version = 1\nbits = 1\nport = [{ log = -1 }]");
  WANT_FIELD("port[0].key", "version = 1\nbits = 1\nport = [{ colour = 1 }]");
  WANT_FIELD("port[1]", "version = 1\nbits = 1\nport = [{}, 1]");
  WANT_FIELD("port[0].queue", "version = 1\nbits = 1\nport = [{ queue = 1 }]");
  WANT_FIELD("port[0].queue[1]", "version = 1\nbits = 1\nport = [{ queue = [\"S 001 D 0\", \"S 800 D 0\"] }]");
  WANT_FIELD("port[0].join", "version = 1\nbits = 1\nport = [{ join = 1 }]");
  WANT_FIELD("port[0].hold", "version = 1\nbits = 1\nport = [{ hold = 3 }]");
}

/* Bit times of a port: with an array that is large enough, just large enough, and too small; and what is refused. */
static void port_times(void)
{
  static const char scenario[] = "version = 1\nbits = 3\nport = [{ queue = [\"S 001 D 0\"] }, { join = true }]\n";
  static const riddlesage_port_time start = { 0, 0, RIDDLESAGE_PHASE_IDLE, 0, 0, 0, 0 };
  static const riddlesage_port_time joining = { 0, 0, RIDDLESAGE_PHASE_JOINING, 0, 1, 0, 0 };
  const size_t length = sizeof scenario - 1;
  riddlesage_port_time before;

  WANT(OK, riddlesage_port_times(scenario, length, 0, times, 4, &count, NULL));
  want(count == 3 ? RIDDLESAGE_OK : RIDDLESAGE_SHORT, RIDDLESAGE_OK, "three bit times", __LINE__);
  want(same_time(&start, &times[0]) ? RIDDLESAGE_OK : RIDDLESAGE_FORM, RIDDLESAGE_OK, "a start", __LINE__);
  want(times[1].sender == 1 && times[1].phase == RIDDLESAGE_PHASE_STUFFED_PART ? RIDDLESAGE_OK : RIDDLESAGE_FORM,
       RIDDLESAGE_OK, "a transmitter", __LINE__);
  WANT(OK, riddlesage_port_times(scenario, length, 1, times, 3, &count, field));
  want(same_time(&joining, &times[0]) ? RIDDLESAGE_OK : RIDDLESAGE_FORM, RIDDLESAGE_OK, "integration", __LINE__);
  memset(times, 0x55, sizeof times);
  before = times[0];
  count = 99;
  WANT(NO_ROOM, riddlesage_port_times(scenario, length, 1, times, 2, &count, field));
  WANT(NO_SUCH_PORT, riddlesage_port_times(scenario, length, 2, times, 4, &count, field));
  WANT(NO_SUCH_PORT, riddlesage_port_times(scenario, length, SIZE_MAX, times, 4, &count, field));
  WANT(BAD_SCENARIO, riddlesage_port_times("version = 1\nport = [{}]", 23, 0, times, 4, &count, NULL));
  WANT(BAD_SCENARIO, riddlesage_port_times("version = 1\nport = [{}]", 23, 9, times, 4, &count, field));
  want_text("bits", field, __LINE__);
  WANT_SAME(before, times[0]);
  want(count == 99 ? RIDDLESAGE_OK : RIDDLESAGE_NO_ROOM, RIDDLESAGE_OK, "count is written", __LINE__);
}

#define WANT_WRONG(name, network)                                                                                 \
  do {                                                                                                            \
    WANT(BAD_NETWORK, riddlesage_plan(network, strlen(network), 0, text, sizeof text, &count, &late, &wrong_field)); \
    want_text(name, wrong_field.field, __LINE__);                                                                 \
    memset(&wrong_field, 'x', sizeof wrong_field);                                                                \
    WANT(BAD_NETWORK, riddlesage_worst_case(network, strlen(network), "S 100 D", 7, text, 0, &count, &wrong_field)); \
    want_text(name, wrong_field.field, __LINE__);                                                                 \
  } while (0)

/* A message of a network, with further fields. */
#define MESSAGE(more) "[[message]]\nframe = \"S 100 D\"\nperiod = 500\n" more "\n"

/* Invalid networks, by the wrong field, in the order of docs/PLANNING.md. */
static void bad_networks(void)
{
  WANT_WRONG("toml", "version = ");
  want_text("must be a TOML document in UTF-8", wrong_field.words, __LINE__);
  WANT_WRONG("toml", "\xff");
  WANT_WRONG("key", "version = 1\ncolour = 1\n" MESSAGE(""));
  WANT_WRONG("version", "");
  WANT_WRONG("version", "version = 2\n" MESSAGE(""));
  WANT_WRONG("rate", "version = 1\nrate = 1000001\n" MESSAGE(""));
  WANT_WRONG("errors", "version = 1\nerrors = 1\n" MESSAGE(""));
  WANT_WRONG("errors.key", "version = 1\n[errors]\ncolour = 1\n" MESSAGE(""));
  WANT_WRONG("errors.burst", "version = 1\n[errors]\nburst = 65536\n" MESSAGE(""));
  WANT_WRONG("errors.spacing", "version = 1\n[errors]\nspacing = -1\n" MESSAGE(""));
  WANT_WRONG("message", "version = 1");
  WANT_WRONG("message[1]", "version = 1\nmessage = [{ frame = \"S 100 D\", period = 500 }, 1]");
  WANT_WRONG("message[0].key", "version = 1\n" MESSAGE("colour = 1"));
  WANT_WRONG("message[0].frame", "version = 1\n[[message]]\nframe = \"S 800 D\"\nperiod = 500");
  WANT_WRONG("message[0].dlc", "version = 1\n" MESSAGE("dlc = 16"));
  want_text("must be 0 to 15", wrong_field.words, __LINE__);
  WANT_WRONG("message[0].period", "version = 1\n[[message]]\nframe = \"S 100 D\"\nperiod = 0");
  WANT_WRONG("message[0].jitter", "version = 1\n" MESSAGE("jitter = -1"));
  WANT_WRONG("message[0].deadline", "version = 1\n" MESSAGE("deadline = 1.5"));
  WANT_WRONG("message[0].name", "version = 1\n" MESSAGE("name = \"\""));
  want_text("must be 1 to 64 printable ASCII characters, except double quotation marks and backslashes",
            wrong_field.words, __LINE__);
  WANT_WRONG("message[1]", "version = 1\n" MESSAGE("") MESSAGE(""));
  want_text("must differ in identifier or kind from every earlier message", wrong_field.words, __LINE__);
  WANT_WRONG("message[1].name",
             "version = 1\n" MESSAGE("name = \"a\"") "[[message]]\nframe = \"S 101 D\"\nperiod = 9\nname = \"a\"");
  want_text("must differ from the name of every earlier message", wrong_field.words, __LINE__);
}

/* A network, with a buffer that is large enough, just large enough, and too small; and what is refused. */
static void networks(void)
{
  static const char network[] = "version = 1\n" MESSAGE("dlc = 0");
  static const char overload[] = "version = 1\n" MESSAGE("") "[[message]]\nframe = \"S 101 D\"\nperiod = 9";
  static const char report[] = "network messages 1 load 0.102 rate 0\n"
                               "S 100 D 0 longest 51 blocking 0 bound 48 deadline 500 slack 452 ok\n"
                               "load 0.102 late 0 of 1\n";
  const size_t length = sizeof network - 1, needed = sizeof report - 1;
  unsigned flag;

  WANT(OK, riddlesage_plan(network, length, 0, text, needed, &count, &late, NULL));
  want(count == needed && late == 0 ? RIDDLESAGE_OK : RIDDLESAGE_SHORT, RIDDLESAGE_OK, "the length", __LINE__);
  text[count] = '\0';
  want_text(report, text, __LINE__);
  memset(text, 'x', sizeof text);
  late = 99;
  WANT(NO_ROOM, riddlesage_plan(network, length, 0, text, needed - 1, &count, &late, &wrong_field));
  want(count == needed && text[0] == 'x' && late == 99 ? RIDDLESAGE_OK : RIDDLESAGE_NO_ROOM, RIDDLESAGE_OK, "no room",
       __LINE__);
  for (flag = 2; flag <= UINT8_MAX; flag++)
    WANT(BAD_FLAG, riddlesage_plan(network, length, (uint8_t)flag, text, sizeof text, &count, &late, &wrong_field));
  WANT(OK, riddlesage_plan(network, length, 1, text, sizeof text, &count, NULL, &wrong_field));
  want(count > needed ? RIDDLESAGE_OK : RIDDLESAGE_SHORT, RIDDLESAGE_OK, "details", __LINE__);
  WANT(OK, riddlesage_plan(overload, sizeof overload - 1, 0, text, sizeof text, &count, &late, &wrong_field));
  want(late == 1 ? RIDDLESAGE_OK : RIDDLESAGE_SHORT, RIDDLESAGE_OK, "a late message", __LINE__);
  WANT(BAD_NETWORK, riddlesage_plan("", 0, 0, text, sizeof text, &count, NULL, NULL));
  WANT(OK, riddlesage_worst_case(network, length, "S 100 D", 7, text, sizeof text, &count, NULL));
  want(count > 0 && memcmp(text, "version = 2\n", 12) == 0 ? RIDDLESAGE_OK : RIDDLESAGE_SHORT, RIDDLESAGE_OK,
       "a scenario", __LINE__);
  WANT(OK, riddlesage_worst_case(network, length, "S 100 D", 7, text, count, &count, &wrong_field));
  WANT(NO_ROOM, riddlesage_worst_case(network, length, "S 100 D", 7, text, count - 1, &count, &wrong_field));
  WANT(NO_MESSAGE, riddlesage_worst_case(network, length, "S 100 D", 6, text, sizeof text, &count, &wrong_field));
  WANT(NO_MESSAGE, riddlesage_worst_case(network, length, "S 100 R", 7, text, sizeof text, &count, &wrong_field));
  WANT(NO_MESSAGE, riddlesage_worst_case(network, length, "", 0, text, sizeof text, &count, &wrong_field));
  WANT(TOO_LONG, riddlesage_worst_case(overload, sizeof overload - 1, "S 101 D", 7, text, sizeof text, &count, NULL));
  WANT(BAD_NETWORK, riddlesage_worst_case("", 0, "S 100 D", 7, text, sizeof text, &count, NULL));
}

/* A valid scenario and a valid trace, with a buffer that is large enough, just large enough, and too small. */
static void texts(void)
{
  static const char scenario[] = "version = 1\nbits = 3\nport = [{}]\n", trace[] = "111 000000\n", bad[] = "0000001x0";
  static const char report[] = "bits 3\n111\nport 0 active tec 0 rec 0 missed 0\n", lines[] = "3 fault C3 at 8\n";
  const size_t needed = sizeof report - 1;

  WANT(OK, riddlesage_run(scenario, sizeof scenario - 1, text, needed, &count, NULL));
  want(count == needed ? RIDDLESAGE_OK : RIDDLESAGE_NO_ROOM, RIDDLESAGE_OK, "the length of a report", __LINE__);
  text[count] = '\0';
  want_text(report, text, __LINE__);
  memset(text, 'x', sizeof text);
  count = 0;
  WANT(NO_ROOM, riddlesage_run(scenario, sizeof scenario - 1, text, needed - 1, &count, field));
  want(count == needed && text[0] == 'x' ? RIDDLESAGE_OK : RIDDLESAGE_NO_ROOM, RIDDLESAGE_OK, "no room", __LINE__);
  WANT(OK, riddlesage_decode_trace(trace, sizeof trace - 1, text, sizeof lines - 1, &count, NULL));
  text[count] = '\0';
  want_text(lines, text, __LINE__);
  WANT(NO_ROOM, riddlesage_decode_trace(trace, sizeof trace - 1, text, sizeof lines - 2, &count, &place));
  WANT(OK, riddlesage_decode_trace("", 0, text, 0, &count, &place));
  WANT(BAD_BYTE, riddlesage_decode_trace(bad, sizeof bad - 1, text, sizeof text, &count, &place));
  want(place == 7 ? RIDDLESAGE_OK : RIDDLESAGE_BAD_BYTE, RIDDLESAGE_OK, "the place of a byte", __LINE__);
  text[count] = '\0';
  want_text("0 fault C3 at 5\n", text, __LINE__);
  WANT(BAD_BYTE, riddlesage_decode_trace("2", 1, text, 0, &count, NULL));
  place = 99;
  WANT(NO_ROOM, riddlesage_decode_trace(bad, sizeof bad - 1, text, 1, &count, &place));
  want(place == 99 ? RIDDLESAGE_OK : RIDDLESAGE_BAD_BYTE, RIDDLESAGE_OK, "a byte behind lines without room", __LINE__);
}

/* The same trace as levels; and each byte that is not a level, also those that a text may have. */
static void traces_of_levels(void)
{
  static const uint8_t trace[] = { 1, 1, 1, 0, 0, 0, 0, 0, 0 };
  static const char lines[] = "3 fault C3 at 8\n";
  uint8_t bad[] = { 0, 0, 0, 0, 0, 0, 1, 1, 0 };
  unsigned byte;

  WANT(OK, riddlesage_decode_levels(trace, sizeof trace, text, sizeof lines - 1, &count, NULL));
  text[count] = '\0';
  want_text(lines, text, __LINE__);
  WANT(NO_ROOM, riddlesage_decode_levels(trace, sizeof trace, text, sizeof lines - 2, &count, &place));
  WANT(OK, riddlesage_decode_levels(trace, 0, text, 0, &count, &place));
  for (byte = 2; byte <= UINT8_MAX; byte++) {
    bad[7] = (uint8_t)byte;
    place = 99;
    WANT(BAD_BYTE, riddlesage_decode_levels(bad, sizeof bad, text, sizeof text, &count, &place));
    want(place == 7 ? RIDDLESAGE_OK : RIDDLESAGE_BAD_BYTE, RIDDLESAGE_OK, "the place of a byte", __LINE__);
    text[count] = '\0';
    want_text("0 fault C3 at 5\n", text, __LINE__);
  }
}
#endif

/* Levels that have no field, and each byte that is no level among those that are read. */
static void fields_of_levels(void)
{
  static const uint8_t frame_begin[] = { 0, 1, 0, 0, 0, 0, 0, 1 }, recessive[] = { 1, 1, 1, 1, 1 };
  uint8_t many[RIDDLESAGE_MOST_LEVELS + 1];
  unsigned byte;

  WANT(OK, riddlesage_marks(levels, 0, fields, stuffed, &count));
  want(count == 0 ? RIDDLESAGE_OK : RIDDLESAGE_SHORT, RIDDLESAGE_OK, "no level", __LINE__);
  WANT(OK, riddlesage_marks(recessive, sizeof recessive, fields, stuffed, &count));
  want(count == 0 ? RIDDLESAGE_OK : RIDDLESAGE_SHORT, RIDDLESAGE_OK, "recessive levels", __LINE__);
  WANT(OK, riddlesage_marks(frame_begin, sizeof frame_begin, fields, stuffed, &count));
  want(count == 8 ? RIDDLESAGE_OK : RIDDLESAGE_SHORT, RIDDLESAGE_OK, "a stuff bit", __LINE__);
  want(fields[0] == RIDDLESAGE_FIELD_START_OF_FRAME ? RIDDLESAGE_OK : RIDDLESAGE_FORM, RIDDLESAGE_OK, "SOF", __LINE__);
  want(fields[7] == RIDDLESAGE_FIELD_IDENTIFIER && !stuffed[6] && stuffed[7] ? RIDDLESAGE_OK : RIDDLESAGE_STUFF,
       RIDDLESAGE_OK, "a stuff bit", __LINE__);
  memset(many, 1, sizeof many);
  for (byte = 2; byte <= UINT8_MAX; byte++) {
    count = 99;
    many[RIDDLESAGE_MOST_LEVELS - 1] = (uint8_t)byte;
    WANT(BAD_LEVEL, riddlesage_marks(many, sizeof many, fields, stuffed, &count));
    want(count == 99 ? RIDDLESAGE_OK : RIDDLESAGE_BAD_LEVEL, RIDDLESAGE_OK, "nothing is written", __LINE__);
    many[RIDDLESAGE_MOST_LEVELS - 1] = 1;
    many[RIDDLESAGE_MOST_LEVELS] = (uint8_t)byte;
    WANT(OK, riddlesage_marks(many, sizeof many, fields, stuffed, &count));
  }
}

int main(void)
{
  riddlesage_port port = RIDDLESAGE_PORT_INIT;
  riddlesage_heard nothing_heard = heard;
  riddlesage_frame nothing_reported = reported;

  memset(levels, 1, sizeof levels);
  handles();
  kept();
  WANT(OK, riddlesage_port_idle(&port, 4, 4));
  null_pointers(&port);
  bad_frames(&port);
  bad_numbers(&port);
  WANT_SAME(nothing_heard, heard);
  WANT_SAME(nothing_reported, reported);
  coverages(&port);
  exact_lists(&port);
  behind_the_longest();
#ifndef RIDDLESAGE_PORTS_ONLY
  bad_scenarios();
  port_times();
  bad_networks();
  networks();
  texts();
  traces_of_levels();
  fields_of_levels();
#endif
  WANT(OK, riddlesage_port_free(&port));
  if (riddlesage_status_name((riddlesage_status)29) != NULL || riddlesage_event_name((riddlesage_event)12) != NULL ||
      riddlesage_phase_name((riddlesage_phase)15) != NULL || riddlesage_rule_name((riddlesage_rule)17) != NULL)
    wrong++;
  return ended();
}
