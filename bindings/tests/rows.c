/*
 * Runs the test vectors of rows.txt on the C library: bit time by bit time (`rows step FILE`), each on a copy of the
 * port; or each list of levels in one call (`rows run FILE`). Prints each line that does not hold, and then how many
 * hold: `214 of 214 lines hold`.
 */
#include "../examples/frame_text.h"
#include "riddlesage.h"

#include <stdio.h>
#include <stdlib.h>
#include <string.h>

enum { LINE_ROOM = 512, MOST_TIMES = 1024 };

/* A test vector: its port, the level and event of each bit time, and the index of the next event to compare. */
struct row {
  riddlesage_port port;
  bool in_one_call;
  unsigned times, compared;
  uint8_t drives[MOST_TIMES], events[MOST_TIMES];
  riddlesage_frame frames[MOST_TIMES];
};

static bool text_is(const char *text, const char *wanted)
{
  return strcmp(text, wanted) == 0;
}

static size_t levels_of(const char *text, uint8_t *levels)
{
  size_t count = 0;

  while (text[count] == '0' || text[count] == '1') {
    levels[count] = (uint8_t)(text[count] - '0');
    count++;
  }
  return count;
}

static void skip_quiet_times(struct row *row)
{
  while (row->compared < row->times && row->events[row->compared] == RIDDLESAGE_NOTHING)
    row->compared++;
}

/* The frames of a run are the entries that it added to the log. */
static void take_frames_from_log(struct row *row, unsigned from, size_t entry)
{
  unsigned time;
  uint8_t sent;

  for (time = from; time < row->times; time++)
    if (row->events[time] == RIDDLESAGE_SENT || row->events[time] == RIDDLESAGE_RECEIVED)
      riddlesage_port_entry(&row->port, entry++, &row->frames[time], &sent);
}

/* Replaces the port by a copy of itself. */
static bool copy(struct row *row)
{
  riddlesage_port other = RIDDLESAGE_PORT_INIT;
  bool copied = riddlesage_port_copy(&other, &row->port) == RIDDLESAGE_OK &&
                riddlesage_port_copy(&row->port, &other) == RIDDLESAGE_OK;

  return riddlesage_port_free(&other) == RIDDLESAGE_OK && copied;
}

static bool see(struct row *row, const char *text)
{
  uint8_t levels[MOST_TIMES];
  unsigned from = row->times;
  size_t count = levels_of(text, levels), entries = 0, place;

  skip_quiet_times(row);
  if (text[count] != '\0' || row->compared != row->times || row->times + count > MOST_TIMES)
    return false;
  row->times += (unsigned)count;
  if (row->in_one_call) {
    riddlesage_port_log_length(&row->port, &entries);
    if (riddlesage_port_run(&row->port, levels, count, row->drives + from, row->events + from) != RIDDLESAGE_OK)
      return false;
    take_frames_from_log(row, from, entries);
    return true;
  }
  for (place = 0; place < count; place++) {
    unsigned time = from + (unsigned)place;
    if (!copy(row))
      return false;
    if (riddlesage_port_drive(&row->port, &row->drives[time]) != RIDDLESAGE_OK ||
        riddlesage_port_sample(&row->port, levels[place], &row->events[time], &row->frames[time]) != RIDDLESAGE_OK)
      return false;
  }
  return true;
}

/* `event 45 received S 001 D 0`. In one call the frame is known only if the log had capacity for it. */
static bool reported(struct row *row, const char *text)
{
  char frame[FRAME_TEXT_ROOM], wanted[LINE_ROOM];
  uint8_t event;
  int length;
  size_t entries = 0;

  skip_quiet_times(row);
  if (row->compared == row->times)
    return false;
  event = row->events[row->compared];
  length = sprintf(wanted, "%u %s", row->compared, riddlesage_event_name((riddlesage_event)event));
  riddlesage_port_log_length(&row->port, &entries);
  if (event == RIDDLESAGE_SENT || event == RIDDLESAGE_RECEIVED) {
    frame_to_text(&row->frames[row->compared], frame);
    sprintf(wanted + length, " %s", frame);
  }
  row->compared++;
  return text_is(text, wanted) || (row->in_one_call && strncmp(text, wanted, (size_t)length) == 0);
}

static bool drives(struct row *row, const char *text)
{
  uint8_t level;

  return riddlesage_port_drive(&row->port, &level) == RIDDLESAGE_OK && level == (uint8_t)(text[0] - '0');
}

static bool drove(struct row *row, const char *text)
{
  uint8_t levels[MOST_TIMES];
  char *end;
  unsigned long time = strtoul(text, &end, 10);
  size_t count = levels_of(end + 1, levels);

  return count > 0 && time + count <= row->times && memcmp(row->drives + time, levels, count) == 0;
}

static bool counters(struct row *row, const char *text)
{
  char wanted[LINE_ROOM];
  uint16_t transmit, receive;

  if (riddlesage_port_counters(&row->port, &transmit, &receive) != RIDDLESAGE_OK)
    return false;
  sprintf(wanted, "%u %u", transmit, receive);
  return text_is(text, wanted);
}

static bool state(struct row *row, const char *text)
{
  static const char *const states[] = { "active", "passive", "off" };
  uint8_t code;

  return riddlesage_port_state(&row->port, &code) == RIDDLESAGE_OK && text_is(text, states[code]);
}

/* `stands error-flag 3, receiver; Error flags`: in the words of a verdict of canhold */
static bool stands(struct row *row, const char *text)
{
  char wanted[LINE_ROOM], place[8] = "";
  riddlesage_standing at;

  if (riddlesage_port_phase(&row->port, &at) != RIDDLESAGE_OK)
    return false;
  if (at.phase != RIDDLESAGE_PHASE_IDLE && at.phase != RIDDLESAGE_PHASE_CRC_DELIMITER &&
      at.phase != RIDDLESAGE_PHASE_ACK_SLOT && at.phase != RIDDLESAGE_PHASE_ACK_DELIMITER)
    sprintf(place, " %u", at.place);
  sprintf(wanted, "%s%s, %s; %s", riddlesage_phase_name((riddlesage_phase)at.phase), place,
          at.sender ? "sender" : "receiver", riddlesage_rule_name((riddlesage_rule)at.rule));
  return text_is(text, wanted);
}

static bool missed(struct row *row, const char *text)
{
  uint32_t count;

  return riddlesage_port_missed(&row->port, &count) == RIDDLESAGE_OK && count == strtoul(text, NULL, 10);
}

static bool whole_log(struct row *row, const char *text)
{
  char wanted[LINE_ROOM] = "";
  size_t count, number, length = 0;

  if (riddlesage_port_log_length(&row->port, &count) != RIDDLESAGE_OK)
    return false;
  for (number = 0; number < count; number++) {
    riddlesage_frame frame;
    char frame_text[FRAME_TEXT_ROOM];
    uint8_t sent;
    if (riddlesage_port_entry(&row->port, number, &frame, &sent) != RIDDLESAGE_OK)
      return false;
    frame_to_text(&frame, frame_text);
    length += (size_t)sprintf(wanted + length, "%s%s %s", number == 0 ? "" : ", ", sent ? "sent" : "received", frame_text);
  }
  return text_is(text, wanted);
}

/* `encode FRAME = LEVELS` */
static bool encodes(const char *text)
{
  char frame_text[LINE_ROOM];
  const char *wanted = strstr(text, " = ");
  uint8_t levels[RIDDLESAGE_MOST_LEVELS], expected[MOST_TIMES];
  riddlesage_frame frame;
  size_t count, place;

  if (wanted == NULL)
    return false;
  sprintf(frame_text, "%.*s", (int)(wanted - text), text);
  if (!frame_from_text(frame_text, &frame) ||
      riddlesage_encode(&frame, levels, sizeof levels, &count) != RIDDLESAGE_OK || levels_of(wanted + 3, expected) != count)
    return false;
  for (place = 0; place < count; place++)
    if (levels[place] != expected[place])
      return false;
  return riddlesage_encode(&frame, levels, count - 1, &count) == RIDDLESAGE_NO_ROOM;
}

/* `decode LEVELS = FRAME WORD.. PLACE`, `decode LEVELS = STATUS PLACE` */
static bool decodes(const char *text)
{
  uint8_t levels[MOST_TIMES];
  char wanted[LINE_ROOM], frame_text[FRAME_TEXT_ROOM];
  riddlesage_heard heard;
  size_t count = levels_of(text, levels), place = 0;
  riddlesage_status status = riddlesage_decode(levels, count, &heard, &place);

  if (status == RIDDLESAGE_OK) {
    frame_to_text(&heard.frame, frame_text);
    sprintf(wanted, " = %s %s%s%s%s%s %lu", frame_text, heard.acknowledged ? "ack" : "noack", heard.srr ? "" : " srr0",
            heard.r1 ? " r1" : "", heard.r0 ? " r0" : "", heard.last ? "" : " eof0", (unsigned long)place);
  } else {
    sprintf(wanted, " = %s %lu", riddlesage_status_name(status), (unsigned long)place);
  }
  return text_is(text + count, wanted);
}

static riddlesage_status hand_in(struct row *row, const char *text)
{
  riddlesage_frame frame;
  unsigned long queue, log;
  char *end;

  if (strncmp(text, "offer ", 6) == 0)
    return frame_from_text(text + 6, &frame) ? riddlesage_port_offer(&row->port, &frame) : RIDDLESAGE_NULL_POINTER;
  if (strncmp(text, "hold ", 5) == 0)
    return riddlesage_port_hold(&row->port, (uint8_t)atoi(text + 5));
  row->times = row->compared = 0;
  queue = strtoul(strchr(text, ' '), &end, 10);
  log = strtoul(end, NULL, 10);
  return (text[0] == 'i' ? riddlesage_port_idle : riddlesage_port_joining)(&row->port, queue, log);
}

/* Whether a line makes a port, queues a frame or requests overload frames; the call follows its status, if that is not
 * `ok`. */
static const char *handed_in(const char *line, char refusal[LINE_ROOM])
{
  const char *colon = strstr(line, ": ");
  const char *text = colon == NULL ? line : colon + 2;

  sprintf(refusal, "%.*s", colon == NULL ? 0 : (int)(colon - line), line);
  if (strncmp(text, "offer ", 6) == 0 || strncmp(text, "hold ", 5) == 0 || strncmp(text, "idle ", 5) == 0 ||
      strncmp(text, "joining ", 8) == 0)
    return text;
  return NULL;
}

static bool holds(struct row *row, const char *line)
{
  static const struct {
    const char *word;
    bool (*holds)(struct row *row, const char *text);
  } words[] = {
    { "see ", see },     { "event ", reported }, { "drives ", drives }, { "drove ", drove },
    { "state ", state }, { "missed ", missed },  { "log ", whole_log }, { "counters ", counters },
    { "stands ", stands },
  };
  char refusal[LINE_ROOM];
  const char *text = handed_in(line, refusal);
  size_t place;

  if (text != NULL)
    return text_is(riddlesage_status_name(hand_in(row, text)), refusal[0] == '\0' ? "ok" : refusal);
  if (strncmp(line, "encode ", 7) == 0)
    return encodes(line + 7);
  if (strncmp(line, "decode ", 7) == 0)
    return decodes(line + 7);
  for (place = 0; place < sizeof words / sizeof words[0]; place++)
    if (strncmp(line, words[place].word, strlen(words[place].word)) == 0)
      return words[place].holds(row, line + strlen(words[place].word));
  return false;
}

/* At the end of a test vector every event has been compared. */
static bool ends(struct row *row)
{
  skip_quiet_times(row);
  return row->compared == row->times;
}

int main(int count, char **words)
{
  static struct row row;
  char line[LINE_ROOM];
  unsigned number = 0, lines = 0, held = 0;
  FILE *file = count == 3 ? fopen(words[2], "r") : NULL;

  if (file == NULL)
    return 2;
  row.in_one_call = text_is(words[1], "run");
  while (fgets(line, sizeof line, file) != NULL) {
    bool is_held;
    line[strcspn(line, "\n")] = '\0';
    number++;
    if (line[0] == '#')
      continue;
    is_held = line[0] == '\0' ? ends(&row) : holds(&row, line);
    lines++;
    held += is_held;
    if (!is_held)
      printf("line %u does not hold: %s\n", number, line);
  }
  fclose(file);
  riddlesage_port_free(&row.port);
  printf("%u of %u lines hold\n", held, lines);
  return held == lines ? EXIT_SUCCESS : EXIT_FAILURE;
}
