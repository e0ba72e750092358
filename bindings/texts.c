/*
 * The public calls over the proved functions of crates/can_page. Each checks its pointers; one that writes a text also
 * allocates a buffer for it, and copies it. Nothing here is proved, and no rule of CAN is here.
 */
#include "riddlesage.h"

#include "platform.h"
#include "proved.h"

/* The results of the proved functions. */
enum {
  DONE = 0,
  FULL = 1,
  BAD_LEVEL = 2,
  BAD_SCENARIO = 6,
  NO_PORT = 7,
  BAD_NETWORK = 9,
  NO_MESSAGE = 10,
  TOO_LONG = 17
};

/* Copies a text out, or returns only its length if the caller's buffer is too small. */
static riddlesage_status give(const struct lines *lines, char *out, size_t room, size_t *count)
{
  *count = (size_t)lines->count;
  if (room < *count)
    return RIDDLESAGE_NO_ROOM;
  memcpy(out, lines->bytes, *count);
  return RIDDLESAGE_OK;
}

/* Writes a number in decimal, and returns the place after it. */
static char *write_number(uint64_t number, char *out)
{
  char digits[20];
  size_t count = 0;

  do
    digits[count++] = (char)('0' + number % 10);
  while ((number /= 10) != 0);
  while (count > 0)
    *out++ = digits[--count];
  return out;
}

/* The names of fields as canbit and canplan print them: # stands for the number, and the second one for the element. */
static const char *const scenario_fields[] = {
  "toml", "key", "version", "bits", "port", "port[#]", "port[#].key", "port[#].queue", "port[#].queue[#]",
  "port[#].log", "port[#].join", "port[#].hold", "at", "in", "view", "at[#]", "in[#]", "view[#]",
};
static const char *const network_fields[] = {
  "toml", "key", "version", "rate", "errors", "errors.key", "errors.burst", "errors.spacing", "message",
  "message[#]", "message[#].key", "message[#].frame", "message[#].dlc", "message[#].period", "message[#].jitter",
  "message[#].deadline", "message[#]", "message[#].name", "message[#].name",
};

/* Writes the name of a field, with a terminating 0. */
static void name_field(const char *const *names, const struct wrong *wrong, char *field)
{
  uint64_t number = wrong->number;
  const char *from;

  for (from = names[wrong->field]; *from != '\0'; from++) {
    if (*from != '#') {
      *field++ = *from;
      continue;
    }
    field = write_number(number, field);
    number = wrong->element;
  }
  *field = '\0';
}

/* The status for the result of a proved function that writes a text, which is copied out. */
static riddlesage_status text_of(uint8_t answer, const struct lines *lines, char *out, size_t room, size_t *count)
{
  switch (answer) {
  case DONE:
    return give(lines, out, room, count);
  case FULL:
    *count = 0;
    return RIDDLESAGE_NO_ROOM;
  case BAD_SCENARIO:
    return RIDDLESAGE_BAD_SCENARIO;
  case BAD_NETWORK:
    return RIDDLESAGE_BAD_NETWORK;
  case NO_MESSAGE:
    return RIDDLESAGE_NO_MESSAGE;
  case TOO_LONG:
    return RIDDLESAGE_TOO_LONG;
  default:
    return RIDDLESAGE_NO_MEMORY;
  }
}

EXPORT riddlesage_status riddlesage_run(const char *text, size_t length, char *report, size_t room, size_t *count,
                                        char *field)
{
  struct wrong wrong = { 0, 0, 0, { 0 } };
  struct lines *lines;
  riddlesage_status status;

  if (text == NULL || report == NULL || count == NULL)
    return RIDDLESAGE_NULL_POINTER;
  lines = RIDDLESAGE_MALLOC(sizeof *lines);
  if (lines == NULL)
    return RIDDLESAGE_NO_MEMORY;
  status = text_of(page_run(text, length, lines, &wrong), lines, report, room, count);
  if (status == RIDDLESAGE_BAD_SCENARIO && field != NULL)
    name_field(scenario_fields, &wrong, field);
  RIDDLESAGE_FREE(lines);
  return status;
}

EXPORT riddlesage_status riddlesage_port_times(const char *text, size_t length, size_t port,
                                               riddlesage_port_time *times, size_t room, size_t *count, char *field)
{
  uint64_t passed = 0;
  size_t unwritten;
  char nothing;

  if (text == NULL || times == NULL || count == NULL)
    return RIDDLESAGE_NULL_POINTER;
  switch (page_port_times(text, length, port, times, room, &passed)) {
  case DONE:
    *count = (size_t)passed;
    return RIDDLESAGE_OK;
  case FULL:
    return RIDDLESAGE_NO_ROOM;
  case NO_PORT:
    return RIDDLESAGE_NO_SUCH_PORT;
  case BAD_SCENARIO:
    /* the proved function does not say which field is wrong, but that of a run does */
    return field == NULL ? RIDDLESAGE_BAD_SCENARIO : riddlesage_run(text, length, &nothing, 0, &unwritten, field);
  default:
    return RIDDLESAGE_NO_MEMORY;
  }
}

/* Copies out what is wrong in a network. The buffer of the analysis has what the field must be. */
static void explain(const struct wrong *found, const struct lines *lines, riddlesage_wrong *wrong)
{
  const size_t most = sizeof wrong->words - 1, count = lines->count < most ? (size_t)lines->count : most;

  name_field(network_fields, found, wrong->field);
  memcpy(wrong->words, lines->bytes, count);
  wrong->words[count] = '\0';
}

/* Analyses a network, with this buffer. */
static riddlesage_status plan(const char *text, size_t length, bool details, struct lines *lines, char *report,
                              size_t room, size_t *count, size_t *late, riddlesage_wrong *wrong)
{
  struct wrong found = { 0, 0, 0, { 0 } };
  uint64_t missed = 0;
  uint8_t answer = page_plan(text, length, details, lines, &missed, &found);
  riddlesage_status status = text_of(answer, lines, report, room, count);

  if (status == RIDDLESAGE_OK && late != NULL)
    *late = (size_t)missed;
  if (status == RIDDLESAGE_BAD_NETWORK && wrong != NULL)
    explain(&found, lines, wrong);
  return status;
}

EXPORT riddlesage_status riddlesage_plan(const char *text, size_t length, uint8_t details, char *report, size_t room,
                                         size_t *count, size_t *late, riddlesage_wrong *wrong)
{
  struct lines *lines;
  riddlesage_status status;

  if (text == NULL || report == NULL || count == NULL)
    return RIDDLESAGE_NULL_POINTER;
  if (details > 1)
    return RIDDLESAGE_BAD_FLAG;
  lines = RIDDLESAGE_MALLOC(sizeof *lines);
  if (lines == NULL)
    return RIDDLESAGE_NO_MEMORY;
  status = plan(text, length, details != 0, lines, report, room, count, late, wrong);
  RIDDLESAGE_FREE(lines);
  return status;
}

EXPORT riddlesage_status riddlesage_worst_case(const char *text, size_t length, const char *message,
                                               size_t message_length, char *scenario, size_t room, size_t *count,
                                               riddlesage_wrong *wrong)
{
  struct wrong found = { 0, 0, 0, { 0 } };
  struct lines *lines;
  riddlesage_status status;

  if (text == NULL || message == NULL || scenario == NULL || count == NULL)
    return RIDDLESAGE_NULL_POINTER;
  lines = RIDDLESAGE_MALLOC(sizeof *lines);
  if (lines == NULL)
    return RIDDLESAGE_NO_MEMORY;
  status = text_of(page_worst_case(text, length, message, message_length, lines, &found), lines, scenario, room, count);
  /* this proved function does not say what the wrong field must be, but that of an analysis does */
  if (status == RIDDLESAGE_BAD_NETWORK && wrong != NULL)
    status = plan(text, length, false, lines, scenario, room, count, NULL, wrong);
  RIDDLESAGE_FREE(lines);
  return status;
}

/* A proved function that decodes a trace, given as text or as levels. */
typedef uint8_t decoding(const uint8_t *trace, size_t length, struct lines *out, uint64_t *place);

static riddlesage_status decode(decoding *by, const uint8_t *trace, size_t length, struct lines *lines, char *out,
                                size_t room, size_t *count, size_t *place)
{
  uint64_t bad = 0;
  uint8_t answer = by(trace, length, lines, &bad);
  riddlesage_status status;

  if (answer != DONE && answer != BAD_LEVEL) {
    *count = 0;
    return RIDDLESAGE_NO_ROOM;
  }
  status = give(lines, out, room, count);
  if (status != RIDDLESAGE_OK || answer == DONE)
    return status;
  if (place != NULL)
    *place = (size_t)bad;
  return RIDDLESAGE_BAD_BYTE;
}

/* Decodes a trace into a buffer that it allocates, and copies the lines out. */
static riddlesage_status decode_with_room(decoding *by, const uint8_t *trace, size_t length, char *out, size_t room,
                                          size_t *count, size_t *place)
{
  struct lines *lines;
  riddlesage_status status;

  if (trace == NULL || out == NULL || count == NULL)
    return RIDDLESAGE_NULL_POINTER;
  lines = RIDDLESAGE_MALLOC(sizeof *lines);
  if (lines == NULL)
    return RIDDLESAGE_NO_MEMORY;
  status = decode(by, trace, length, lines, out, room, count, place);
  RIDDLESAGE_FREE(lines);
  return status;
}

EXPORT riddlesage_status riddlesage_decode_trace(const char *text, size_t length, char *lines, size_t room,
                                                 size_t *count, size_t *place)
{
  return decode_with_room(page_decode, (const uint8_t *)text, length, lines, room, count, place);
}

EXPORT riddlesage_status riddlesage_decode_levels(const uint8_t *levels, size_t length, char *lines, size_t room,
                                                  size_t *count, size_t *place)
{
  return decode_with_room(page_decode_levels, levels, length, lines, room, count, place);
}

EXPORT riddlesage_status riddlesage_marks(const uint8_t *levels, size_t length, uint8_t *fields, uint8_t *stuffed,
                                          size_t *count)
{
  uint64_t marked;

  if (levels == NULL || fields == NULL || stuffed == NULL || count == NULL)
    return RIDDLESAGE_NULL_POINTER;
  if (page_marks(levels, length, fields, RIDDLESAGE_MOST_LEVELS, stuffed, RIDDLESAGE_MOST_LEVELS, &marked) != DONE)
    return RIDDLESAGE_BAD_LEVEL;
  *count = (size_t)marked;
  return RIDDLESAGE_OK;
}
