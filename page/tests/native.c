/*
 * The calls of crates/can_page as rt makes them for this machine, for what holds the page's module against them
 * (module.mjs). It reads questions: a call by its number, four numbers, and bytes with their count; and writes answers:
 * the bytes of what a call answers and reports, with their count. Numbers have 32 bits, those within answers 64, the
 * lowest byte first.
 */
#include <stdbool.h>
#include <stddef.h>
#include <stdint.h>
#include <stdio.h>
#include <stdlib.h>
#include <string.h>

enum { DONE = 0, BAD_SCENARIO = 6, BAD_PLAN = 9 };
enum { MOST_TEXT = 32, MOST_LEVELS = 157, MOST_BYTES = 10485760, LINE_BYTES = 33554432, MOST_TIMES = 2000000 };

struct lines {
  size_t count;
  bool full;
  uint8_t bytes[LINE_BYTES];
};

struct wrong {
  size_t number;
  size_t element;
  uint8_t field;
};

struct time {
  uint16_t counters[2];
  uint8_t reported[5];
};

uint8_t page_frame_text(uint32_t identifier, bool extended, bool remote, uint8_t dlc, const uint8_t *bytes,
                        size_t length, uint8_t *text, size_t room, size_t *count);
uint8_t page_encode(const uint8_t *text, size_t length, uint8_t *levels, size_t room, size_t *count, size_t *place);
uint8_t page_marks(const uint8_t *levels, size_t length, uint8_t *fields, size_t room, uint8_t *stuffed,
                   size_t stuffed_room, size_t *count);
uint8_t page_decode(const uint8_t *text, size_t length, struct lines *out, uint64_t *place);
uint8_t page_levels(const uint8_t *text, size_t length, uint8_t *levels, size_t room, size_t *count, size_t *place);
uint8_t page_run(const uint8_t *text, size_t length, struct lines *out, struct wrong *wrong);
uint8_t page_plan(const uint8_t *text, size_t length, bool details, struct lines *out, size_t *late,
                  struct wrong *wrong);
uint8_t page_worst_case(const uint8_t *text, size_t length, const uint8_t *name, size_t name_length,
                        struct lines *out, struct wrong *wrong);
uint8_t page_port_times(const uint8_t *text, size_t length, size_t node, struct time *times, size_t room,
                        size_t *count);
uint8_t page_all_port_times(const uint8_t *text, size_t length, struct time *times, size_t room, size_t *count);

/* A question, and what is reported so far. */
static uint32_t question[6];
static uint8_t given[MOST_BYTES];
static uint8_t reported[LINE_BYTES + MOST_BYTES + 64];
static size_t reported_count;

static struct lines lines;
static uint8_t levels[MOST_BYTES];
static struct time times[MOST_TIMES];

static void report(const void *bytes, size_t count)
{
  memcpy(reported + reported_count, bytes, count);
  reported_count += count;
}

static void report_byte(uint8_t byte)
{
  report(&byte, 1);
}

static void report_number(uint64_t number)
{
  report(&number, sizeof number);
}

static void report_wrong(const struct wrong *wrong)
{
  report_number(wrong->number);
  report_number(wrong->element);
  report_byte(wrong->field);
}

static void frame_text(size_t length)
{
  uint8_t text[MOST_TEXT];
  size_t count = 0;
  uint8_t answer = page_frame_text(question[1], question[2] != 0, question[3] != 0, (uint8_t)question[4], given, length,
                                   text, sizeof text, &count);
  report_byte(answer);
  if (answer == DONE)
    report(text, count);
}

static void encode(size_t length)
{
  size_t count = 0, place = 0;
  uint8_t answer = page_encode(given, length, levels, MOST_LEVELS, &count, &place);
  report_byte(answer);
  if (answer == DONE)
    report(levels, count);
  else
    report_number(place);
}

static void marks(size_t length)
{
  uint8_t fields[MOST_LEVELS], stuffed[MOST_LEVELS];
  size_t count = 0;
  uint8_t answer = page_marks(given, length, fields, MOST_LEVELS, stuffed, MOST_LEVELS, &count);
  report_byte(answer);
  if (answer == DONE) {
    report(fields, count);
    report(stuffed, count);
  }
}

static void decode(size_t length)
{
  size_t count = 0, level_place = 0;
  uint64_t place = 0;
  page_levels(given, length, levels, sizeof levels, &count, &level_place);
  uint8_t answer = page_decode(given, length, &lines, &place);
  report_byte(answer);
  if (answer != DONE)
    report_number(place);
  report_number(count);
  report(levels, count);
  report(lines.bytes, lines.count);
}

static void run(size_t length)
{
  struct wrong wrong = { 0, 0, 0 };
  uint8_t answer = page_run(given, length, &lines, &wrong);
  report_byte(answer);
  if (answer == BAD_SCENARIO)
    report_wrong(&wrong);
  if (answer == DONE)
    report(lines.bytes, lines.count);
}

static void plan(size_t length)
{
  struct wrong wrong = { 0, 0, 0 };
  size_t late = 0;
  uint8_t answer = page_plan(given, length, question[1] != 0, &lines, &late, &wrong);
  report_byte(answer);
  if (answer == BAD_PLAN) {
    report_wrong(&wrong);
    report(lines.bytes, lines.count);
  }
  if (answer == DONE) {
    report_number(late);
    report(lines.bytes, lines.count);
  }
}

/* The name stands in front of the document. */
static void worst_case(size_t length)
{
  struct wrong wrong = { 0, 0, 0 };
  size_t front = question[1] < length ? question[1] : length;
  uint8_t answer = page_worst_case(given + front, length - front, given, front, &lines, &wrong);
  report_byte(answer);
  if (answer == BAD_PLAN)
    report_wrong(&wrong);
  if (answer == DONE)
    report(lines.bytes, lines.count);
}

static void port_times(size_t length)
{
  size_t count = 0;
  uint8_t answer = page_port_times(given, length, question[1], times, MOST_TIMES, &count);
  report_byte(answer);
  if (answer == DONE)
    report(times, count * sizeof *times);
}

static void all_port_times(size_t length)
{
  size_t count = 0;
  uint8_t answer = page_all_port_times(given, length, times, MOST_TIMES, &count);
  report_byte(answer);
  if (answer == DONE)
    report(times, count * sizeof *times);
}

int main(void)
{
  static void (*const calls[])(size_t) = {
    frame_text, encode, marks, decode, run, plan, worst_case, port_times, all_port_times,
  };
  while (fread(question, sizeof question, 1, stdin) == 1) {
    if (question[0] >= sizeof calls / sizeof *calls || question[5] > MOST_BYTES ||
        fread(given, 1, question[5], stdin) != question[5])
      return 1;
    reported_count = 0;
    calls[question[0]](question[5]);
    uint32_t count = (uint32_t)reported_count;
    fwrite(&count, sizeof count, 1, stdout);
    fwrite(reported, 1, reported_count, stdout);
  }
  return ferror(stdin) || fflush(stdout) != 0;
}
