/*
 * The calls for texts, each with a document on standard input:
 *
 *   texts run                 the report of a scenario
 *   texts times PORT          what one of its ports did in each bit time: a line of numbers for each
 *   texts plan | details      the bounds of a network, without and with their parts, and how many messages may be late
 *   texts worst MESSAGE       the worst case of a message, as a scenario
 *   texts decode | levels     the lines of a trace, given as text or as levels
 *
 * After 'refused' come status, field, what it must be, and place.
 */
#include "riddlesage.h"

#include <stdio.h>
#include <stdlib.h>
#include <string.h>

enum { MOST_GIVEN = 1 << 20, MOST_PRINTED = 1 << 22, MOST_TIMES = 10000 };

static char given[MOST_GIVEN], printed[MOST_PRINTED];
static size_t length, count, place;
static riddlesage_wrong wrong;

/* Prints what a port did in each bit time. */
static riddlesage_status times(size_t port)
{
  static riddlesage_port_time done[MOST_TIMES];
  size_t bits = 0, time;
  riddlesage_status status = riddlesage_port_times(given, length, port, done, MOST_TIMES, &bits, wrong.field);

  for (time = 0; time < bits; time++)
    printf("%d %d %d %d %d %d %d\n", done[time].transmit, done[time].receive, done[time].phase, done[time].sender,
           done[time].drives, done[time].samples, done[time].event);
  return status;
}

/* Analyses a network. */
static riddlesage_status plan(uint8_t details)
{
  size_t late = 0;
  riddlesage_status status = riddlesage_plan(given, length, details, printed, sizeof printed, &count, &late, &wrong);

  printf("late %u\n", (unsigned)late);
  return status;
}

/* The digits of a trace as levels, and how many there are. */
static size_t levels_of(void)
{
  size_t at, levels = 0;

  for (at = 0; at < length; at++)
    if (given[at] == '0' || given[at] == '1')
      given[levels++] = (char)(given[at] - '0');
  return levels;
}

int main(int words, char **word)
{
  const char *call = words >= 2 ? word[1] : "", *of = words == 3 ? word[2] : "";
  riddlesage_status status;

  length = fread(given, 1, sizeof given, stdin);
  if (strcmp(call, "run") == 0)
    status = riddlesage_run(given, length, printed, sizeof printed, &count, wrong.field);
  else if (strcmp(call, "times") == 0)
    status = times(strtoul(of, NULL, 10));
  else if (strcmp(call, "plan") == 0 || strcmp(call, "details") == 0)
    status = plan(strcmp(call, "details") == 0);
  else if (strcmp(call, "worst") == 0)
    status = riddlesage_worst_case(given, length, of, strlen(of), printed, sizeof printed, &count, &wrong);
  else if (strcmp(call, "decode") == 0)
    status = riddlesage_decode_trace(given, length, printed, sizeof printed, &count, &place);
  else if (strcmp(call, "levels") == 0)
    status = riddlesage_decode_levels((const uint8_t *)given, levels_of(), printed, sizeof printed, &count, &place);
  else
    return 2;
  fwrite(printed, 1, count, stdout);
  if (status != RIDDLESAGE_OK)
    printf("refused: %s %s %s %u\n", riddlesage_status_name(status), wrong.field, wrong.words, (unsigned)place);
  return EXIT_SUCCESS;
}
