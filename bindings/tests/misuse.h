/* Common to the misuse programs: the status of each call is compared with the expected one. */
#ifndef MISUSE_H
#define MISUSE_H

#include "riddlesage.h"

#include <stdio.h>
#include <stdlib.h>
#include <string.h>

static unsigned tried, wrong;

#define WANT(status, call) want(RIDDLESAGE_##status, (call), #call, __LINE__)

static void want(riddlesage_status wanted, riddlesage_status given, const char *call, int line)
{
  tried++;
  if (wanted == given)
    return;
  wrong++;
  printf("line %d: %s: %s and not %s\n", line, call, riddlesage_status_name(given), riddlesage_status_name(wanted));
}

static void want_same(const void *one, const void *other, size_t size, int line)
{
  tried++;
  if (memcmp(one, other, size) == 0)
    return;
  wrong++;
  printf("line %d: something has changed\n", line);
}

#define WANT_SAME(one, other) want_same(&(one), &(other), sizeof(one), __LINE__)

/* Prints how many calls were as expected, and returns the exit status. */
static int ended(void)
{
  printf("%u of %u refused or taken as they should be\n", tried - wrong, tried);
  return wrong == 0 ? EXIT_SUCCESS : EXIT_FAILURE;
}

#endif
