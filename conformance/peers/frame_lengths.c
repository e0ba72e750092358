/*
 * Compares can_frame_length(.., CFL_EXACT, ..) of can-utils with the library's encoder, over random frames. It should
 * be the number of the frame's levels, and the three of intermission. Prints how many differ, by kind of frame.
 *
 *     cc -I bindings -I CAN-UTILS frame_lengths.c CAN-UTILS/canframelen.c bindings/out/libriddlesage.a
 */
#include "riddlesage.h"

#include <linux/can.h>
#include <stdio.h>
#include <stdlib.h>
#include <string.h>

/* it needs the types of linux/can.h */
#include "canframelen.h"

enum { FRAMES = 1000000, INTERMISSION = 3 };

enum kind { DATA, REMOTE_EMPTY, REMOTE, KINDS };

static const char *const names[KINDS] = {
  "data frames",
  "remote frames with a DLC of 0",
  "remote frames with a DLC above 0",
};

static uint64_t seed = 1;

static uint32_t chance(void)
{
  seed = seed * UINT64_C(6364136223846793005) + UINT64_C(1442695040888963407);
  return (uint32_t)(seed >> 32);
}

/* A random frame; half of them have many equal levels. can-utils knows DLC 0 to 8. */
static riddlesage_frame some_frame(void)
{
  riddlesage_frame frame = { 0, 0, 0, 0, { 0 } };
  int place;

  frame.extended = chance() & 1;
  frame.remote = chance() % 8 == 0;
  frame.dlc = (uint8_t)(chance() % 9);
  frame.identifier = chance() & (frame.extended ? CAN_EFF_MASK : CAN_SFF_MASK);
  if (chance() % 4 == 0)
    frame.identifier &= 0x1f;
  for (place = 0; place < frame.dlc && !frame.remote; place++)
    frame.data[place] = (uint8_t)(chance() % 2 != 0 ? chance() : chance() % 2 != 0 ? 0 : 0xff);
  return frame;
}

static unsigned their_length(const riddlesage_frame *frame)
{
  struct canfd_frame theirs;

  memset(&theirs, 0, sizeof theirs);
  theirs.can_id = frame->identifier | (frame->extended ? CAN_EFF_FLAG : 0) | (frame->remote ? CAN_RTR_FLAG : 0);
  theirs.len = frame->dlc;
  memcpy(theirs.data, frame->data, sizeof frame->data);
  return can_frame_length(&theirs, CFL_EXACT, CAN_MTU);
}

int main(void)
{
  unsigned long seen[KINDS] = { 0 }, differ[KINDS] = { 0 };
  long number;
  int kind;

  for (number = 0; number < FRAMES; number++) {
    riddlesage_frame frame = some_frame();
    uint8_t levels[RIDDLESAGE_MOST_LEVELS];
    size_t count;

    if (riddlesage_encode(&frame, levels, sizeof levels, &count) != RIDDLESAGE_OK)
      return EXIT_FAILURE;
    kind = !frame.remote ? DATA : frame.dlc == 0 ? REMOTE_EMPTY : REMOTE;
    seen[kind]++;
    differ[kind] += their_length(&frame) != count + INTERMISSION;
  }
  for (kind = 0; kind < KINDS; kind++)
    printf("%s: %lu of %lu differ\n", names[kind], differ[kind], seen[kind]);
  return EXIT_SUCCESS;
}
