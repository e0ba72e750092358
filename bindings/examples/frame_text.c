#include "frame_text.h"

#include <stdio.h>
#include <string.h>

/* The number of data bytes of a frame. */
static unsigned data_bytes(const riddlesage_frame *frame)
{
  return frame->remote ? 0 : frame->dlc < 8 ? frame->dlc : 8;
}

void frame_to_text(const riddlesage_frame *frame, char text[FRAME_TEXT_ROOM])
{
  int length = snprintf(text, FRAME_TEXT_ROOM, frame->extended ? "E %08lx %c %u" : "S %03lx %c %u",
                        (unsigned long)frame->identifier, frame->remote ? 'R' : 'D', frame->dlc);
  unsigned place;

  for (place = 0; place < data_bytes(frame); place++)
    length += snprintf(text + length, FRAME_TEXT_ROOM - (size_t)length, place == 0 ? " %02x" : "%02x",
                       frame->data[place]);
}

bool frame_from_text(const char *text, riddlesage_frame *frame)
{
  char kind, direction, digits[17] = "";
  unsigned long identifier;
  unsigned dlc, place, byte;

  memset(frame, 0, sizeof *frame);
  if (sscanf(text, "%c %8lx %c %3u %16s", &kind, &identifier, &direction, &dlc, digits) < 4)
    return false;
  frame->identifier = (uint32_t)identifier;
  frame->extended = kind == 'E';
  frame->remote = direction == 'R';
  frame->dlc = (uint8_t)dlc;
  for (place = 0; place < data_bytes(frame); place++) {
    if (sscanf(digits + 2 * place, "%2x", &byte) != 1)
      return false;
    frame->data[place] = (uint8_t)byte;
  }
  return true;
}
