/* Frames as text, in the format of docs/FORMATS.md: `S 123 D 2 aa55`. */
#ifndef FRAME_TEXT_H
#define FRAME_TEXT_H

#include "riddlesage.h"

/* The longest text, with its terminating 0. */
enum { FRAME_TEXT_ROOM = 33 };

void frame_to_text(const riddlesage_frame *frame, char text[FRAME_TEXT_ROOM]);

/* Reads a text that frame_to_text writes. For any other text it returns false, or a frame that the library refuses. */
bool frame_from_text(const char *text, riddlesage_frame *frame);

#endif
