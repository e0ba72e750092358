/* Frames as text, such as `S 123 D 2 c3a5` (docs/FORMATS.md, Frame text). */

#ifndef TEXT_H
#define TEXT_H

#include <stdio.h>

#include "frame.h"

/* Reads a frame. Returns false if the text is none. */
bool read_frame(const char *text, struct frame *frame);

void write_frame(FILE *out, const struct frame *frame);

#endif
