/* The levels of a tester's frame, right or with bits that a conforming transmitter doesn't send. */
#ifndef WIRE_H
#define WIRE_H

#include "riddlesage.h"

/* What differs from the frame that a conforming transmitter sends. */
struct variant {
  bool dominant_srr, recessive_r1, recessive_r0;
  uint16_t crc; /* bits of the CRC sequence that are inverted */
};

struct wire {
  uint8_t levels[RIDDLESAGE_MOST_LEVELS];
  unsigned length;
  unsigned run; /* equal levels at the end */
  uint16_t crc;
};

void make_wire(struct wire *wire, const riddlesage_frame *frame, const struct variant *variant);

#endif
