/* Of no use as a reference: a tester's frame may be wrong, and the model decides what follows from it. */
#include "wire.h"

static void put(struct wire *wire, unsigned level)
{
  bool repeats = wire->length > 0 && wire->levels[wire->length - 1] == level;

  wire->run = repeats ? wire->run + 1 : 1;
  wire->levels[wire->length++] = (uint8_t)level;
}

/* Puts the lowest bits of a number, with stuff bits. */
static void put_number(struct wire *wire, uint32_t number, unsigned bits)
{
  while (bits-- > 0) {
    unsigned level = number >> bits & 1;
    bool divides = (wire->crc >> 14 & 1) != level;
    wire->crc = (uint16_t)((wire->crc << 1 & 0x7fff) ^ (divides ? 0x4599 : 0));
    put(wire, level);
    if (wire->run == 5)
      put(wire, 1 - level);
  }
}

static void put_arbitration_field(struct wire *wire, const riddlesage_frame *frame, const struct variant *variant)
{
  put_number(wire, frame->extended != 0 ? frame->identifier >> 18 : frame->identifier, 11);
  if (frame->extended != 0) {
    put_number(wire, variant->dominant_srr ? 1 : 3, 2); /* SRR, IDE */
    put_number(wire, frame->identifier & 0x3ffff, 18);
  }
  put_number(wire, frame->remote, 1);
  if (frame->extended != 0)
    put_number(wire, variant->recessive_r1, 1);
  else
    put_number(wire, 0, 1); /* IDE */
}

void make_wire(struct wire *wire, const riddlesage_frame *frame, const struct variant *variant)
{
  unsigned bytes = frame->remote != 0 ? 0 : frame->dlc < 8 ? frame->dlc : 8, place;

  wire->length = wire->run = wire->crc = 0;
  put_number(wire, 0, 1); /* start of frame */
  put_arbitration_field(wire, frame, variant);
  put_number(wire, variant->recessive_r0, 1);
  put_number(wire, frame->dlc, 4);
  for (place = 0; place < bytes; place++)
    put_number(wire, frame->data[place], 8);
  put_number(wire, wire->crc ^ variant->crc, 15);
  for (place = 0; place < 10; place++) /* CRC delimiter to end of frame */
    put(wire, 1);
}
