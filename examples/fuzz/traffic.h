/* Turns a fuzzer's bytes into traffic: frames that are pending, a tester's frames, bit errors, overload requests,
 * missing acknowledgements, resets, and long runs of one level. Any bytes are traffic.
 *
 * A command is a byte, and the bytes that it asks for; missing ones are 0. Its low four bits are the command, its high
 * ones the argument a. `seeds` writes the same format. */
#ifndef TRAFFIC_H
#define TRAFFIC_H

#include <stddef.h>
#include <stdint.h>

enum command {
  RUN = 0,       /* COUNT: COUNT + 1 times the level a & 1 */
  BITS = 1,      /* COUNT LEVELS..: COUNT % 128 + 1 levels, eight in a byte, the lowest bit first */
  FORCED = 2,    /* a + 1 forced bit times */
  OFFER = 3,     /* FRAME: the frame is pending for the controller */
  HOLD = 4,      /* a % 3 overload frames are requested */
  SEND = 5,      /* FRAME VARIANT PLACE HOW: the tester sends a frame, with an error if it has a bit PLACE */
  LISTEN = 6,    /* PLACE: the controller sends a frame, with an error if it has a bit PLACE; a & 3 acknowledges it */
  REST = 7,      /* recessive until the bus is idle, then a bit times */
  REPEAT = 8,    /* COUNT: the last a % 4 + 1 commands, COUNT % 64 + 1 times */
  RESET = 9,     /* a new controller, which begins with bus integration if a & 1 */
  QUIET = 10,    /* COUNT: COUNT times eleven recessive levels, and a more */
  HIT = 11,      /* PHASE: recessive until the controller should be in this phase, at place a; then a bit error */
  COMMANDS = 12  /* those above are SEND, LISTEN or OFFER */
};

/* A PLACE below this is a bit of a frame, from its start on and with stuff bits. Others are one of the ten bits from
 * the CRC delimiter to the end of frame. */
enum { FROM_END = 192 };

/* HOW a tester sends. With the error, the controller samples the opposite level; one value of the lowest two bits also
 * ends the frame, and another forces a recessive level instead. */
enum {
  ENDS = 2,
  FORCES = 3,
  ERROR_KINDS = 3,    /* the two bits */
  ACKNOWLEDGES = 4,   /* its own ACK slot is dominant */
  AT_ONCE = 8,        /* it doesn't wait for the idle bus */
  CONTINUES = 0x30,   /* both bits: also after an error of the controller */
  EARLY = 0x40        /* it may start in the third bit of intermission */
};

/* Bits of the argument a of OFFER and SEND. FRAME is IDENTIFIER, two bytes or four if extended, the highest first; DLC;
 * and the data bytes, or one byte for all of them. With NEAR it is a byte that says how the frame differs from the one
 * offered last. */
enum { EXTENDED = 1, REMOTE = 2, ALL_DATA = 4, NEAR = 8 };

void play_traffic(const uint8_t *bytes, size_t size);

#endif
