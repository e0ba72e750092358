/* Levels, frames, and the places of the parts of a frame (docs/FRAMES.md, Layout). */

#ifndef FRAME_H
#define FRAME_H

#include <stdbool.h>
#include <stdint.h>

enum level { DOMINANT = 0, RECESSIVE = 1 };

enum { MOST_DATA_BYTES = 8, HIGHEST_DLC = 15 };

struct frame {
    bool extended;
    bool remote;
    uint32_t identifier;
    unsigned dlc;
    uint8_t data[MOST_DATA_BYTES];
};

/* Places in a frame without its stuff bits, counted from 0, the start of frame. */
enum {
    BASE_RTR_PLACE = 12,     /* RTR of a standard frame; SRR of an extended one */
    IDE_PLACE = 13,
    EXTENDED_RTR_PLACE = 32
};

enum {
    BASE_LEVELS = 11,        /* of the identifier, before RTR or SRR */
    EXTENSION_LEVELS = 18,
    CONTROL_LEVELS = 6,      /* IDE or r1, r0 and the DLC */
    DLC_LEVELS = 4,
    CRC_LEVELS = 15
};

/* The number of data bytes: at most 8, and none in a remote frame. */
unsigned data_bytes(const struct frame *frame);

/* The place of RTR. */
unsigned rtr_place(bool extended);

/* The first place after the DLC. */
unsigned data_place(const struct frame *frame);

/* The number of levels before the CRC sequence. */
unsigned head_levels(const struct frame *frame);

/* The eleven levels of the identifier before SRR or RTR, and the eighteen after IDE. */
uint32_t base_identifier(const struct frame *frame);
uint32_t identifier_extension(const struct frame *frame);

/* The arbitration field as a number: the lower one has the higher priority. */
uint32_t arbitration_field(const struct frame *frame);

#endif
