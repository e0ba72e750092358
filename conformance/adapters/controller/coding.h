/* The stuffed part of a frame: start of frame to CRC sequence, with stuff bits. It is built before transmission, and
 * taken bit by bit in reception (docs/FRAMES.md). */

#ifndef CODING_H
#define CODING_H

#include "frame.h"

enum { STUFFED_SIZE = 160 };    /* more than the 147 levels of the longest stuffed part */

struct transmission {
    enum level levels[STUFFED_SIZE];
    bool stuff[STUFFED_SIZE];   /* whether the level is a stuff bit */
    unsigned length;
    unsigned rtr;               /* the index of RTR, stuff bits included */
    unsigned place;             /* the index of the next level to send */
    unsigned run;               /* the number of equal levels at the end */
    uint16_t crc;
};

void make_transmission(struct transmission *out, const struct frame *frame);

struct reception {
    struct frame frame;         /* as far as it has been received */
    unsigned levels;            /* the number received, without stuff bits */
    enum level last;
    unsigned run;
    uint16_t crc;               /* of the head so far */
    uint16_t sequence;          /* the CRC sequence received so far */
};

/* Begins a reception: the start of frame has been received. */
void begin_reception(struct reception *in);

/* Takes a level. Returns false on a stuff error: a stuff bit that repeats the five levels before it. */
bool receive(struct reception *in, enum level level);

/* Whether the next level is a stuff bit. */
bool is_stuff_place(const struct reception *in);

/* Whether the next level belongs to the head: the CRC sequence has not begun. */
bool is_in_head(const struct reception *in);

/* Whether the stuffed part is complete, including a stuff bit after the CRC sequence, if there is one. */
bool has_ended(const struct reception *in);

#endif
