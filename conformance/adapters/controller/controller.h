/* A controller for classical CAN, bit time by bit time: medium access control, with transmit queue and counters. */

#ifndef CONTROLLER_H
#define CONTROLLER_H

#include "coding.h"
#include "confinement.h"
#include "frame.h"
#include "queue.h"

enum phase {
    IDLE,
    JOINING,
    STUFFED_PART,
    CRC_DELIMITER,
    ACK_SLOT,
    ACK_DELIMITER,
    END_OF_FRAME,
    ERROR_FLAG,
    PASSIVE_FLAG,
    OVERLOAD_FLAG,
    AFTER_FLAG,
    DELIMITER,
    INTERMISSION,
    SUSPEND,
    BUS_OFF
};

enum event {
    NOTHING,
    SENT,
    RECEIVED,
    LOST,
    BIT_ERROR,
    STUFF_ERROR,
    CRC_ERROR,
    FORM_ERROR,
    ACK_ERROR,
    OVERLOAD,
    WENT_OFF,
    RECOVERED
};

struct controller {
    enum phase phase;
    unsigned place;             /* levels of the phase so far; JOINING, BUS_OFF: recessive ones in a row */
    bool is_sender;             /* transmitter of the frame on the bus; after it, until the next one or IDLE */
    struct frame sending;
    struct transmission out;
    struct reception in;
    bool agrees;                /* the CRC sequence received is that of the head */
    struct counters counters;
    enum level flag_last;       /* PASSIVE_FLAG: the last level */
    unsigned flag_run;          /* PASSIVE_FLAG: the number of equal levels at the end */
    bool unacknowledged;        /* PASSIVE_FLAG: whether a dominant level counts */
    bool first_counts;          /* AFTER_FLAG: whether a first dominant level counts */
    unsigned dominant;          /* AFTER_FLAG: the number of dominant levels */
    unsigned occurrences;       /* BUS_OFF: sequences of eleven recessive levels */
    unsigned overloads_requested;
    unsigned overloads_sent;    /* on request, since the last start of frame */
    struct queue queue;
    struct frame event_frame;   /* the frame of the event SENT or RECEIVED */
};

/* A new controller. It is idle, or waits for eleven recessive levels before it takes part (bus integration). */
void can_begin(struct controller *can, bool joining);

/* Queues a frame for transmission, from the next bit time on. Returns false if the queue is full. */
bool can_offer(struct controller *can, const struct frame *frame);

/* Requests 0 to 2 overload frames. This replaces an earlier request. */
void can_hold(struct controller *can, unsigned overloads);

/* The level that the controller drives in this bit time. */
enum level can_drives(const struct controller *can);

/* Samples the level of the bus in this bit time, after can_drives. Returns the event. */
enum event can_sample(struct controller *can, enum level seen);

#endif
