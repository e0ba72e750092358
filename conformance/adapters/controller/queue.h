/* The pending frames. */

#ifndef QUEUE_H
#define QUEUE_H

#include "frame.h"

enum { QUEUE_SIZE = 256 };

struct queue {
    struct frame frames[QUEUE_SIZE];    /* in the order in which they were offered */
    unsigned length;
};

/* Returns false if the queue is full. */
bool put_frame(struct queue *queue, const struct frame *frame);

/* The frame of highest priority; of equal arbitration fields, the one offered first. The queue must not be empty. */
const struct frame *first_frame(const struct queue *queue);

/* Removes the first frame with the arbitration field of this one. */
void drop_frame(struct queue *queue, const struct frame *sent);

#endif
