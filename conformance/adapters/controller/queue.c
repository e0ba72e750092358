#include "queue.h"

#include <string.h>

bool put_frame(struct queue *queue, const struct frame *frame)
{
    if (queue->length == QUEUE_SIZE)
        return false;
    queue->frames[queue->length++] = *frame;
    return true;
}

const struct frame *first_frame(const struct queue *queue)
{
    const struct frame *first = &queue->frames[0];

    for (unsigned place = 1; place < queue->length; place++) {
        const struct frame *other = &queue->frames[place];
        if (arbitration_field(other) < arbitration_field(first))
            first = other;
    }
    return first;
}

void drop_frame(struct queue *queue, const struct frame *sent)
{
    unsigned place = 0;

    while (place < queue->length && arbitration_field(&queue->frames[place]) != arbitration_field(sent))
        place++;
    if (place == queue->length)
        return;
    queue->length--;
    memmove(&queue->frames[place], &queue->frames[place + 1], (queue->length - place) * sizeof queue->frames[0]);
}
