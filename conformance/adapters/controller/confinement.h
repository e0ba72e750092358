/* Fault confinement: the two error counters, what changes them, and the states that follow (docs/ACCESS.md). */

#ifndef CONFINEMENT_H
#define CONFINEMENT_H

#include <stdbool.h>

struct counters {
    unsigned tec;               /* of transmit errors */
    unsigned rec;               /* of receive errors */
};

bool is_passive(const struct counters *counters);
bool is_off(const struct counters *counters);

/* A transmitter's error, a bit error in its flag, or eight dominant bits after a flag: TEC rises by 8. */
void count_sender(struct counters *counters);

/* A receiver's error: REC rises by 1 or by 8, up to 255. */
void count_receiver(struct counters *counters, unsigned by);

void count_sent(struct counters *counters);
void count_received(struct counters *counters);

/* After recovery from bus-off both are 0. */
void clear_counters(struct counters *counters);

#endif
