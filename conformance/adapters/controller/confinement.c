#include "confinement.h"

enum { PASSIVE_LIMIT = 128, OFF_LIMIT = 256, HIGHEST_REC = 255 };

bool is_passive(const struct counters *counters)
{
    return counters->tec >= PASSIVE_LIMIT || counters->rec >= PASSIVE_LIMIT;
}

bool is_off(const struct counters *counters)
{
    return counters->tec >= OFF_LIMIT;
}

void count_sender(struct counters *counters)
{
    counters->tec += 8;
}

void count_receiver(struct counters *counters, unsigned by)
{
    unsigned rec = counters->rec + by;

    counters->rec = rec > HIGHEST_REC ? HIGHEST_REC : rec;
}

void count_sent(struct counters *counters)
{
    if (counters->tec > 0)
        counters->tec--;
}

void count_received(struct counters *counters)
{
    if (counters->rec >= PASSIVE_LIMIT)
        counters->rec = PASSIVE_LIMIT - 1;
    else if (counters->rec > 0)
        counters->rec--;
}

void clear_counters(struct counters *counters)
{
    counters->tec = 0;
    counters->rec = 0;
}
