#include "coding.h"

#include <string.h>

enum { MOST_EQUAL = 5, GENERATOR = 0x4599, CRC_MASK = 0x7fff };

static enum level opposite(enum level level)
{
    return level == DOMINANT ? RECESSIVE : DOMINANT;
}

/* The CRC with one more level: a step of the division by the generator polynomial. */
static uint16_t crc_step(uint16_t crc, enum level level)
{
    bool divides = (crc >> (CRC_LEVELS - 1)) != (unsigned)level;
    unsigned shifted = (unsigned)crc << 1 & CRC_MASK;

    return (uint16_t)(divides ? shifted ^ GENERATOR : shifted);
}

/* Sending */

static void put_stuffed(struct transmission *out, enum level level, bool is_stuff)
{
    bool repeats = out->length > 0 && out->levels[out->length - 1] == level;

    out->run = repeats ? out->run + 1 : 1;
    out->levels[out->length] = level;
    out->stuff[out->length] = is_stuff;
    out->length++;
}

static void put_level(struct transmission *out, enum level level)
{
    put_stuffed(out, level, false);
    out->crc = crc_step(out->crc, level);
    if (out->run == MOST_EQUAL)
        put_stuffed(out, opposite(level), true);
}

static void put_number(struct transmission *out, uint32_t number, unsigned levels)
{
    while (levels-- > 0)
        put_level(out, (number >> levels & 1) != 0 ? RECESSIVE : DOMINANT);
}

static void put_rtr(struct transmission *out, bool remote)
{
    out->rtr = out->length;
    put_level(out, remote ? RECESSIVE : DOMINANT);
}

void make_transmission(struct transmission *out, const struct frame *frame)
{
    memset(out, 0, sizeof *out);
    put_level(out, DOMINANT);
    put_number(out, base_identifier(frame), BASE_LEVELS);
    if (frame->extended) {
        put_number(out, 3, 2);          /* SRR, IDE */
        put_number(out, identifier_extension(frame), EXTENSION_LEVELS);
    }
    put_rtr(out, frame->remote);
    put_number(out, 0, 2);              /* r1 or IDE, r0 */
    put_number(out, frame->dlc, DLC_LEVELS);
    for (unsigned byte = 0; byte < data_bytes(frame); byte++)
        put_number(out, frame->data[byte], 8);
    put_number(out, out->crc, CRC_LEVELS);
}

/* Receiving */

void begin_reception(struct reception *in)
{
    memset(in, 0, sizeof *in);
    in->levels = 1;
    in->last = DOMINANT;
    in->run = 1;
}

bool is_stuff_place(const struct reception *in)
{
    return in->run == MOST_EQUAL;
}

bool is_in_head(const struct reception *in)
{
    return in->levels < data_place(&in->frame) || in->levels < head_levels(&in->frame);
}

bool has_ended(const struct reception *in)
{
    return !is_in_head(in) && in->levels == head_levels(&in->frame) + CRC_LEVELS && !is_stuff_place(in);
}

static bool is_in_identifier(const struct frame *frame, unsigned place)
{
    return place < BASE_RTR_PLACE || (frame->extended && place > IDE_PLACE && place < EXTENDED_RTR_PLACE);
}

static void take_head_level(struct frame *frame, unsigned place, enum level level)
{
    unsigned data = data_place(frame);

    if (is_in_identifier(frame, place)) {
        frame->identifier = frame->identifier << 1 | (unsigned)level;
    } else if (place == IDE_PLACE) {
        frame->extended = level == RECESSIVE;
        if (frame->extended)
            frame->remote = false;      /* the level before was SRR */
    } else if (place == rtr_place(frame->extended)) {
        frame->remote = level == RECESSIVE;
    } else if (place >= data) {
        uint8_t *byte = &frame->data[(place - data) / 8];
        *byte = (uint8_t)((unsigned)*byte << 1 | (unsigned)level);
    } else if (place >= data - DLC_LEVELS) {
        frame->dlc = frame->dlc << 1 | (unsigned)level;
    }
}

static void take_unstuffed(struct reception *in, enum level level)
{
    if (is_in_head(in)) {
        take_head_level(&in->frame, in->levels, level);
        in->crc = crc_step(in->crc, level);
    } else {
        in->sequence = (uint16_t)((unsigned)in->sequence << 1 | (unsigned)level);
    }
    in->levels++;
}

bool receive(struct reception *in, enum level level)
{
    if (!is_stuff_place(in))
        take_unstuffed(in, level);
    else if (level == in->last)
        return false;
    in->run = level == in->last ? in->run + 1 : 1;
    in->last = level;
    return true;
}
