#include "frame.h"

unsigned data_bytes(const struct frame *frame)
{
    if (frame->remote)
        return 0;
    return frame->dlc > MOST_DATA_BYTES ? MOST_DATA_BYTES : frame->dlc;
}

unsigned rtr_place(bool extended)
{
    return extended ? EXTENDED_RTR_PLACE : BASE_RTR_PLACE;
}

unsigned data_place(const struct frame *frame)
{
    return rtr_place(frame->extended) + 1 + CONTROL_LEVELS;
}

unsigned head_levels(const struct frame *frame)
{
    return data_place(frame) + 8 * data_bytes(frame);
}

uint32_t base_identifier(const struct frame *frame)
{
    return frame->extended ? frame->identifier >> EXTENSION_LEVELS : frame->identifier;
}

uint32_t identifier_extension(const struct frame *frame)
{
    return frame->identifier & 0x3ffff;
}

/* From the highest bit on: eleven levels of the identifier, RTR or SRR, IDE, and in an extended frame eighteen levels
 * and RTR. In a standard frame the latter are 0: IDE has decided any comparison with an extended one. */
uint32_t arbitration_field(const struct frame *frame)
{
    uint32_t rtr = frame->remote ? 1 : 0;
    uint32_t base = base_identifier(frame) << 21;

    if (!frame->extended)
        return base | rtr << 20;
    return base | UINT32_C(3) << 19 | identifier_extension(frame) << 1 | rtr;
}
