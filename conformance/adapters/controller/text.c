#include "text.h"

#include <string.h>

enum { STANDARD_DIGITS = 3, EXTENDED_DIGITS = 8 };

static const uint32_t highest_standard = 0x7ff;
static const uint32_t highest_extended = 0x1fffffff;

/* Takes this character from the front of the text, if it is there. */
static bool take(const char **text, char wanted)
{
    if (**text != wanted)
        return false;
    ++*text;
    return true;
}

/* Takes one of the two characters. `is_second` says which. */
static bool take_either(const char **text, char first, char second, bool *is_second)
{
    *is_second = **text == second;
    return take(text, first) || take(text, second);
}

static bool take_hex(const char **text, unsigned digits, uint32_t *number)
{
    static const char known[] = "0123456789abcdef";

    *number = 0;
    for (; digits > 0; digits--) {
        const char *digit = strchr(known, **text);
        if (**text == '\0' || digit == NULL)
            return false;
        *number = *number << 4 | (uint32_t)(digit - known);
        ++*text;
    }
    return true;
}

/* A number from 0 to 15 without leading zeros. */
static bool take_dlc(const char **text, unsigned *dlc)
{
    if (**text < '0' || **text > '9')
        return false;
    *dlc = (unsigned)(*(*text)++ - '0');
    if (*dlc == 1 && **text >= '0' && **text <= '5')
        *dlc = 10 + (unsigned)(*(*text)++ - '0');
    return true;
}

static bool take_data(const char **text, struct frame *frame)
{
    if (data_bytes(frame) > 0 && !take(text, ' '))
        return false;
    for (unsigned byte = 0; byte < data_bytes(frame); byte++) {
        uint32_t value;
        if (!take_hex(text, 2, &value))
            return false;
        frame->data[byte] = (uint8_t)value;
    }
    return true;
}

bool read_frame(const char *text, struct frame *frame)
{
    memset(frame, 0, sizeof *frame);
    return take_either(&text, 'S', 'E', &frame->extended)
        && take(&text, ' ')
        && take_hex(&text, frame->extended ? EXTENDED_DIGITS : STANDARD_DIGITS, &frame->identifier)
        && frame->identifier <= (frame->extended ? highest_extended : highest_standard)
        && take(&text, ' ')
        && take_either(&text, 'D', 'R', &frame->remote)
        && take(&text, ' ')
        && take_dlc(&text, &frame->dlc)
        && take_data(&text, frame)
        && *text == '\0';
}

void write_frame(FILE *out, const struct frame *frame)
{
    int digits = frame->extended ? EXTENDED_DIGITS : STANDARD_DIGITS;

    fprintf(out, "%c %0*lx %c %u", frame->extended ? 'E' : 'S', digits, (unsigned long)frame->identifier,
            frame->remote ? 'R' : 'D', frame->dlc);
    for (unsigned byte = 0; byte < data_bytes(frame); byte++)
        fprintf(out, "%s%02x", byte == 0 ? " " : "", (unsigned)frame->data[byte]);
}
