/* A plain decoder for classical CAN traces, independent of the crates: it reads a trace on standard input and writes a
 * line for each frame or fault to standard output. It uses only the C library. bench/decode compares the speed and the
 * output of canbit with those of this decoder. */

#include <inttypes.h>
#include <stdbool.h>
#include <stdint.h>
#include <stdio.h>
#include <stdlib.h>

enum {
    LONGEST = 118,   /* unstuffed levels of the longest frame, to the end of its CRC sequence */
    ROW_OF_REST = 11 /* recessive levels in a row, after which a new frame may begin */
};

enum phase {
    IDLE,  /* between frames */
    FRONT, /* in the stuffed part of a frame */
    TAIL,  /* after it: delimiters, ACK slot, end of frame */
    LOST   /* after a fault */
};

struct decoder {
    enum phase phase;
    uint64_t place; /* of the level that is read, from 0 */
    uint64_t start; /* of the frame */
    uint8_t levels[LONGEST];
    unsigned count;  /* of the unstuffed levels */
    unsigned length; /* how many the frame has, or 0 if that is not known yet */
    uint8_t last;
    unsigned run; /* of equal levels, the last one among them */
    unsigned heard; /* levels of the tail */
    bool acknowledged;
    unsigned row; /* of recessive levels after a fault */
};

static unsigned number(const uint8_t *levels, unsigned count)
{
    unsigned value = 0;
    for (unsigned place = 0; place < count; place++)
        value = value << 1 | levels[place];
    return value;
}

static bool is_extended(const struct decoder *decoder)
{
    return decoder->levels[13] == 1;
}

/* Sets how many unstuffed levels the frame has, if the last level ends its data length code. */
static void learn_length(struct decoder *decoder)
{
    bool extended = is_extended(decoder);
    unsigned rtr = extended ? 32 : 12, code = extended ? 35 : 15, base = extended ? 54 : 34;
    if (decoder->count != code + 4)
        return;
    unsigned dlc = number(decoder->levels + code, 4);
    decoder->length = base + (decoder->levels[rtr] == 1 ? 0 : 8 * (dlc < 8 ? dlc : 8));
}

static unsigned crc_sequence(const uint8_t *levels, unsigned count)
{
    unsigned check = 0;
    for (unsigned place = 0; place < count; place++) {
        unsigned feedback = levels[place] ^ (check >> 14 & 1);
        check = check << 1 & 0x7fff;
        if (feedback)
            check ^= 0x4599;
    }
    return check;
}

static void search(struct decoder *decoder, uint8_t level)
{
    decoder->row = level == 1 ? decoder->row + 1 : 0;
    if (decoder->row == ROW_OF_REST)
        decoder->phase = IDLE;
}

static void print_fault(const struct decoder *decoder, const char *kind)
{
    printf("%" PRIu64 " fault %s at %" PRIu64 "\n", decoder->start, kind, decoder->place);
}

/* Writes the last `count` hexadecimal digits of a number, and returns where they end. */
static char *put_digits(char *text, unsigned value, unsigned count)
{
    for (unsigned place = count; place-- > 0;)
        *text++ = "0123456789abcdef"[value >> 4 * place & 15];
    return text;
}

static char *put_word(char *text, const char *word)
{
    while (*word)
        *text++ = *word++;
    return text;
}

/* The level at this place is wrong; the search for an idle bus begins with it. */
static void lose(struct decoder *decoder, const char *kind, uint8_t level)
{
    print_fault(decoder, kind);
    decoder->phase = LOST;
    decoder->row = 0;
    search(decoder, level);
}

static void begin(struct decoder *decoder)
{
    decoder->phase = FRONT;
    decoder->start = decoder->place;
    decoder->levels[0] = 0;
    decoder->count = 1;
    decoder->length = 0;
    decoder->last = 0;
    decoder->run = 1;
}

static void end_front(struct decoder *decoder, uint8_t level)
{
    unsigned head = decoder->count - 15;
    if (crc_sequence(decoder->levels, head) != number(decoder->levels + head, 15)) {
        lose(decoder, "C4", level);
        return;
    }
    decoder->phase = TAIL;
    decoder->heard = 0;
    decoder->acknowledged = false;
}

static void hear_front(struct decoder *decoder, uint8_t level)
{
    if (decoder->run == 5) {
        if (level == decoder->last) {
            lose(decoder, "C3", level);
            return;
        }
        decoder->run = 1;
    } else {
        decoder->levels[decoder->count++] = level;
        decoder->run = level == decoder->last ? decoder->run + 1 : 1;
        if (decoder->length == 0 && decoder->count >= 19)
            learn_length(decoder);
    }
    decoder->last = level;
    if (decoder->run < 5 && decoder->length == decoder->count)
        end_front(decoder, level);
}

static void print_frame(const struct decoder *decoder, uint8_t last)
{
    const uint8_t *levels = decoder->levels;
    bool extended = is_extended(decoder);
    unsigned code = extended ? 35 : 15, data = code + 4, end = decoder->count - 15, dlc = number(levels + code, 4);
    char line[96], *text = line + sprintf(line, "%" PRIu64, decoder->start);
    if (extended)
        text = put_digits(put_word(text, " E "), number(levels + 1, 11) << 18 | number(levels + 14, 18), 8);
    else
        text = put_digits(put_word(text, " S "), number(levels + 1, 11), 3);
    text = put_word(text, levels[extended ? 32 : 12] ? " R " : " D ");
    if (dlc > 9)
        *text++ = '1';
    *text++ = (char)('0' + dlc % 10);
    if (data < end)
        *text++ = ' ';
    for (; data < end; data += 8)
        text = put_digits(text, number(levels + data, 8), 2);
    text = put_word(text, decoder->acknowledged ? " ack" : " noack");
    if (extended && levels[12] == 0)
        text = put_word(text, " srr0");
    if (extended && levels[33] == 1)
        text = put_word(text, " r1");
    if (levels[extended ? 34 : 14] == 1)
        text = put_word(text, " r0");
    if (last == 0)
        text = put_word(text, " eof0");
    *text++ = '\n';
    fwrite(line, 1, (size_t)(text - line), stdout);
}

static void hear_tail(struct decoder *decoder, uint8_t level)
{
    if (decoder->heard == 1) {
        decoder->acknowledged = level == 0;
    } else if (decoder->heard == 9) {
        print_frame(decoder, level);
        decoder->phase = IDLE;
    } else if (level == 0) {
        lose(decoder, "C5", level);
    }
    decoder->heard++;
}

static void hear(struct decoder *decoder, uint8_t level)
{
    switch (decoder->phase) {
    case IDLE:
        if (level == 0)
            begin(decoder);
        break;
    case FRONT:
        hear_front(decoder, level);
        break;
    case TAIL:
        hear_tail(decoder, level);
        break;
    case LOST:
        search(decoder, level);
        break;
    }
    decoder->place++;
}

int main(void)
{
    static unsigned char buffer[1 << 16];
    struct decoder decoder = {.phase = IDLE};
    uint64_t read = 0;
    size_t count;
    while ((count = fread(buffer, 1, sizeof buffer, stdin)) > 0) {
        for (size_t at = 0; at < count; at++) {
            unsigned char byte = buffer[at];
            if (byte == '0' || byte == '1') {
                hear(&decoder, (uint8_t)(byte - '0'));
            } else if (byte != ' ' && byte != '\n' && byte != '\r') {
                fflush(stdout);
                fprintf(stderr, "bad byte %" PRIu64 "\n", read + at);
                return EXIT_FAILURE;
            }
        }
        read += count;
    }
    if (ferror(stdin))
        return EXIT_FAILURE;
    if (decoder.phase == FRONT || decoder.phase == TAIL)
        print_fault(&decoder, "C1");
    return fflush(stdout) == 0 ? EXIT_SUCCESS : EXIT_FAILURE;
}
