/* An adapter of the conformance kit with the small controller inside. It speaks the line protocol of
 * conformance/README.md over standard input and output. To build it:
 *
 *     cc -std=c99 -O2 -o controller conformance/adapters/controller/[a-z]*.c
 */

#include <stdio.h>
#include <stdlib.h>
#include <string.h>

#include "controller.h"
#include "text.h"

enum { LINE_SIZE = 8194 };      /* the longest line, its line end and a zero */

static const char *const event_words[] = {
    [SENT] = "sent ",
    [RECEIVED] = "received ",
    [LOST] = "lost",
    [BIT_ERROR] = "bit error",
    [STUFF_ERROR] = "stuff error",
    [CRC_ERROR] = "crc error",
    [FORM_ERROR] = "form error",
    [ACK_ERROR] = "ack error",
    [OVERLOAD] = "overload",
    [WENT_OFF] = "went off",
    [RECOVERED] = "recovered",
};

static void refuse(const char *why)
{
    printf("error %s\n", why);
}

static void print_event(size_t place, enum event event, const struct frame *frame)
{
    printf("event %lu %s", (unsigned long)place, event_words[event]);
    if (event == SENT || event == RECEIVED)
        write_frame(stdout, frame);
    putchar('\n');
}

/* Plays bit times. `0` and `1` are the tester's levels; with `f` the controller sees a recessive level. */
static void play(struct controller *can, const char *levels)
{
    static char drove[LINE_SIZE];
    size_t bits = strspn(levels, "01f");

    if (bits == 0 || levels[bits] != '\0') {
        refuse("expected levels: 0, 1 or f");
        return;
    }
    for (size_t place = 0; place < bits; place++) {
        enum level driven = can_drives(can);
        enum level seen = levels[place] == '0' ? DOMINANT : levels[place] == 'f' ? RECESSIVE : driven;
        enum event event = can_sample(can, seen);

        drove[place] = driven == DOMINANT ? '0' : '1';
        if (event != NOTHING)
            print_event(place, event, &can->event_frame);
    }
    drove[bits] = '\0';
    printf("drove %s\n", drove);
}

static void begin_case(struct controller *can, const char *words)
{
    const char *start = strchr(words, ' ');

    if (start == NULL || (strcmp(start, " idle") != 0 && strcmp(start, " joining") != 0)) {
        refuse("expected a name, and idle or joining");
        return;
    }
    can_begin(can, strcmp(start, " joining") == 0);
    puts("ready");
}

static void offer(struct controller *can, const char *text)
{
    struct frame frame;

    if (!read_frame(text, &frame))
        refuse("expected a frame, such as S 123 D 1 c3");
    else if (!can_offer(can, &frame))
        refuse("the queue is full");
}

static void hold(struct controller *can, const char *number)
{
    if (strlen(number) == 1 && *number >= '0' && *number <= '2')
        can_hold(can, (unsigned)(*number - '0'));
    else
        refuse("expected 0 to 2 overload frames");
}

static void print_state(const struct controller *can)
{
    const struct counters *counters = &can->counters;
    const char *state = is_off(counters) ? "off" : is_passive(counters) ? "passive" : "active";

    printf("state %s %u %u\n", state, counters->tec, counters->rec);
}

static void answer(struct controller *can, const char *line)
{
    if (strncmp(line, "case ", 5) == 0)
        begin_case(can, line + 5);
    else if (strncmp(line, "offer ", 6) == 0)
        offer(can, line + 6);
    else if (strncmp(line, "hold ", 5) == 0)
        hold(can, line + 5);
    else if (strncmp(line, "play ", 5) == 0)
        play(can, line + 5);
    else if (strcmp(line, "end") == 0)
        print_state(can);
    else
        refuse("unknown command");
}

int main(void)
{
    static struct controller can;
    static char line[LINE_SIZE];

    can_begin(&can, false);
    puts("can-kit 1 small controller in C");
    fflush(stdout);
    while (fgets(line, sizeof line, stdin) != NULL) {
        line[strcspn(line, "\n")] = '\0';
        if (strcmp(line, "quit") == 0)
            return EXIT_SUCCESS;
        answer(&can, line);
        fflush(stdout);
    }
    return EXIT_FAILURE;
}
