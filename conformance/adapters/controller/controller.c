/* Medium access control: what the controller drives in each phase, and what a level on the bus changes. The rules are
 * those of docs/ACCESS.md. */

#include "controller.h"

#include <string.h>

enum {
    JOINING_LEVELS = 11,
    FLAG_LEVELS = 6,
    RUN_LEVELS = 8,             /* after a flag, every eighth dominant level counts */
    MOST_OWN_OVERLOADS = 2,
    OCCURRENCE_LEVELS = 11,
    OCCURRENCES = 128
};

static void enter(struct controller *can, enum phase phase)
{
    can->phase = phase;
    can->place = 0;
}

/* Error and overload flags */

static void count_eight(struct controller *can)
{
    if (can->is_sender)
        count_sender(&can->counters);
    else
        count_receiver(&can->counters, 8);
}

/* Begins an error flag. Whether it is passive depends on the counters before the error is counted. */
static void begin_error_flag(struct controller *can, bool unacknowledged)
{
    if (is_passive(&can->counters)) {
        enter(can, PASSIVE_FLAG);
        can->flag_run = 0;
        can->unacknowledged = unacknowledged;
    } else {
        enter(can, ERROR_FLAG);
    }
}

static enum event error(struct controller *can, enum event kind)
{
    begin_error_flag(can, false);
    if (can->is_sender)
        count_sender(&can->counters);
    else
        count_receiver(&can->counters, 1);
    return kind;
}

/* A dominant level in a field of fixed form, which is recessive. */
static enum event form_error(struct controller *can)
{
    return error(can, can->is_sender ? BIT_ERROR : FORM_ERROR);
}

static enum event begin_overload_flag(struct controller *can)
{
    enter(can, OVERLOAD_FLAG);
    return OVERLOAD;
}

/* A bit of an own active error flag or overload flag: dominant, or else a bit error. */
static enum event take_flag(struct controller *can, enum level seen)
{
    if (seen == RECESSIVE) {
        begin_error_flag(can, false);
        count_eight(can);
        return BIT_ERROR;
    }
    if (++can->place == FLAG_LEVELS) {
        can->first_counts = can->phase == ERROR_FLAG && !can->is_sender;
        can->dominant = 0;
        enter(can, AFTER_FLAG);
    }
    return NOTHING;
}

static enum event take_passive_flag(struct controller *can, enum level seen)
{
    bool repeats = can->flag_run > 0 && seen == can->flag_last;

    can->flag_run = repeats ? can->flag_run + 1 : 1;
    can->flag_last = seen;
    if (can->unacknowledged && seen == DOMINANT) {
        can->unacknowledged = false;
        count_sender(&can->counters);
    }
    if (can->flag_run == FLAG_LEVELS) {
        can->first_counts = !can->is_sender;
        can->dominant = 0;
        enter(can, AFTER_FLAG);
    }
    return NOTHING;
}

static enum event take_after_flag(struct controller *can, enum level seen)
{
    if (seen == RECESSIVE) {
        enter(can, DELIMITER);
        can->place = 1;
        return NOTHING;
    }
    can->dominant++;
    if (can->first_counts && can->dominant == 1)
        count_receiver(&can->counters, 8);
    if (can->dominant % RUN_LEVELS == 0)
        count_eight(can);
    return NOTHING;
}

/* Between frames */

/* After the end of a frame or a delimiter: intermission, or a requested overload frame instead. */
static enum event enter_intermission(struct controller *can)
{
    if (!can->is_sender && can->overloads_requested > 0 && can->overloads_sent < MOST_OWN_OVERLOADS) {
        can->overloads_requested--;
        can->overloads_sent++;
        return begin_overload_flag(can);
    }
    enter(can, INTERMISSION);
    return NOTHING;
}

static void rest(struct controller *can)
{
    can->is_sender = false;
    enter(can, IDLE);
}

/* A start of frame is on the bus. It is the controller's own if a frame is pending and may be sent. */
static void begin_frame(struct controller *can, bool may_send)
{
    can->overloads_sent = 0;
    can->is_sender = may_send && can->queue.length > 0;
    if (can->is_sender) {
        can->sending = *first_frame(&can->queue);
        make_transmission(&can->out, &can->sending);
        can->out.place = 1;
    }
    begin_reception(&can->in);
    enter(can, STUFFED_PART);
}

static enum event take_joining(struct controller *can, enum level seen)
{
    can->place = seen == RECESSIVE ? can->place + 1 : 0;
    if (can->place == JOINING_LEVELS)
        enter(can, IDLE);
    return NOTHING;
}

static enum event take_idle(struct controller *can, enum level seen)
{
    if (seen == DOMINANT) {
        begin_frame(can, true);
        return NOTHING;
    }
    if (can->queue.length == 0)
        return NOTHING;
    /* bit error: its own start of frame is not on the bus */
    can->sending = *first_frame(&can->queue);
    can->is_sender = true;
    return error(can, BIT_ERROR);
}

static enum event take_delimiter(struct controller *can, enum level seen)
{
    bool is_last = can->place == 7;

    if (seen == DOMINANT)
        return is_last ? begin_overload_flag(can) : error(can, FORM_ERROR);
    if (is_last)
        return enter_intermission(can);
    can->place++;
    return NOTHING;
}

static enum event take_intermission(struct controller *can, enum level seen)
{
    bool is_last = can->place == 2;
    bool is_held_back = can->is_sender && is_passive(&can->counters);

    if (seen == DOMINANT) {
        if (!is_last)
            return begin_overload_flag(can);
        begin_frame(can, !is_held_back);
        return NOTHING;
    }
    can->place++;
    if (is_last && is_held_back)
        enter(can, SUSPEND);
    else if (is_last)
        rest(can);
    return NOTHING;
}

static enum event take_suspend(struct controller *can, enum level seen)
{
    if (seen == DOMINANT)
        begin_frame(can, false);
    else if (++can->place == 8)
        rest(can);
    return NOTHING;
}

static enum event take_bus_off(struct controller *can, enum level seen)
{
    can->place = seen == RECESSIVE ? can->place + 1 : 0;
    if (can->place == OCCURRENCE_LEVELS) {
        can->place = 0;
        can->occurrences++;
    }
    if (can->occurrences < OCCURRENCES)
        return NOTHING;
    clear_counters(&can->counters);
    rest(can);
    return RECOVERED;
}

/* In a frame */

static enum event take_received_level(struct controller *can, enum level seen)
{
    if (!receive(&can->in, seen))
        return error(can, STUFF_ERROR);
    if (has_ended(&can->in)) {
        can->agrees = can->in.crc == can->in.sequence;
        enter(can, CRC_DELIMITER);
    }
    return NOTHING;
}

/* The bus has another level than the own frame at this place. */
static enum event take_overridden(struct controller *can, unsigned place, enum level seen)
{
    const struct transmission *out = &can->out;

    if (out->stuff[place]) {
        if (seen == RECESSIVE || place > out->rtr)
            return error(can, STUFF_ERROR);
        begin_error_flag(can, false);
        return STUFF_ERROR;
    }
    if (seen == RECESSIVE || place > out->rtr)
        return error(can, BIT_ERROR);
    can->is_sender = false;
    take_received_level(can, seen);
    return LOST;
}

static enum event take_stuffed_part(struct controller *can, enum level seen)
{
    if (can->is_sender) {
        unsigned place = can->out.place++;
        if (seen != can->out.levels[place])
            return take_overridden(can, place, seen);
    }
    return take_received_level(can, seen);
}

static enum event take_crc_delimiter(struct controller *can, enum level seen)
{
    if (seen == DOMINANT)
        return form_error(can);
    enter(can, ACK_SLOT);
    return NOTHING;
}

static enum event take_ack_slot(struct controller *can, enum level seen)
{
    if (can->is_sender && seen == RECESSIVE) {
        if (!is_passive(&can->counters))
            return error(can, ACK_ERROR);
        begin_error_flag(can, true);
        return ACK_ERROR;
    }
    if (!can->is_sender && can->agrees) {
        if (seen == RECESSIVE)
            return error(can, BIT_ERROR);
        count_received(&can->counters);
    }
    enter(can, ACK_DELIMITER);
    return NOTHING;
}

static enum event take_ack_delimiter(struct controller *can, enum level seen)
{
    if (seen == DOMINANT)
        return form_error(can);
    if (!can->is_sender && !can->agrees)
        return error(can, CRC_ERROR);
    enter(can, END_OF_FRAME);
    return NOTHING;
}

static enum event take_sender_end(struct controller *can, enum level seen)
{
    if (seen == DOMINANT)
        return error(can, BIT_ERROR);
    if (++can->place < 7)
        return NOTHING;
    count_sent(&can->counters);
    drop_frame(&can->queue, &can->sending);
    can->event_frame = can->sending;
    enter_intermission(can);
    return SENT;
}

static enum event take_receiver_end(struct controller *can, enum level seen)
{
    bool is_last = can->place == 6;

    if (seen == DOMINANT)
        return is_last ? begin_overload_flag(can) : error(can, FORM_ERROR);
    if (is_last)
        return enter_intermission(can);
    if (++can->place < 6)
        return NOTHING;
    can->event_frame = can->in.frame;
    return RECEIVED;
}

/* A bit time */

void can_begin(struct controller *can, bool joining)
{
    memset(can, 0, sizeof *can);
    enter(can, joining ? JOINING : IDLE);
}

bool can_offer(struct controller *can, const struct frame *frame)
{
    return put_frame(&can->queue, frame);
}

void can_hold(struct controller *can, unsigned overloads)
{
    can->overloads_requested = overloads;
}

enum level can_drives(const struct controller *can)
{
    switch (can->phase) {
    case IDLE:
        return can->queue.length > 0 ? DOMINANT : RECESSIVE;
    case STUFFED_PART:
        return can->is_sender ? can->out.levels[can->out.place] : RECESSIVE;
    case ACK_SLOT:
        return !can->is_sender && can->agrees ? DOMINANT : RECESSIVE;
    case ERROR_FLAG:
    case OVERLOAD_FLAG:
        return DOMINANT;
    default:
        return RECESSIVE;
    }
}

static enum event take_level(struct controller *can, enum level seen)
{
    switch (can->phase) {
    case JOINING:
        return take_joining(can, seen);
    case IDLE:
        return take_idle(can, seen);
    case STUFFED_PART:
        return take_stuffed_part(can, seen);
    case CRC_DELIMITER:
        return take_crc_delimiter(can, seen);
    case ACK_SLOT:
        return take_ack_slot(can, seen);
    case ACK_DELIMITER:
        return take_ack_delimiter(can, seen);
    case END_OF_FRAME:
        return can->is_sender ? take_sender_end(can, seen) : take_receiver_end(can, seen);
    case ERROR_FLAG:
    case OVERLOAD_FLAG:
        return take_flag(can, seen);
    case PASSIVE_FLAG:
        return take_passive_flag(can, seen);
    case AFTER_FLAG:
        return take_after_flag(can, seen);
    case DELIMITER:
        return take_delimiter(can, seen);
    case INTERMISSION:
        return take_intermission(can, seen);
    case SUSPEND:
        return take_suspend(can, seen);
    case BUS_OFF:
        return take_bus_off(can, seen);
    }
    return NOTHING;
}

enum event can_sample(struct controller *can, enum level seen)
{
    enum event event = take_level(can, seen);

    if (can->phase == BUS_OFF || !is_off(&can->counters))
        return event;
    enter(can, BUS_OFF);
    can->is_sender = false;
    can->occurrences = 0;
    return WENT_OFF;
}
