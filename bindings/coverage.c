/*
 * Rule coverage: which rules of docs/ACCESS.md a port has applied, over the public calls of riddlesage.h alone. It
 * counts what these calls return before and after a bit time (docs/COVERAGE.md). Nothing here is proved, and no rule of
 * CAN is here.
 */
#include "riddlesage.h"

#include "platform.h"

#include <stdio.h>

/* The rules, in the order of docs/ACCESS.md. The library names those of the first half in a standing. */
enum rule {
  JOINING,
  START_OF_FRAME,
  KEPT_FRAME,
  INTERMISSION,
  SUSPEND_TRANSMISSION,
  BUS_OFF,
  ARBITRATION,
  STUFF_PLACES,
  OVERRIDDEN_STUFF_BIT,
  END_OF_THE_STUFFED_PART,
  FIXED_FORM,
  ACKNOWLEDGEMENT,
  UNACKNOWLEDGED_PASSIVE_SENDER,
  REFUSED_CRC_SEQUENCE,
  FRAME_VALIDATION,
  DOMINANT_LAST_LEVEL,
  ERROR_FLAGS,
  ERROR_IN_AN_OWN_FLAG,
  AFTER_A_FLAG,
  DELIMITER,
  OVERLOAD_FLAGS,
  OWN_OVERLOAD_FRAMES
};

/* The role and error state before a bit time. */
enum column { TRANSMITTER_ACTIVE, TRANSMITTER_PASSIVE, RECEIVER_ACTIVE, RECEIVER_PASSIVE, NO_COLUMN };

/* A combination that can occur, and a short case of the conformance kit in which it does. */
struct item {
  uint8_t rule, column;
  const char *name, *reached_by;
};

#define TA(rule, name, by) { rule, TRANSMITTER_ACTIVE, name ", transmitter active", by }
#define TP(rule, name, by) { rule, TRANSMITTER_PASSIVE, name ", transmitter passive", by }
#define RA(rule, name, by) { rule, RECEIVER_ACTIVE, name ", receiver active", by }
#define RP(rule, name, by) { rule, RECEIVER_PASSIVE, name ", receiver passive", by }

/* clang-format off */
static const struct item items[RIDDLESAGE_COVERAGE_ITEMS] = {
  RA(JOINING, "Joining", "joining-frame-after-ten"),
  TA(START_OF_FRAME, "Start of frame", "start-first"),
  TP(START_OF_FRAME, "Start of frame", "passive-limit-tec-as-receiver"),
  RA(START_OF_FRAME, "Start of frame", "rx-stuff-error-extended-base-dominant"),
  RP(START_OF_FRAME, "Start of frame", "error-delimiter-form-error-rx-2"),
  TA(KEPT_FRAME, "Kept frame", "start-first"),
  TP(KEPT_FRAME, "Kept frame", "passive-limit-tec-as-receiver"),
  TA(INTERMISSION, "Intermission", "start-first"),
  TP(INTERMISSION, "Intermission", "passive-limit-tec-as-receiver"),
  RA(INTERMISSION, "Intermission", "rx-stuff-error-extended-base-dominant"),
  RP(INTERMISSION, "Intermission", "passive-limit-rec-127"),
  TP(SUSPEND_TRANSMISSION, "Suspend transmission", "passive-limit-tec-as-receiver"),
  { BUS_OFF, NO_COLUMN, "Bus off", "bus-off-limit-256-by-bit-error" },
  TA(ARBITRATION, "Arbitration", "start-first"),
  TP(ARBITRATION, "Arbitration", "passive-limit-tec-as-receiver"),
  TA(STUFF_PLACES, "Stuff places", "start-first"),
  TP(STUFF_PLACES, "Stuff places", "passive-limit-tec-as-receiver"),
  RA(STUFF_PLACES, "Stuff places", "rx-stuff-error-extended-base-dominant"),
  RP(STUFF_PLACES, "Stuff places", "error-delimiter-form-error-rx-2"),
  TA(OVERRIDDEN_STUFF_BIT, "Overridden stuff bit", "arbitration-stuff-standard-first"),
  TP(OVERRIDDEN_STUFF_BIT, "Overridden stuff bit", "arbitration-stuff-standard-passive"),
  TA(END_OF_THE_STUFFED_PART, "End of the stuffed part", "start-first"),
  TP(END_OF_THE_STUFFED_PART, "End of the stuffed part", "passive-limit-tec-as-receiver"),
  RA(END_OF_THE_STUFFED_PART, "End of the stuffed part", "rx-dlc-remote-15"),
  RP(END_OF_THE_STUFFED_PART, "End of the stuffed part", "passive-receiver-frame"),
  TA(FIXED_FORM, "Fixed form", "start-first"),
  TP(FIXED_FORM, "Fixed form", "passive-limit-tec-as-receiver"),
  RA(FIXED_FORM, "Fixed form", "rx-dlc-remote-15"),
  RP(FIXED_FORM, "Fixed form", "passive-receiver-frame"),
  TA(ACKNOWLEDGEMENT, "Acknowledgement", "start-first"),
  TP(ACKNOWLEDGEMENT, "Acknowledgement", "passive-limit-tec-as-receiver"),
  RA(ACKNOWLEDGEMENT, "Acknowledgement", "rx-dlc-remote-15"),
  RP(ACKNOWLEDGEMENT, "Acknowledgement", "passive-receiver-frame"),
  TP(UNACKNOWLEDGED_PASSIVE_SENDER, "Unacknowledged passive sender", "bus-off-limit-256-by-acknowledgement"),
  RA(REFUSED_CRC_SEQUENCE, "Refused CRC sequence", "rx-crc-error-data"),
  RP(REFUSED_CRC_SEQUENCE, "Refused CRC sequence", "passive-receiver-crc"),
  TA(FRAME_VALIDATION, "Frame validation", "start-first"),
  TP(FRAME_VALIDATION, "Frame validation", "passive-limit-tec-as-receiver"),
  RA(FRAME_VALIDATION, "Frame validation", "rx-dlc-remote-15"),
  RP(FRAME_VALIDATION, "Frame validation", "passive-receiver-frame"),
  RA(DOMINANT_LAST_LEVEL, "Dominant last level", "overload-last-eof-standard"),
  RP(DOMINANT_LAST_LEVEL, "Dominant last level", "passive-receiver-last-eof"),
  TA(ERROR_FLAGS, "Error flags", "tx-bit-error-recessive-sof"),
  TP(ERROR_FLAGS, "Error flags", "passive-flag-tx-recessive"),
  RA(ERROR_FLAGS, "Error flags", "rx-stuff-error-extended-base-dominant"),
  RP(ERROR_FLAGS, "Error flags", "passive-limit-rec-127"),
  TA(ERROR_IN_AN_OWN_FLAG, "Error in an own flag", "count-tx-overload-flag-bit"),
  TP(ERROR_IN_AN_OWN_FLAG, "Error in an own flag", "bus-off-limit-255-by-overload-flag"),
  RA(ERROR_IN_AN_OWN_FLAG, "Error in an own flag", "error-flag-bit-error-rx-1"),
  RP(ERROR_IN_AN_OWN_FLAG, "Error in an own flag", "passive-receiver-overload-flag-bit"),
  TA(AFTER_A_FLAG, "After a flag", "tx-bit-error-recessive-sof"),
  TP(AFTER_A_FLAG, "After a flag", "passive-limit-tec-as-receiver"),
  RA(AFTER_A_FLAG, "After a flag", "rx-stuff-error-extended-base-dominant"),
  RP(AFTER_A_FLAG, "After a flag", "passive-limit-rec-127"),
  TA(DELIMITER, "Delimiter", "tx-bit-error-recessive-sof"),
  TP(DELIMITER, "Delimiter", "passive-limit-tec-as-receiver"),
  RA(DELIMITER, "Delimiter", "rx-stuff-error-extended-base-dominant"),
  RP(DELIMITER, "Delimiter", "passive-limit-rec-127"),
  TA(OVERLOAD_FLAGS, "Overload flags", "count-tx-overload-flag-bit"),
  TP(OVERLOAD_FLAGS, "Overload flags", "passive-flag-overload-tx-delimiter-8"),
  RA(OVERLOAD_FLAGS, "Overload flags", "overload-own-after-an-error"),
  RP(OVERLOAD_FLAGS, "Overload flags", "passive-flag-overload-rx-delimiter-8"),
  RA(OWN_OVERLOAD_FRAMES, "Own overload frames", "overload-own-after-an-error"),
  RP(OWN_OVERLOAD_FRAMES, "Own overload frames", "passive-receiver-own-overload"),
};
/* clang-format on */

/* A bit time: what the port was before it, what it did, and what it is after it. */
struct bit_time {
  riddlesage_standing before, after;
  uint16_t transmit_before, transmit_after;
  uint8_t state, drives, samples, event;
};

static void count(riddlesage_coverage *coverage, enum rule rule, enum column column)
{
  size_t place;
  for (place = 0; place < RIDDLESAGE_COVERAGE_ITEMS; place++)
    if (items[place].rule == rule && items[place].column == column)
      coverage->counts[place]++;
}

static enum column column_of(uint8_t sender, uint8_t state)
{
  bool passive = state == RIDDLESAGE_ERROR_PASSIVE;

  if (state == RIDDLESAGE_BUS_OFF)
    return NO_COLUMN;
  if (sender != 0)
    return passive ? TRANSMITTER_PASSIVE : TRANSMITTER_ACTIVE;
  return passive ? RECEIVER_PASSIVE : RECEIVER_ACTIVE;
}

/* Whether the bit was a stuff bit: a receiver gets no further in the frame with it, or reports a stuff error. */
static bool is_stuff_bit(const struct bit_time *bit)
{
  bool stays = bit->after.phase == RIDDLESAGE_PHASE_STUFFED_PART && bit->after.place == bit->before.place;
  return bit->before.sender != 0 || stays || bit->event == RIDDLESAGE_STUFF_ERROR;
}

/* Counts the rule that decides in the bit time, as the library names it. An idle bus, and a bit that is no stuff bit,
 * count for nothing. */
static void count_deciding(riddlesage_coverage *coverage, const struct bit_time *bit)
{
  static const uint8_t rules[] = {
    [RIDDLESAGE_RULE_JOINING] = JOINING,
    [RIDDLESAGE_RULE_START_OF_FRAME] = START_OF_FRAME,
    [RIDDLESAGE_RULE_KEPT_FRAME] = KEPT_FRAME,
    [RIDDLESAGE_RULE_INTERMISSION] = INTERMISSION,
    [RIDDLESAGE_RULE_SUSPEND_TRANSMISSION] = SUSPEND_TRANSMISSION,
    [RIDDLESAGE_RULE_BUS_OFF] = BUS_OFF,
    [RIDDLESAGE_RULE_ARBITRATION] = ARBITRATION,
    [RIDDLESAGE_RULE_STUFF_PLACES] = STUFF_PLACES,
    [RIDDLESAGE_RULE_FIXED_FORM] = FIXED_FORM,
    [RIDDLESAGE_RULE_ACKNOWLEDGEMENT] = ACKNOWLEDGEMENT,
    [RIDDLESAGE_RULE_ERROR_FLAGS] = ERROR_FLAGS,
    [RIDDLESAGE_RULE_AFTER_A_FLAG] = AFTER_A_FLAG,
    [RIDDLESAGE_RULE_DELIMITER] = DELIMITER,
    [RIDDLESAGE_RULE_OVERLOAD_FLAGS] = OVERLOAD_FLAGS,
  };
  bool is_start = bit->before.rule == RIDDLESAGE_RULE_START_OF_FRAME;

  if (is_start && bit->drives == RIDDLESAGE_RECESSIVE && bit->samples == RIDDLESAGE_RECESSIVE)
    return;
  if (bit->before.rule == RIDDLESAGE_RULE_STUFF_PLACES && !is_stuff_bit(bit))
    return;
  count(coverage, (enum rule)rules[bit->before.rule],
        column_of(is_start ? bit->after.sender : bit->before.sender, bit->state));
}

/* Counts the rules that no standing names: the event, the counters or the phase shows them. */
static void count_shown(riddlesage_coverage *coverage, const struct bit_time *bit)
{
  enum column column = column_of(bit->before.sender, bit->state);
  bool dominant = bit->samples == RIDDLESAGE_DOMINANT;
  uint8_t phase = bit->before.phase, event = bit->event;

  if (phase == RIDDLESAGE_PHASE_CRC_DELIMITER)
    count(coverage, END_OF_THE_STUFFED_PART, column);
  if (event == RIDDLESAGE_STUFF_ERROR && bit->before.sender != 0 && bit->transmit_after == bit->transmit_before)
    count(coverage, OVERRIDDEN_STUFF_BIT, column);
  if (phase == RIDDLESAGE_PHASE_PASSIVE_FLAG && bit->transmit_after > bit->transmit_before)
    count(coverage, UNACKNOWLEDGED_PASSIVE_SENDER, column);
  if (event == RIDDLESAGE_CRC_ERROR)
    count(coverage, REFUSED_CRC_SEQUENCE, column);
  if (event == RIDDLESAGE_SENT || event == RIDDLESAGE_RECEIVED)
    count(coverage, FRAME_VALIDATION, column);
  if (phase == RIDDLESAGE_PHASE_END_OF_FRAME && event == RIDDLESAGE_OVERLOAD && dominant)
    count(coverage, DOMINANT_LAST_LEVEL, column);
  if ((phase == RIDDLESAGE_PHASE_ERROR_FLAG || phase == RIDDLESAGE_PHASE_OVERLOAD_FLAG) && !dominant)
    count(coverage, ERROR_IN_AN_OWN_FLAG, column);
  if (event == RIDDLESAGE_OVERLOAD && !dominant)
    count(coverage, OWN_OVERLOAD_FRAMES, column);
}

/* What the port is before a bit time. */
static riddlesage_status look(riddlesage_port *port, struct bit_time *bit)
{
  uint16_t receive;
  riddlesage_status status = riddlesage_port_phase(port, &bit->before);

  if (status == RIDDLESAGE_OK)
    status = riddlesage_port_state(port, &bit->state);
  if (status == RIDDLESAGE_OK)
    status = riddlesage_port_drive(port, &bit->drives);
  return status == RIDDLESAGE_OK ? riddlesage_port_counters(port, &bit->transmit_before, &receive) : status;
}

EXPORT riddlesage_status riddlesage_coverage_sample(riddlesage_port *port, riddlesage_coverage *coverage, uint8_t level,
                                                    uint8_t *event, riddlesage_frame *frame)
{
  struct bit_time bit;
  uint16_t receive;
  riddlesage_status status = look(port, &bit);

  if (status == RIDDLESAGE_OK && coverage == NULL)
    status = RIDDLESAGE_NULL_POINTER;
  if (status == RIDDLESAGE_OK)
    status = riddlesage_port_sample(port, level, event, frame);
  if (status != RIDDLESAGE_OK)
    return status;
  bit.samples = level;
  bit.event = *event;
  (void)riddlesage_port_phase(port, &bit.after);
  (void)riddlesage_port_counters(port, &bit.transmit_after, &receive);
  count_deciding(coverage, &bit);
  count_shown(coverage, &bit);
  return RIDDLESAGE_OK;
}

EXPORT const char *riddlesage_coverage_name(size_t item)
{
  return item < RIDDLESAGE_COVERAGE_ITEMS ? items[item].name : NULL;
}

EXPORT const char *riddlesage_coverage_case(size_t item)
{
  return item < RIDDLESAGE_COVERAGE_ITEMS ? items[item].reached_by : NULL;
}

EXPORT riddlesage_status riddlesage_coverage_line(const riddlesage_coverage *coverage, size_t item, char *line)
{
  const struct item *of = &items[item < RIDDLESAGE_COVERAGE_ITEMS ? item : 0];

  if (coverage == NULL || line == NULL)
    return RIDDLESAGE_NULL_POINTER;
  if (item >= RIDDLESAGE_COVERAGE_ITEMS)
    return RIDDLESAGE_NO_ENTRY;
  if (coverage->counts[item] > 0)
    snprintf(line, RIDDLESAGE_COVERAGE_LINE, "coverage %llu %s", (unsigned long long)coverage->counts[item], of->name);
  else
    snprintf(line, RIDDLESAGE_COVERAGE_LINE, "coverage 0 %s; case %s reaches it", of->name, of->reached_by);
  return RIDDLESAGE_OK;
}
