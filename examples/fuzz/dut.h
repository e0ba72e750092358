/* The controller under test, as the fuzz target calls it. To test yours, implement this header: kit_dut.c does it for a
 * controller with the interface of the conformance kit, interrupt_dut.c for one that runs in an interrupt.
 *
 * In each bit time come dut_drive(), dut_sample(), dut_event() until it returns false, and dut_counters(). Levels are
 * 0, dominant, and 1, recessive. */
#ifndef DUT_H
#define DUT_H

#include "riddlesage.h"

/* What is compared besides the levels that the controller drives, and when. */
struct dut_traits {
  unsigned events;      /* the events that it reports, a bit each: 1u << RIDDLESAGE_SENT, .. */
  unsigned latency;     /* how many bit times after its own an event may be reported, 0 to 63 */
  unsigned offer_delay; /* how many bit times after dut_offer() and dut_hold() the frame or request counts */
  unsigned queue;       /* it takes a frame if fewer than these are pending */
  bool counters;        /* whether it has error counters */
};

extern const struct dut_traits dut_traits;

/* A new controller. It is idle, or begins with bus integration. */
void dut_reset(bool integrating);

/* Queues a frame for transmission. Returns false if there is no space: then the model doesn't get the frame either. */
bool dut_offer(const riddlesage_frame *frame);

/* Requests 0 to 2 overload frames, in place of an earlier request. A controller without them ignores it, and then the
 * traffic must have none: compile with -DNO_HOLD. */
void dut_hold(uint8_t overloads);

/* The level that the controller drives in this bit time. */
uint8_t dut_drive(void);

/* Passes a bit time, in which the controller samples this level. */
void dut_sample(uint8_t level);

/* Gets the next event that the controller reports, and its frame, if it is SENT or RECEIVED. Returns false if there is
 * no further one yet. */
bool dut_event(uint8_t *event, riddlesage_frame *frame);

/* Gets the error counters after this bit time. Not called without dut_traits.counters. */
void dut_counters(uint16_t *transmit, uint16_t *receive);

#endif
