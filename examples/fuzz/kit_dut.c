/* A controller with the interface of the conformance kit (conformance/adapters/controller/controller.h) as the one
 * under test. A folder that you have made for the kit works as it is, without its adapter.c. */
#include "controller.h"
#include "dut.h"

#include <string.h>

const struct dut_traits dut_traits = { ~0u, 0, 0, QUEUE_SIZE, true };

static struct controller can;
static enum event latest = NOTHING;

void dut_reset(bool integrating)
{
  latest = NOTHING;
  can_begin(&can, integrating);
}

bool dut_offer(const riddlesage_frame *frame)
{
  struct frame own = { frame->extended != 0, frame->remote != 0, frame->identifier, frame->dlc, { 0 } };

  memcpy(own.data, frame->data, sizeof frame->data);
  return can_offer(&can, &own);
}

void dut_hold(uint8_t overloads)
{
  can_hold(&can, overloads);
}

uint8_t dut_drive(void)
{
  return (uint8_t)can_drives(&can);
}

void dut_sample(uint8_t level)
{
  latest = can_sample(&can, level == RIDDLESAGE_DOMINANT ? DOMINANT : RECESSIVE);
}

bool dut_event(uint8_t *event, riddlesage_frame *frame)
{
  const struct frame *own = &can.event_frame;

  if (latest == NOTHING)
    return false;
  *event = (uint8_t)latest; /* the kit's numbers are the library's */
  *frame = (riddlesage_frame){ own->identifier, own->extended, own->remote, (uint8_t)own->dlc, { 0 } };
  memcpy(frame->data, own->data, sizeof frame->data);
  latest = NOTHING;
  return true;
}

void dut_counters(uint16_t *transmit, uint16_t *receive)
{
  *transmit = (uint16_t)can.counters.tec;
  *receive = (uint16_t)can.counters.rec;
}
