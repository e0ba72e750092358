/* A controller as firmware has it, as the one under test. An interrupt at the sample point of each bit reads the pin
 * RX, and sets the pin TX for the next bit. The main loop runs every sixteen bit times: it and the interrupt exchange
 * frames through two ring buffers. So a frame that is sent or received is reported late, and one that is queued counts
 * from the next bit time on. No other events are reported.
 *
 * The medium access is that of the kit's controller. Put yours in place of can_interrupt() and main_loop(). */
#include "controller.h"
#include "dut.h"

#include <string.h>

enum { RING_SIZE = 8, BLOCK = 16 };

struct message {
  uint8_t event; /* SENT or RECEIVED; of no use in a frame to send */
  struct frame frame;
};

/* A ring buffer with one writer and one reader. It is full with RING_SIZE - 1 messages. */
struct ring {
  struct message messages[RING_SIZE];
  volatile unsigned first, end;
};

const struct dut_traits dut_traits = { 1u << RIDDLESAGE_SENT | 1u << RIDDLESAGE_RECEIVED, BLOCK, 1, 1, true };

static volatile uint8_t rx_pin, tx_pin;
static volatile uint8_t overloads_requested, is_requested;
static struct controller can; /* of the interrupt alone, but for its counters */
static struct ring to_bus, from_bus;
static unsigned bits;

static bool put(struct ring *ring, const struct message *message)
{
  unsigned next = (ring->end + 1) % RING_SIZE;

  if (next == ring->first)
    return false;
  ring->messages[ring->end] = *message;
  ring->end = next;
  return true;
}

static bool get(struct ring *ring, struct message *message)
{
  if (ring->first == ring->end)
    return false;
  *message = ring->messages[ring->first];
  ring->first = (ring->first + 1) % RING_SIZE;
  return true;
}

/* At the sample point of each bit. */
static void can_interrupt(void)
{
  struct message message;

  message.event = (uint8_t)can_sample(&can, rx_pin == 0 ? DOMINANT : RECESSIVE);
  message.frame = can.event_frame;
  if (message.event == SENT || message.event == RECEIVED)
    put(&from_bus, &message);
  while (get(&to_bus, &message))
    can_offer(&can, &message.frame);
  if (is_requested) {
    is_requested = 0;
    can_hold(&can, overloads_requested);
  }
  tx_pin = (uint8_t)can_drives(&can);
}

/* What the main loop has got from the interrupt, for the fuzz target. */
static struct ring fetched;

static void main_loop(void)
{
  struct message message;

  while (get(&from_bus, &message))
    put(&fetched, &message);
}

void dut_reset(bool integrating)
{
  can_begin(&can, integrating);
  memset(&to_bus, 0, sizeof to_bus);
  memset(&from_bus, 0, sizeof from_bus);
  memset(&fetched, 0, sizeof fetched);
  is_requested = 0;
  bits = 0;
  tx_pin = (uint8_t)can_drives(&can);
}

bool dut_offer(const riddlesage_frame *frame)
{
  struct message message = { 0, { frame->extended != 0, frame->remote != 0, frame->identifier, frame->dlc, { 0 } } };

  memcpy(message.frame.data, frame->data, sizeof frame->data);
  return put(&to_bus, &message);
}

void dut_hold(uint8_t overloads)
{
  overloads_requested = overloads;
  is_requested = 1;
}

uint8_t dut_drive(void)
{
  return tx_pin;
}

void dut_sample(uint8_t level)
{
  rx_pin = level;
  can_interrupt();
  if (++bits % BLOCK == 0)
    main_loop();
}

bool dut_event(uint8_t *event, riddlesage_frame *frame)
{
  struct message message;
  const struct frame *own = &message.frame;

  if (!get(&fetched, &message))
    return false;
  *event = message.event;
  *frame = (riddlesage_frame){ own->identifier, own->extended, own->remote, (uint8_t)own->dlc, { 0 } };
  memcpy(frame->data, own->data, sizeof frame->data);
  return true;
}

void dut_counters(uint16_t *transmit, uint16_t *receive)
{
  *transmit = (uint16_t)can.counters.tec;
  *receive = (uint16_t)can.counters.rec;
}
