#include "traffic.h"

#include <string.h>

#include "beside.h"
#include "wire.h"

/* Bit times after which any wait ends; more than the longest frame; how many commands REPEAT may repeat. */
enum { LONGEST_WAIT = 64, LONGEST_FRAME = 160, NOWHERE = LONGEST_FRAME, MOST_BACK = 4 };

/* What is left of the fuzzer's bytes. */
struct bytes {
  const uint8_t *at;
  size_t left;
};

static riddlesage_frame offered; /* the last one */

static uint8_t take(struct bytes *bytes)
{
  if (bytes->left == 0)
    return 0;
  bytes->left--;
  return *bytes->at++;
}

static void many(char level, unsigned count)
{
  while (count-- > 0)
    both_bit(level);
}

/* The tester's level with which the controller samples the opposite of what it drives. */
static char inverted(void)
{
  return model_drives() == RIDDLESAGE_DOMINANT ? 'f' : '0';
}

static uint8_t phase(void)
{
  return model_standing()->phase;
}

static bool in_frame(void)
{
  return phase() >= RIDDLESAGE_PHASE_STUFFED_PART && phase() <= RIDDLESAGE_PHASE_END_OF_FRAME;
}

/* Whether the next bit is bit PLACE of a frame that began some bits ago. */
static bool is_at(unsigned place, unsigned bits)
{
  unsigned end = (place - FROM_END) % 10;

  if (place < FROM_END)
    return bits == place;
  if (end < 3)
    return phase() == RIDDLESAGE_PHASE_CRC_DELIMITER + end;
  return phase() == RIDDLESAGE_PHASE_END_OF_FRAME && model_standing()->place == end - 3;
}

/* A frame like the one offered last, but for a bit of its identifier, its kind, its format, or its contents. */
static riddlesage_frame near_frame(uint8_t how)
{
  riddlesage_frame frame = offered;
  unsigned rest = how >> 2;

  switch (how & 3) {
  case 0:
    frame.identifier ^= UINT32_C(1) << rest % (frame.extended != 0 ? 29 : 11);
    break;
  case 1:
    frame.remote ^= 1;
    break;
  case 2:
    frame.identifier = frame.extended != 0 ? frame.identifier >> 18 : frame.identifier << 18;
    frame.extended ^= 1;
    frame.remote ^= rest & 1;
    break;
  default:
    frame.dlc ^= rest & 15;
    frame.data[0] ^= how & 0xf0;
  }
  return frame;
}

static riddlesage_frame take_frame(struct bytes *bytes, unsigned kind)
{
  riddlesage_frame frame = { 0, (uint8_t)(kind & EXTENDED), (kind & REMOTE) != 0, 0, { 0 } };
  unsigned count, place;

  if ((kind & NEAR) != 0)
    return near_frame(take(bytes));
  for (count = (kind & EXTENDED) != 0 ? 4 : 2; count > 0; count--)
    frame.identifier = frame.identifier << 8 | take(bytes);
  frame.identifier &= (kind & EXTENDED) != 0 ? 0x1fffffff : 0x7ff;
  frame.dlc = take(bytes) & 15;
  count = frame.remote != 0 ? 0 : frame.dlc < 8 ? frame.dlc : 8;
  for (place = 0; place < count; place++)
    frame.data[place] = place == 0 || (kind & ALL_DATA) != 0 ? take(bytes) : frame.data[0];
  return frame;
}

static struct variant take_variant(struct bytes *bytes)
{
  uint8_t byte = take(bytes);
  unsigned kind = byte & 15;
  struct variant variant = { kind == 8 || kind == 12, kind == 9 || kind == 12, kind == 10 || kind == 12, 0 };

  if (kind == 11)
    variant.crc = (uint16_t)(1 << (byte >> 4) & 0x7fff);
  return variant;
}

/* Waits until a frame may begin, also in the third bit of intermission if it is early. */
static void wait_for_start(bool early)
{
  unsigned bits;
  for (bits = 0; bits < LONGEST_WAIT && phase() != RIDDLESAGE_PHASE_IDLE; bits++) {
    if (early && phase() == RIDDLESAGE_PHASE_INTERMISSION && model_standing()->place == 2)
      return;
    both_bit('1');
  }
}

/* Listens to the rest of a frame, and acknowledges it or doesn't. In one bit the controller samples the opposite of
 * what it drives. */
static void listen(unsigned error, bool acknowledges)
{
  unsigned bits;
  for (bits = 0; bits < LONGEST_FRAME && in_frame(); bits++) {
    bool answers = acknowledges && phase() == RIDDLESAGE_PHASE_ACK_SLOT;
    both_bit(is_at(error, bits) ? inverted() : answers ? '0' : '1');
  }
}

/* Sends levels. If the controller drives dominant over a recessive one, it has won arbitration, and the tester
 * listens. */
static void send(const struct wire *wire, unsigned error, unsigned how)
{
  unsigned kind = how & ERROR_KINDS, place;
  bool continues = (how & CONTINUES) == CONTINUES;

  for (place = 0; place < wire->length && (place == 0 || in_frame() || continues); place++) {
    bool dominant = wire->levels[place] == 0, is_slot = phase() == RIDDLESAGE_PHASE_ACK_SLOT;

    if (is_at(error, place)) {
      both_bit(kind == FORCES ? 'f' : dominant ? inverted() : '0');
      if (kind == ENDS)
        return;
    } else if (dominant || is_slot) {
      both_bit(dominant || (how & ACKNOWLEDGES) != 0 ? '0' : '1');
    } else {
      bool is_lost = model_drives() == 0;
      both_bit('1');
      if (is_lost) {
        listen(NOWHERE, true);
        return;
      }
    }
  }
}

static void do_run(struct bytes *bytes, unsigned a)
{
  many((a & 1) != 0 ? '1' : '0', take(bytes) + 1u);
}

static void do_bits(struct bytes *bytes, unsigned a)
{
  unsigned count = take(bytes) % 128 + 1, bit;
  uint8_t levels = 0;

  (void)a;
  for (bit = 0; bit < count; bit++) {
    if (bit % 8 == 0)
      levels = take(bytes);
    both_bit((levels >> bit % 8 & 1) != 0 ? '1' : '0');
  }
}

static void do_forced(struct bytes *bytes, unsigned a)
{
  (void)bytes;
  many('f', a + 1);
}

static void do_offer(struct bytes *bytes, unsigned a)
{
  offered = take_frame(bytes, a);
  both_offer(&offered);
}

static void do_hold(struct bytes *bytes, unsigned a)
{
  (void)bytes;
  both_hold((uint8_t)(a % 3));
}

static void do_send(struct bytes *bytes, unsigned a)
{
  riddlesage_frame frame = take_frame(bytes, a);
  struct variant variant = take_variant(bytes);
  unsigned error = take(bytes), how = take(bytes);
  struct wire wire;

  make_wire(&wire, &frame, &variant);
  if ((how & AT_ONCE) == 0)
    wait_for_start((how & EARLY) != 0);
  send(&wire, error, how);
}

static void do_listen(struct bytes *bytes, unsigned a)
{
  unsigned error = take(bytes), bits;

  for (bits = 0; bits < LONGEST_WAIT && !(in_frame() && model_standing()->sender != 0); bits++) {
    if (phase() == RIDDLESAGE_PHASE_IDLE && model_drives() != 0)
      return;
    both_bit('1');
  }
  listen(error, (a & 3) != 0);
}

static void do_rest(struct bytes *bytes, unsigned a)
{
  (void)bytes;
  wait_for_start(false);
  many('1', a);
}

static void do_reset(struct bytes *bytes, unsigned a)
{
  (void)bytes;
  both_reset((a & 1) != 0);
}

static void do_quiet(struct bytes *bytes, unsigned a)
{
  many('1', take(bytes) * 11u + a);
}

static void do_hit(struct bytes *bytes, unsigned a)
{
  uint8_t wanted = take(bytes) % 15;
  unsigned bits;

  for (bits = 0; bits < LONGEST_WAIT && (phase() != wanted || model_standing()->place != a); bits++)
    both_bit('1');
  both_bit(inverted());
}

/* Does the next command; REPEAT has no effect. */
static void do_command(struct bytes *bytes)
{
  static void (*const commands[16])(struct bytes *, unsigned) = {
    [RUN] = do_run,       [BITS] = do_bits,   [FORCED] = do_forced, [OFFER] = do_offer, [HOLD] = do_hold,
    [SEND] = do_send,     [LISTEN] = do_listen, [REST] = do_rest,   [RESET] = do_reset, [QUIET] = do_quiet,
    [HIT] = do_hit,       [12] = do_send,     [13] = do_listen,     [14] = do_offer,    [15] = do_send,
  };
  uint8_t byte = take(bytes);

  if ((byte & 15) != REPEAT)
    commands[byte & 15](bytes, byte >> 4);
}

/* Repeats the last commands, which are those at the end of `back`. */
static void do_repeat(struct bytes *bytes, const struct bytes back[MOST_BACK])
{
  unsigned count = (take(bytes) >> 4) % MOST_BACK + 1, times = take(bytes) % 64 + 1, place;

  for (; times > 0 && !both_ended(); times--) {
    struct bytes again = back[MOST_BACK - count];
    for (place = 0; place < count; place++)
      do_command(&again);
  }
}

void play_traffic(const uint8_t *input, size_t size)
{
  struct bytes bytes = { input, size }, back[MOST_BACK];
  unsigned place;

  memset(&offered, 0, sizeof offered);
  for (place = 0; place < MOST_BACK; place++)
    back[place] = bytes;
  both_reset(false);
  while (bytes.left > 0 && !both_ended()) {
    if ((*bytes.at & 15) == REPEAT) {
      do_repeat(&bytes, back);
    } else {
      memmove(back, back + 1, sizeof back - sizeof back[0]);
      back[MOST_BACK - 1] = bytes;
      do_command(&bytes);
    }
  }
}
