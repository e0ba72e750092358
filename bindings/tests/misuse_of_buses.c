/*
 * Misuse of the calls on a bus and on a wire: ports that are missing, too many, or there twice; offers, hits, levels
 * and wires that are invalid, out of order, or of no port. Each must be refused with its status, and change nothing. It
 * runs with AddressSanitizer and with valgrind.
 */
#include "misuse.h"

static const riddlesage_frame frame;

/* The arguments for a bus; a call takes the first ports, offers and hits of these. */
struct play {
  riddlesage_port *ports[RIDDLESAGE_MOST_PORTS + 1];
  riddlesage_offer offers[2];
  riddlesage_hit hits[3];
  uint8_t bus[4];
  size_t many;
};

static riddlesage_status played(struct play *with, size_t ports, size_t offers, size_t hits)
{
  return riddlesage_play(with->ports, ports, with->offers, offers, with->hits, hits, with->bus, sizeof with->bus,
                         &with->many);
}

/* Ports of a bus that are missing, too many, or there twice; the third entry of the list is free. */
static void bad_ports(struct play *with)
{
  riddlesage_port unmade = RIDDLESAGE_PORT_INIT, copy = *with->ports[0];
  uint8_t *bus = with->bus;

  WANT(NULL_POINTER, riddlesage_play(NULL, 2, with->offers, 2, with->hits, 3, bus, 4, &with->many));
  WANT(NULL_POINTER, riddlesage_play(with->ports, 2, NULL, 2, with->hits, 3, bus, 4, &with->many));
  WANT(NULL_POINTER, riddlesage_play(with->ports, 2, with->offers, 2, NULL, 3, bus, 4, &with->many));
  WANT(NULL_POINTER, riddlesage_play(with->ports, 2, with->offers, 2, with->hits, 3, NULL, 4, &with->many));
  WANT(BAD_BUS, played(with, 0, 2, 3));
  WANT(BAD_BUS, played(with, RIDDLESAGE_MOST_PORTS + 1, 2, 3));
  WANT(BAD_BUS, played(with, SIZE_MAX, 2, 3));
  WANT(NULL_POINTER, played(with, 3, 2, 3));
  with->ports[2] = &unmade;
  WANT(NO_PORT, played(with, 3, 2, 3));
  with->ports[2] = &copy;
  WANT(MOVED, played(with, 3, 2, 3));
  with->ports[2] = with->ports[0];
  WANT(BAD_BUS, played(with, 3, 2, 3));
}

/* Offers and hits that are invalid, out of order, or of no port. */
static void bad_offers_and_hits(struct play *with)
{
  static const riddlesage_frame none[] = {
    { 0, 2, 0, 0, { 0 } }, { 0x800, 0, 0, 0, { 0 } }, { 0, 0, 0, 16, { 0 } },
  };
  static const riddlesage_status why[] = { RIDDLESAGE_BAD_FLAG, RIDDLESAGE_BAD_IDENTIFIER, RIDDLESAGE_BAD_DLC };
  const riddlesage_hit last = with->hits[2];
  size_t row;

  for (row = 0; row < sizeof none / sizeof none[0]; row++) {
    with->offers[1].frame = none[row];
    want(why[row], played(with, 2, 2, 3), "an offer of no frame", (int)row);
  }
  with->offers[1].frame = with->offers[0].frame;
  for (row = 3; row <= UINT8_MAX; row++) {
    with->hits[2].kind = (uint8_t)row;
    want(RIDDLESAGE_BAD_KIND, played(with, 2, 2, 3), "a hit of no kind", (int)row);
  }
  with->hits[2] = last;
  with->offers[0].time = 1;
  WANT(BAD_ORDER, played(with, 2, 2, 3));
  with->offers[1].time = UINT64_MAX;
  with->offers[1].port = 2;
  WANT(NO_SUCH_PORT, played(with, 2, 2, 3));
  with->offers[1].port = SIZE_MAX;
  WANT(NO_SUCH_PORT, played(with, 2, 2, 3));
  with->hits[2].port = 2;
  WANT(NO_SUCH_PORT, played(with, 2, 0, 3));
  with->hits[2] = with->hits[1];
  WANT(BAD_ORDER, played(with, 2, 0, 3));
  with->hits[1] = last;
  WANT(BAD_ORDER, played(with, 2, 0, 3));
}

static void bad_buses(void)
{
  riddlesage_port one = RIDDLESAGE_PORT_INIT, other = RIDDLESAGE_PORT_INIT;
  struct play with = {
    { &one, &other },
    { { 0, 0, { 0x123, 0, 0, 0, { 0 } } }, { 0, 1, { 0x124, 0, 0, 0, { 0 } } } },
    { { 1, 0, 0, 0, RIDDLESAGE_HIT_AT }, { 0, 0, 3, 0, RIDDLESAGE_HIT_IN }, { 2, 0, 0, 1, RIDDLESAGE_HIT_VIEW } },
    { 7, 7, 7, 7 },
    99,
  };
  const uint8_t before[4] = { 7, 7, 7, 7 };

  WANT(OK, riddlesage_port_idle(&one, 1, 4));
  WANT(OK, riddlesage_port_idle(&other, 1, 4));
  bad_ports(&with);
  bad_offers_and_hits(&with);
  WANT_SAME(before, with.bus);
  want(with.many == 99 ? RIDDLESAGE_OK : RIDDLESAGE_QUEUE_FULL, RIDDLESAGE_OK, "refused is written", __LINE__);

  /* nothing has run, and both queues have capacity left, but not for a third frame */
  WANT(OK, riddlesage_play(with.ports, 2, NULL, 0, NULL, 0, NULL, 0, NULL));
  with.offers[0].time = with.offers[1].time = with.offers[1].port = 0;
  WANT(OK, riddlesage_play(with.ports, 2, with.offers, 2, NULL, 0, with.bus, 1, &with.many));
  want(with.many == 1 && with.bus[0] == 0 && with.bus[1] == 7 ? RIDDLESAGE_OK : RIDDLESAGE_QUEUE_FULL, RIDDLESAGE_OK,
       "a start", __LINE__);
  WANT(QUEUE_FULL, riddlesage_port_offer(&one, &frame));
  WANT(OK, riddlesage_port_offer(&other, &frame));
  WANT(OK, riddlesage_port_free(&one));
  WANT(OK, riddlesage_port_free(&other));
}

static const riddlesage_wire fresh = RIDDLESAGE_WIRE_INIT;
static const riddlesage_hit at_the_start = { 0, 0, 3, 0, RIDDLESAGE_HIT_IN },
                            of_a_view = { 2, 0, 0, 1, RIDDLESAGE_HIT_VIEW };

/* The arguments for a bus of two ports that is stepped. */
struct step {
  riddlesage_wire wire;
  riddlesage_hit hits[2];
  uint8_t given[2], seen[2], bus;
};

static riddlesage_status stepped(struct step *with, size_t ports)
{
  return riddlesage_wire_step(&with->wire, with->given, ports, with->hits, 2, &with->bus, with->seen);
}

/* Invalid wires: until_rest, start, attempts and time, each one above its maximum. */
static void no_wires(struct step *with)
{
  static const riddlesage_wire none[] = {
    { 0, 0, 0, 12 },         { 0, 0, 0, 255 },        { 0, 1, 0, 0 },  { 5, 1, 5, 0 },
    { 5, 1, UINT64_MAX, 0 }, { 5, 4, 2, 0 },          { 5, UINT64_MAX, 4, 0 },
    { UINT64_MAX, 0, 0, 0 }, { UINT64_MAX, 1, 1, 0 },
  };
  size_t row;

  for (row = 0; row < sizeof none / sizeof none[0]; row++) {
    memcpy(&with->wire, &none[row], sizeof with->wire); /* padding too */
    want(RIDDLESAGE_BAD_WIRE, stepped(with, 2), "no wire", (int)row);
    WANT_SAME(none[row], with->wire);
  }
  memcpy(&with->wire, &fresh, sizeof with->wire);
}

/* Invalid levels and hits, and hits of no port. */
static void bad_steps(struct step *with)
{
  size_t row;

  WANT(NULL_POINTER, riddlesage_wire_step(NULL, with->given, 2, with->hits, 2, &with->bus, with->seen));
  WANT(NULL_POINTER, riddlesage_wire_step(&with->wire, NULL, 2, with->hits, 2, &with->bus, with->seen));
  WANT(NULL_POINTER, riddlesage_wire_step(&with->wire, with->given, 2, NULL, 2, &with->bus, with->seen));
  WANT(NULL_POINTER, riddlesage_wire_step(&with->wire, with->given, 2, with->hits, 2, NULL, with->seen));
  for (row = 2; row <= UINT8_MAX; row++) {
    with->given[1] = (uint8_t)row;
    want(RIDDLESAGE_BAD_LEVEL, stepped(with, 2), "no level", (int)row);
  }
  with->given[1] = 0;
  for (row = 3; row <= UINT8_MAX; row++) {
    with->hits[0].kind = (uint8_t)row;
    want(RIDDLESAGE_BAD_KIND, stepped(with, 2), "no kind", (int)row);
  }
  with->hits[0] = at_the_start;
  WANT(NO_SUCH_PORT, stepped(with, 1));
  WANT(NO_SUCH_PORT, riddlesage_wire_step(&with->wire, NULL, 0, with->hits, 2, &with->bus, NULL));
  with->hits[1].port = SIZE_MAX;
  WANT(NO_SUCH_PORT, stepped(with, 2));
  with->hits[1].kind = 9;
  WANT(BAD_KIND, stepped(with, 2));
}

/* Valid wires, each with one number at its maximum. */
static void last_wires(void)
{
  static const riddlesage_wire some[] = {
    { 0, 0, 0, 11 },
    { 0, 0, UINT64_MAX, 0 },
    { 5, 5, 4, 0 },
    { UINT64_MAX - 1, UINT64_MAX - 1, UINT64_MAX - 2, 11 },
  };
  size_t row;

  for (row = 0; row < sizeof some / sizeof some[0]; row++) {
    riddlesage_wire wire = some[row];
    uint8_t bus = 7;
    want(RIDDLESAGE_OK, riddlesage_wire_step(&wire, NULL, 0, NULL, 0, &bus, NULL), "a wire", (int)row);
    want(wire.time == some[row].time + 1 && bus == 1 ? RIDDLESAGE_OK : RIDDLESAGE_BAD_WIRE, RIDDLESAGE_OK, "passes",
         (int)row);
  }
}

/* Only the requested levels are written, and hits may be in any order. */
static void one_of_two_is_asked(void)
{
  struct step with = { fresh, { of_a_view, at_the_start }, { 0, 0 }, { 7, 9 }, 7 };

  with.hits[0].time = 0;
  with.hits[0].port = 0;
  with.hits[1].offset = 0;
  WANT(OK, stepped(&with, 1));
  want(with.bus == 1 && with.seen[0] == 0 && with.seen[1] == 9 && with.wire.time == 1 && with.wire.attempts == 1 &&
               with.wire.start == 0 && with.wire.until_rest == 0
           ? RIDDLESAGE_OK
           : RIDDLESAGE_BAD_WIRE,
       RIDDLESAGE_OK, "an attempt that is hit at its start", __LINE__);
}

static void bad_wires(void)
{
  struct step with = { fresh, { at_the_start, of_a_view }, { 1, 0 }, { 7, 7 }, 7 };
  const uint8_t unseen[2] = { 7, 7 }, unwritten = 7;

  memcpy(&with.wire, &fresh, sizeof with.wire);
  no_wires(&with);
  bad_steps(&with);
  WANT_SAME(fresh, with.wire);
  WANT_SAME(unseen, with.seen);
  WANT_SAME(unwritten, with.bus);
  last_wires();
  one_of_two_is_asked();
}

/* The arguments for a bus of two ports that runs. */
struct run {
  riddlesage_wire wire;
  riddlesage_port *ports[RIDDLESAGE_MOST_PORTS + 1];
  riddlesage_hit hits[2];
  uint8_t events[2];
  riddlesage_frame frames[2];
  size_t passed;
};

static riddlesage_status ran(struct run *with, size_t ports, size_t hits, size_t bits)
{
  return riddlesage_wire_run(&with->wire, with->ports, ports, with->hits, hits, bits, with->events, with->frames,
                             &with->passed);
}

/* Ports, pointers, hits and wires with which no bit time passes. */
static void bad_runs(struct run *with)
{
  const riddlesage_wire last = { UINT64_MAX, 0, 0, 0 };
  riddlesage_port unmade = RIDDLESAGE_PORT_INIT;
  riddlesage_port *other = with->ports[1];
  struct run before;

  memcpy(&before, with, sizeof before);
  WANT(NULL_POINTER, riddlesage_wire_run(NULL, with->ports, 2, NULL, 0, 9, with->events, with->frames, &with->passed));
  WANT(NULL_POINTER, riddlesage_wire_run(&with->wire, NULL, 2, NULL, 0, 9, with->events, with->frames, &with->passed));
  WANT(NULL_POINTER,
       riddlesage_wire_run(&with->wire, with->ports, 2, NULL, 1, 9, with->events, with->frames, &with->passed));
  WANT(NULL_POINTER, riddlesage_wire_run(&with->wire, with->ports, 2, NULL, 0, 9, NULL, with->frames, &with->passed));
  WANT(NULL_POINTER, riddlesage_wire_run(&with->wire, with->ports, 2, NULL, 0, 9, with->events, NULL, &with->passed));
  WANT(NULL_POINTER, riddlesage_wire_run(&with->wire, with->ports, 2, NULL, 0, 9, with->events, with->frames, NULL));
  WANT(BAD_BUS, ran(with, 0, 0, 9));
  WANT(BAD_BUS, ran(with, RIDDLESAGE_MOST_PORTS + 1, 0, 9));
  WANT(NO_SUCH_PORT, ran(with, 1, 2, 9));
  with->hits[1].kind = 3;
  WANT(BAD_KIND, ran(with, 2, 2, 9));
  with->hits[1].kind = RIDDLESAGE_HIT_VIEW;
  with->ports[1] = with->ports[0];
  WANT(BAD_BUS, ran(with, 2, 0, 9));
  with->ports[1] = &unmade;
  WANT(NO_PORT, ran(with, 2, 0, 9));
  with->ports[1] = other;
  memcpy(&with->wire, &last, sizeof last);
  WANT(BAD_WIRE, ran(with, 2, 0, 9));
  memcpy(&with->wire, &fresh, sizeof fresh);
  WANT_SAME(before, *with);
}

/* A run ends with an event, at its last bit time, or when no more bit times can be counted. */
static void ends_of_runs(struct run *with)
{
  const riddlesage_wire late = { UINT64_MAX - 3, 0, 0, 0 };

  WANT(OK, ran(with, 2, 0, 0));
  want(with->passed == 0 && with->events[0] == 0 ? RIDDLESAGE_OK : RIDDLESAGE_BAD_WIRE, RIDDLESAGE_OK, "no bit time",
       __LINE__);
  WANT(OK, ran(with, 2, 0, 9));
  want(with->passed == 9 && with->wire.time == 9 && with->events[1] == 0 ? RIDDLESAGE_OK : RIDDLESAGE_BAD_WIRE,
       RIDDLESAGE_OK, "nine bit times", __LINE__);
  WANT(OK, riddlesage_port_offer(with->ports[0], &frame));
  WANT(OK, ran(with, 2, 0, 99));
  want(with->events[1] == RIDDLESAGE_RECEIVED && with->events[0] == RIDDLESAGE_NOTHING && with->frames[1].dlc == 0 &&
               with->wire.time == 9 + with->passed && with->wire.attempts == 1
           ? RIDDLESAGE_OK
           : RIDDLESAGE_BAD_WIRE,
       RIDDLESAGE_OK, "a reception", __LINE__);
  WANT(OK, ran(with, 2, 0, 99));
  want(with->passed == 1 && with->events[0] == RIDDLESAGE_SENT ? RIDDLESAGE_OK : RIDDLESAGE_BAD_WIRE, RIDDLESAGE_OK,
       "a transmission", __LINE__);
  memcpy(&with->wire, &late, sizeof late);
  WANT(OK, ran(with, 2, 0, 9));
  want(with->passed == 3 ? RIDDLESAGE_OK : RIDDLESAGE_BAD_WIRE, RIDDLESAGE_OK, "the last bit times", __LINE__);
}

static void runs(void)
{
  riddlesage_port one = RIDDLESAGE_PORT_INIT, other = RIDDLESAGE_PORT_INIT;
  struct run with;

  memset(&with, 0, sizeof with);
  with.ports[0] = &one;
  with.ports[1] = &other;
  with.hits[0] = at_the_start;
  with.hits[1] = of_a_view;
  WANT(OK, riddlesage_port_idle(&one, 1, 1));
  WANT(OK, riddlesage_port_idle(&other, 1, 1));
  bad_runs(&with);
  ends_of_runs(&with);
  WANT(OK, riddlesage_port_free(&one));
  WANT(OK, riddlesage_port_free(&other));
}

int main(void)
{
  bad_buses();
  bad_wires();
  runs();
  return ended();
}
