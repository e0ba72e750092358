/*
 * The public calls over the proved functions of crates/can_c: each checks its pointers, and passes its arguments on.
 * The memory of riddlesage_port_new() is allocated and freed here. Nothing here is proved, and no rule of CAN is here.
 */
#include "riddlesage.h"

#include "platform.h"
#include "proved.h"

static const riddlesage_port none = RIDDLESAGE_PORT_INIT;

/* Whether a port may be passed on: `self` is NULL if none was made, otherwise the address at which it was made. */
static riddlesage_status port_at(const riddlesage_port *port)
{
  if (port == NULL)
    return RIDDLESAGE_NULL_POINTER;
  if (port->self == NULL)
    return RIDDLESAGE_NO_PORT;
  return port->self == port ? RIDDLESAGE_OK : RIDDLESAGE_MOVED;
}

/* The status of a port, or if that is OK, of the other pointers of the call. */
static riddlesage_status port_with(const riddlesage_port *port, bool pointers)
{
  riddlesage_status status = port_at(port);
  return status == RIDDLESAGE_OK && !pointers ? RIDDLESAGE_NULL_POINTER : status;
}

/* Whether a port may be made there. If there was none, its struct is initialised. */
static riddlesage_status room_at(riddlesage_port *port)
{
  riddlesage_status status = port_at(port);
  if (status != RIDDLESAGE_NO_PORT)
    return status;
  *port = none;
  return RIDDLESAGE_OK;
}

static riddlesage_status make(riddlesage_port *port, size_t queue, size_t log,
                              uint8_t (*made)(struct riddlesage_handle *, size_t, size_t))
{
  riddlesage_status status = room_at(port);
  if (status != RIDDLESAGE_OK)
    return status;
  status = (riddlesage_status)made(&port->handle, queue, log);
  if (status == RIDDLESAGE_OK)
    port->self = port;
  return status;
}

EXPORT riddlesage_port *riddlesage_port_new(void)
{
  riddlesage_port *port = RIDDLESAGE_MALLOC(sizeof *port);
  if (port != NULL)
    *port = none;
  return port;
}

EXPORT riddlesage_status riddlesage_port_delete(riddlesage_port *port)
{
  riddlesage_status status = riddlesage_port_free(port);
  if (status == RIDDLESAGE_OK)
    RIDDLESAGE_FREE(port);
  return status;
}

EXPORT riddlesage_status riddlesage_port_idle(riddlesage_port *port, size_t queue, size_t log)
{
  return make(port, queue, log, can_c_idle);
}

EXPORT riddlesage_status riddlesage_port_joining(riddlesage_port *port, size_t queue, size_t log)
{
  return make(port, queue, log, can_c_joining);
}

EXPORT riddlesage_status riddlesage_port_copy(riddlesage_port *port, riddlesage_port *from)
{
  riddlesage_status status = room_at(port);
  if (status != RIDDLESAGE_OK)
    return status;
  status = port_at(from);
  if (status != RIDDLESAGE_OK || port == from)
    return status;
  status = (riddlesage_status)can_c_copy(&port->handle, &from->handle);
  if (status == RIDDLESAGE_OK)
    port->self = port;
  return status;
}

EXPORT riddlesage_status riddlesage_port_free(riddlesage_port *port)
{
  riddlesage_status status = port_at(port);
  if (status == RIDDLESAGE_NO_PORT)
    return RIDDLESAGE_OK;
  if (status != RIDDLESAGE_OK)
    return status;
  can_c_free(&port->handle);
  port->self = NULL;
  return RIDDLESAGE_OK;
}

EXPORT riddlesage_status riddlesage_port_offer(riddlesage_port *port, const riddlesage_frame *frame)
{
  riddlesage_status status = port_with(port, frame != NULL);
  return status == RIDDLESAGE_OK ? (riddlesage_status)can_c_offer(&port->handle, frame) : status;
}

EXPORT riddlesage_status riddlesage_port_hold(riddlesage_port *port, uint8_t count)
{
  riddlesage_status status = port_at(port);
  return status == RIDDLESAGE_OK ? (riddlesage_status)can_c_hold(&port->handle, count) : status;
}

EXPORT riddlesage_status riddlesage_port_drive(riddlesage_port *port, uint8_t *level)
{
  riddlesage_status status = port_with(port, level != NULL);
  return status == RIDDLESAGE_OK ? (riddlesage_status)can_c_drive(&port->handle, level) : status;
}

EXPORT riddlesage_status riddlesage_port_sample(riddlesage_port *port, uint8_t level, uint8_t *event,
                                                riddlesage_frame *frame)
{
  riddlesage_frame unwanted = { 0, 0, 0, 0, { 0 } };
  riddlesage_status status = port_with(port, event != NULL);
  return status == RIDDLESAGE_OK
           ? (riddlesage_status)can_c_sample(&port->handle, level, event, frame == NULL ? &unwanted : frame)
           : status;
}

EXPORT riddlesage_status riddlesage_port_run(riddlesage_port *port, const uint8_t *levels, size_t count,
                                             uint8_t *drives, uint8_t *events)
{
  riddlesage_status status = port_with(port, levels != NULL && drives != NULL && events != NULL);
  return status == RIDDLESAGE_OK
           ? (riddlesage_status)can_c_run(&port->handle, levels, count, drives, count, events, count)
           : status;
}

EXPORT riddlesage_status riddlesage_port_counters(riddlesage_port *port, uint16_t *transmit, uint16_t *receive)
{
  riddlesage_status status = port_with(port, transmit != NULL && receive != NULL);
  return status == RIDDLESAGE_OK ? (riddlesage_status)can_c_counters(&port->handle, transmit, receive) : status;
}

EXPORT riddlesage_status riddlesage_port_state(riddlesage_port *port, uint8_t *state)
{
  riddlesage_status status = port_with(port, state != NULL);
  return status == RIDDLESAGE_OK ? (riddlesage_status)can_c_state(&port->handle, state) : status;
}

EXPORT riddlesage_status riddlesage_port_phase(riddlesage_port *port, riddlesage_standing *standing)
{
  riddlesage_status status = port_with(port, standing != NULL);
  return status == RIDDLESAGE_OK ? (riddlesage_status)can_c_phase(&port->handle, standing) : status;
}

EXPORT riddlesage_status riddlesage_port_log_length(riddlesage_port *port, size_t *count)
{
  uint64_t length = 0;
  riddlesage_status status = port_with(port, count != NULL);

  if (status == RIDDLESAGE_OK)
    status = (riddlesage_status)can_c_log_length(&port->handle, &length);
  if (status == RIDDLESAGE_OK)
    *count = (size_t)length;
  return status;
}

EXPORT riddlesage_status riddlesage_port_missed(riddlesage_port *port, uint32_t *count)
{
  riddlesage_status status = port_with(port, count != NULL);
  return status == RIDDLESAGE_OK ? (riddlesage_status)can_c_missed(&port->handle, count) : status;
}

EXPORT riddlesage_status riddlesage_port_entry(riddlesage_port *port, size_t number, riddlesage_frame *frame,
                                               uint8_t *sent)
{
  riddlesage_status status = port_with(port, frame != NULL && sent != NULL);
  return status == RIDDLESAGE_OK ? (riddlesage_status)can_c_entry(&port->handle, number, frame, sent) : status;
}

/* Whether these ports can form a bus: each was made, and none is there twice. */
static riddlesage_status ports_at(riddlesage_port *const *ports, size_t count)
{
  size_t place, other;

  if (ports == NULL)
    return RIDDLESAGE_NULL_POINTER;
  if (count == 0 || count > RIDDLESAGE_MOST_PORTS)
    return RIDDLESAGE_BAD_BUS;
  for (place = 0; place < count; place++) {
    riddlesage_status status = port_at(ports[place]);
    if (status != RIDDLESAGE_OK)
      return status;
    for (other = 0; other < place; other++)
      if (ports[other] == ports[place])
        return RIDDLESAGE_BAD_BUS;
  }
  return RIDDLESAGE_OK;
}

/* The handles are collected in one array for the call, and then put back. */
EXPORT riddlesage_status riddlesage_play(riddlesage_port *const *ports, size_t count, const riddlesage_offer *offers,
                                         size_t offer_count, const riddlesage_hit *hits, size_t hit_count,
                                         uint8_t *levels, size_t bits, size_t *refused)
{
  static const riddlesage_offer no_offer;
  static const riddlesage_hit no_hit;
  struct riddlesage_handle handles[RIDDLESAGE_MOST_PORTS];
  uint8_t no_level = 0;
  uint64_t full = 0;
  size_t place;
  riddlesage_status status = ports_at(ports, count);

  if (status != RIDDLESAGE_OK)
    return status;
  if ((offers == NULL && offer_count != 0) || (hits == NULL && hit_count != 0) || (levels == NULL && bits != 0))
    return RIDDLESAGE_NULL_POINTER;
  for (place = 0; place < count; place++)
    handles[place] = ports[place]->handle;
  status = (riddlesage_status)can_c_play(handles, count, offers == NULL ? &no_offer : offers, offer_count,
                                         hits == NULL ? &no_hit : hits, hit_count,
                                         levels == NULL ? &no_level : levels, bits, &full);
  for (place = 0; place < count; place++)
    ports[place]->handle = handles[place];
  if (status == RIDDLESAGE_OK && refused != NULL)
    *refused = (size_t)full;
  return status;
}

EXPORT riddlesage_status riddlesage_wire_step(riddlesage_wire *wire, const uint8_t *drives, size_t count,
                                              const riddlesage_hit *hits, size_t hit_count, uint8_t *level,
                                              uint8_t *seen)
{
  static const riddlesage_hit no_hit;
  static const uint8_t no_level = 0;
  uint8_t unwanted = 0;

  if (wire == NULL || (drives == NULL && count != 0) || (hits == NULL && hit_count != 0) || level == NULL)
    return RIDDLESAGE_NULL_POINTER;
  return (riddlesage_status)can_c_wire(wire, drives == NULL ? &no_level : drives, count, hits == NULL ? &no_hit : hits,
                                       hit_count, level, seen == NULL ? &unwanted : seen, seen == NULL ? 0 : count);
}

/* Passes one bit time of a bus of ports. `happened` becomes true if a port has an event. */
static riddlesage_status pass(riddlesage_wire *wire, riddlesage_port *const *ports, size_t count,
                              const riddlesage_hit *hits, size_t hit_count, uint8_t *events, riddlesage_frame *frames,
                              bool *happened)
{
  uint8_t drives[RIDDLESAGE_MOST_PORTS], seen[RIDDLESAGE_MOST_PORTS], level;
  riddlesage_status status = RIDDLESAGE_OK;
  size_t place;

  for (place = 0; status == RIDDLESAGE_OK && place < count; place++)
    status = riddlesage_port_drive(ports[place], &drives[place]);
  if (status == RIDDLESAGE_OK)
    status = riddlesage_wire_step(wire, drives, count, hits, hit_count, &level, seen);
  for (place = 0; status == RIDDLESAGE_OK && place < count; place++) {
    status = riddlesage_port_sample(ports[place], seen[place], &events[place], &frames[place]);
    *happened |= events[place] != RIDDLESAGE_NOTHING;
  }
  return status;
}

EXPORT riddlesage_status riddlesage_wire_run(riddlesage_wire *wire, riddlesage_port *const *ports, size_t count,
                                             const riddlesage_hit *hits, size_t hit_count, size_t bits, uint8_t *events,
                                             riddlesage_frame *frames, size_t *passed)
{
  bool happened = false;
  size_t done;
  riddlesage_status status = ports_at(ports, count);

  if (status != RIDDLESAGE_OK)
    return status;
  if (wire == NULL || (hits == NULL && hit_count != 0) || events == NULL || frames == NULL || passed == NULL)
    return RIDDLESAGE_NULL_POINTER;
  for (done = 0; done < bits && !happened; done++) {
    status = pass(wire, ports, count, hits, hit_count, events, frames, &happened);
    if (status != RIDDLESAGE_OK)
      break;
  }
  if (status != RIDDLESAGE_OK && done == 0)
    return status;
  if (!happened)
    memset(events, RIDDLESAGE_NOTHING, count);
  *passed = done;
  return RIDDLESAGE_OK;
}

EXPORT riddlesage_status riddlesage_encode(const riddlesage_frame *frame, uint8_t *levels, size_t room, size_t *count)
{
  uint64_t length = 0;
  riddlesage_status status;

  if (frame == NULL || levels == NULL || count == NULL)
    return RIDDLESAGE_NULL_POINTER;
  status = (riddlesage_status)can_c_encode(frame, levels, room, &length);
  if (status == RIDDLESAGE_OK)
    *count = (size_t)length;
  return status;
}

EXPORT riddlesage_status riddlesage_decode(const uint8_t *levels, size_t count, riddlesage_heard *heard, size_t *place)
{
  uint64_t level = UINT64_MAX; /* it stays so if no place is returned */
  riddlesage_status status;

  if (levels == NULL || heard == NULL || place == NULL)
    return RIDDLESAGE_NULL_POINTER;
  status = (riddlesage_status)can_c_decode(levels, count, heard, &level);
  if (level != UINT64_MAX)
    *place = (size_t)level;
  return status;
}

EXPORT const char *riddlesage_status_name(riddlesage_status status)
{
  static const char *const names[] = {
    "ok",       "null pointer",   "moved",   "no port",   "no memory", "queue full", "no entry",
    "bad flag", "bad identifier", "bad dlc", "bad level", "bad count", "no levels",  "no room",
    "short",    "no start",       "stuff",   "crc",       "form",      "bad scenario", "bad byte",
    "bad bus",  "no such port",   "bad order", "bad kind",  "bad wire",  "bad network", "no message",
    "too long",
  };
  return (size_t)status < sizeof names / sizeof names[0] ? names[status] : NULL;
}

EXPORT const char *riddlesage_event_name(riddlesage_event event)
{
  static const char *const names[] = {
    "nothing",   "sent",       "received",  "lost",     "bit error", "stuff error",
    "crc error", "form error", "ack error", "overload", "went off",  "recovered",
  };
  return (size_t)event < sizeof names / sizeof names[0] ? names[event] : NULL;
}

EXPORT const char *riddlesage_phase_name(riddlesage_phase phase)
{
  static const char *const names[] = {
    "idle",          "joining",      "stuffed-part", "crc-delimiter", "ack-slot",
    "ack-delimiter", "end-of-frame", "error-flag",   "passive-flag",  "overload-flag",
    "after-flag",    "delimiter",    "intermission", "suspend",       "bus-off",
  };
  return (size_t)phase < sizeof names / sizeof names[0] ? names[phase] : NULL;
}

EXPORT const char *riddlesage_rule_name(riddlesage_rule rule)
{
  static const char *const names[] = {
    [RIDDLESAGE_RULE_JOINING] = "Joining",
    [RIDDLESAGE_RULE_START_OF_FRAME] = "Start of frame",
    [RIDDLESAGE_RULE_KEPT_FRAME] = "Kept frame",
    [RIDDLESAGE_RULE_INTERMISSION] = "Intermission",
    [RIDDLESAGE_RULE_SUSPEND_TRANSMISSION] = "Suspend transmission",
    [RIDDLESAGE_RULE_BUS_OFF] = "Bus off",
    [RIDDLESAGE_RULE_ARBITRATION] = "Arbitration",
    [RIDDLESAGE_RULE_STUFF_PLACES] = "Stuff places",
    [RIDDLESAGE_RULE_FIXED_FORM] = "Fixed form",
    [RIDDLESAGE_RULE_ACKNOWLEDGEMENT] = "Acknowledgement",
    [RIDDLESAGE_RULE_ERROR_FLAGS] = "Error flags",
    [RIDDLESAGE_RULE_AFTER_A_FLAG] = "After a flag",
    [RIDDLESAGE_RULE_DELIMITER] = "Delimiter",
    [RIDDLESAGE_RULE_OVERLOAD_FLAGS] = "Overload flags",
  };
  return (size_t)rule < sizeof names / sizeof names[0] ? names[rule] : NULL;
}

EXPORT const char *riddlesage_version(void)
{
  return RIDDLESAGE_VERSION;
}
