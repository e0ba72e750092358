/*
 * The golden model for simulators of Verilog with VPI, as system functions and tasks:
 *
 *   port = $riddlesage_port(waiting, integrating);  a new port, a number from 0 on
 *   $riddlesage_reset(port, waiting, integrating);  a new port in its place, with this queue capacity:
 *                                                   0 idle, 1 bus integration
 *   $riddlesage_copy(port, from);                   makes it a copy of another port
 *   $riddlesage_offer(port, frame);                 queues a frame of 99 bits: extended, remote, identifier, DLC, data
 *   $riddlesage_hold(port, count);                  requests 0 to 2 overload frames
 *   level = $riddlesage_drive(port);                the level that it drives
 *   event_code = $riddlesage_sample(port, level);   passes a bit time; its event, a riddlesage_event
 *   frame = $riddlesage_frame(port);                the last frame that was sent or received
 *   tec = $riddlesage_tec(port); rec = $riddlesage_rec(port);
 *   phase = $riddlesage_phase(port);                its phase, a riddlesage_phase
 *   $riddlesage_stands(port);                       writes its state: phase, role, and the rule that decides
 *   $riddlesage_report(event_code, frame);          writes an event, with the frame if one was sent or received
 *   $riddlesage_cover(port);                        counts rule coverage from now on, and prints it at the end
 *
 * The data of a frame are its lowest 64 bits, the first byte in the highest of these. The simulation ends with a
 * message if the library refuses a call, a port does not exist, or a level or a frame has an x or a z. Nothing here is
 * proved, and no rule of CAN is here.
 */
#include "riddlesage.h"

#include <stdio.h>
#include <string.h>
#include <vpi_user.h>

enum { PORTS = 64, NAME_ROOM = 256 };
enum { FRAME_BITS = 99, EXTENDED = 98, REMOTE = 97, IDENTIFIER = 68, DLC = 64, DATA_BYTES = 8 };

static riddlesage_port ports[PORTS];
static riddlesage_frame frames[PORTS];
static riddlesage_coverage coverages[PORTS];
static char covered[PORTS][NAME_ROOM]; /* the module that asked for coverage; empty if none did */
static int made;

static void end(const char *why)
{
  vpi_printf("riddlesage: %s\n", why);
  vpi_control(vpiFinish, 1);
}

static void demand(riddlesage_status status)
{
  if (status == RIDDLESAGE_OK)
    return;
  vpi_printf("riddlesage: a call was refused: %s\n", riddlesage_status_name(status));
  vpi_control(vpiFinish, 1);
}

/* The arguments of the call, in their order. */
struct arguments {
  vpiHandle list;
};

static struct arguments arguments(void)
{
  struct arguments of = { vpi_iterate(vpiArgument, vpi_handle(vpiSysTfCall, NULL)) };
  return of;
}

/* The next argument; NULL after the last one, when the list is freed. */
static vpiHandle next(struct arguments *of)
{
  vpiHandle found = of->list != NULL ? vpi_scan(of->list) : NULL;
  if (found == NULL)
    of->list = NULL;
  return found;
}

static void done(struct arguments *of)
{
  if (of->list != NULL)
    vpi_free_object(of->list);
}

static int number(struct arguments *of)
{
  s_vpi_value value;
  vpiHandle argument = next(of);

  memset(&value, 0, sizeof value);
  value.format = vpiIntVal;
  if (argument == NULL) {
    end("an argument is missing");
    return 0;
  }
  vpi_get_value(argument, &value);
  return value.value.integer;
}

/* A level; neither x nor z. */
static uint8_t level(struct arguments *of)
{
  s_vpi_value value;
  vpiHandle argument = next(of);

  memset(&value, 0, sizeof value);
  value.format = vpiScalarVal;
  if (argument != NULL)
    vpi_get_value(argument, &value);
  if (argument == NULL || (value.value.scalar != vpi0 && value.value.scalar != vpi1)) {
    end("the bus has no level: it is neither 0 nor 1");
    return RIDDLESAGE_RECESSIVE;
  }
  return value.value.scalar == vpi1 ? RIDDLESAGE_RECESSIVE : RIDDLESAGE_DOMINANT;
}

/* The number of a port that was made. */
static int port_of(struct arguments *of)
{
  int port = number(of);
  if (port >= 0 && port < made)
    return port;
  end("there is no such port");
  return 0;
}

static void give(s_vpi_value *value)
{
  vpi_put_value(vpi_handle(vpiSysTfCall, NULL), value, NULL, vpiNoDelay);
}

static void give_number(int given)
{
  s_vpi_value value;

  memset(&value, 0, sizeof value);
  value.format = vpiIntVal;
  value.value.integer = given;
  give(&value);
}

static void make(int port, struct arguments *of)
{
  int waiting = number(of), integrating = number(of);
  demand((integrating != 0 ? riddlesage_port_joining : riddlesage_port_idle)(&ports[port], (size_t)waiting, 0));
}

static PLI_INT32 call_port(PLI_BYTE8 *data)
{
  struct arguments of = arguments();

  (void)data;
  if (made == PORTS) {
    end("there are too many ports");
  } else {
    make(made, &of);
    give_number(made++);
  }
  done(&of);
  return 0;
}

static PLI_INT32 call_reset(PLI_BYTE8 *data)
{
  struct arguments of = arguments();
  int port = port_of(&of);

  (void)data;
  make(port, &of);
  done(&of);
  return 0;
}

static PLI_INT32 call_copy(PLI_BYTE8 *data)
{
  struct arguments of = arguments();
  int port = port_of(&of), from = port_of(&of);

  (void)data;
  demand(riddlesage_port_copy(&ports[port], &ports[from]));
  frames[port] = frames[from];
  done(&of);
  return 0;
}

/* `count` bits of a vector, at most 32, from bit `low` on; none of them x or z. */
static uint32_t bits(const s_vpi_vecval *words, int low, int count)
{
  uint32_t value = 0;
  int place;

  for (place = 0; place < count; place++) {
    uint32_t word = (uint32_t)words[(low + place) / 32].aval;
    value |= (word >> (low + place) % 32 & 1) << place;
  }
  return value;
}

/* Whether one of the lowest `count` bits of a vector is x or z. */
static bool is_unknown(const s_vpi_vecval *words, int count)
{
  int place;

  for (place = 0; place < count; place++)
    if (((uint32_t)words[place / 32].bval >> place % 32 & 1) != 0)
      return true;
  return false;
}

static void put_bits(s_vpi_vecval *words, int low, int count, uint32_t value)
{
  int place;

  for (place = 0; place < count; place++) {
    s_vpi_vecval *word = &words[(low + place) / 32];
    word->aval = (PLI_INT32)((uint32_t)word->aval | (value >> place & 1) << (low + place) % 32);
  }
}

static riddlesage_frame frame_of(const s_vpi_vecval *words)
{
  riddlesage_frame frame = { 0, 0, 0, 0, { 0 } };
  int place;

  frame.extended = (uint8_t)bits(words, EXTENDED, 1);
  frame.remote = (uint8_t)bits(words, REMOTE, 1);
  frame.identifier = bits(words, IDENTIFIER, 29);
  frame.dlc = (uint8_t)bits(words, DLC, 4);
  for (place = 0; place < DATA_BYTES; place++)
    frame.data[place] = (uint8_t)bits(words, 8 * (DATA_BYTES - 1 - place), 8);
  return frame;
}

/* Reads the next argument, a frame. Returns NULL, or why it is not a frame. */
static const char *take_frame(struct arguments *of, riddlesage_frame *frame)
{
  vpiHandle argument = next(of);
  s_vpi_value value;

  memset(&value, 0, sizeof value);
  value.format = vpiVectorVal;
  if (argument == NULL || vpi_get(vpiSize, argument) < FRAME_BITS)
    return "a frame has 99 bits";
  vpi_get_value(argument, &value);
  if (is_unknown(value.value.vector, FRAME_BITS))
    return "a bit of a frame is neither 0 nor 1";
  *frame = frame_of(value.value.vector);
  return NULL;
}

static PLI_INT32 call_offer(PLI_BYTE8 *data)
{
  struct arguments of = arguments();
  int port = port_of(&of);
  riddlesage_frame frame;
  const char *why = take_frame(&of, &frame);

  (void)data;
  if (why != NULL)
    end(why);
  else
    demand(riddlesage_port_offer(&ports[port], &frame));
  done(&of);
  return 0;
}

static PLI_INT32 call_hold(PLI_BYTE8 *data)
{
  struct arguments of = arguments();
  int port = port_of(&of), count = number(&of);

  (void)data;
  demand(riddlesage_port_hold(&ports[port], (uint8_t)(count >= 0 && count < 256 ? count : 255)));
  done(&of);
  return 0;
}

static PLI_INT32 call_drive(PLI_BYTE8 *data)
{
  struct arguments of = arguments();
  uint8_t driven = RIDDLESAGE_RECESSIVE;

  (void)data;
  demand(riddlesage_port_drive(&ports[port_of(&of)], &driven));
  give_number(driven);
  done(&of);
  return 0;
}

static PLI_INT32 call_sample(PLI_BYTE8 *data)
{
  struct arguments of = arguments();
  int port = port_of(&of);
  uint8_t event = RIDDLESAGE_NOTHING;

  (void)data;
  if (covered[port][0] != '\0')
    demand(riddlesage_coverage_sample(&ports[port], &coverages[port], level(&of), &event, &frames[port]));
  else
    demand(riddlesage_port_sample(&ports[port], level(&of), &event, &frames[port]));
  give_number(event);
  done(&of);
  return 0;
}

static PLI_INT32 call_frame(PLI_BYTE8 *data)
{
  struct arguments of = arguments();
  const riddlesage_frame *frame = &frames[port_of(&of)];
  s_vpi_vecval words[FRAME_BITS / 32 + 1];
  s_vpi_value value;
  int place;

  (void)data;
  memset(words, 0, sizeof words);
  put_bits(words, EXTENDED, 1, frame->extended);
  put_bits(words, REMOTE, 1, frame->remote);
  put_bits(words, IDENTIFIER, 29, frame->identifier);
  put_bits(words, DLC, 4, frame->dlc);
  for (place = 0; place < DATA_BYTES; place++)
    put_bits(words, 8 * (DATA_BYTES - 1 - place), 8, frame->data[place]);
  memset(&value, 0, sizeof value);
  value.format = vpiVectorVal;
  value.value.vector = words;
  give(&value);
  done(&of);
  return 0;
}

/* The user data of the call choose the counter. */
static char transmit_counter[] = "transmit", receive_counter[] = "receive";

static PLI_INT32 call_counter(PLI_BYTE8 *data)
{
  struct arguments of = arguments();
  uint16_t transmit = 0, receive = 0;

  demand(riddlesage_port_counters(&ports[port_of(&of)], &transmit, &receive));
  give_number(data == transmit_counter ? transmit : receive);
  done(&of);
  return 0;
}

static PLI_INT32 call_phase(PLI_BYTE8 *data)
{
  struct arguments of = arguments();
  riddlesage_standing at = { RIDDLESAGE_PHASE_IDLE, 0, 0, RIDDLESAGE_RULE_START_OF_FRAME };

  (void)data;
  demand(riddlesage_port_phase(&ports[port_of(&of)], &at));
  give_number(at.phase);
  done(&of);
  return 0;
}

/* In the words of a verdict of canhold: `suspend 7, sender; Suspend transmission`. */
static PLI_INT32 call_stands(PLI_BYTE8 *data)
{
  struct arguments of = arguments();
  riddlesage_standing at = { RIDDLESAGE_PHASE_IDLE, 0, 0, RIDDLESAGE_RULE_START_OF_FRAME };
  riddlesage_phase phase;

  (void)data;
  demand(riddlesage_port_phase(&ports[port_of(&of)], &at));
  done(&of);
  phase = (riddlesage_phase)at.phase;
  vpi_printf("%s", riddlesage_phase_name(phase));
  if (phase != RIDDLESAGE_PHASE_IDLE && phase != RIDDLESAGE_PHASE_CRC_DELIMITER && phase != RIDDLESAGE_PHASE_ACK_SLOT &&
      phase != RIDDLESAGE_PHASE_ACK_DELIMITER)
    vpi_printf(" %u", at.place);
  vpi_printf(", %s; %s", at.sender != 0 ? "sender" : "receiver", riddlesage_rule_name((riddlesage_rule)at.rule));
  return 0;
}

/* Writes ` S 123 D 2 aa55`. */
static void write_frame(const riddlesage_frame *frame)
{
  int place, bytes = frame->remote != 0 ? 0 : frame->dlc < DATA_BYTES ? frame->dlc : DATA_BYTES;

  vpi_printf(frame->extended != 0 ? " E %08x" : " S %03x", (unsigned)frame->identifier);
  vpi_printf(" %s %u%s", frame->remote != 0 ? "R" : "D", frame->dlc, bytes > 0 ? " " : "");
  for (place = 0; place < bytes; place++)
    vpi_printf("%02x", frame->data[place]);
}

static PLI_INT32 call_report(PLI_BYTE8 *data)
{
  struct arguments of = arguments();
  int event = number(&of);
  const char *name = riddlesage_event_name((riddlesage_event)event);
  riddlesage_frame frame;

  (void)data;
  vpi_printf("%s", name != NULL ? name : "no event");
  if (event == RIDDLESAGE_SENT || event == RIDDLESAGE_RECEIVED) {
    const char *why = take_frame(&of, &frame);
    if (why != NULL)
      vpi_printf(" (%s)", why);
    else
      write_frame(&frame);
  }
  done(&of);
  return 0;
}

static PLI_INT32 call_cover(PLI_BYTE8 *data)
{
  struct arguments of = arguments();
  int port = port_of(&of);
  const char *module = vpi_get_str(vpiFullName, vpi_handle(vpiScope, vpi_handle(vpiSysTfCall, NULL)));

  (void)data;
  snprintf(covered[port], NAME_ROOM, "%s", module != NULL && *module != '\0' ? module : "riddlesage");
  done(&of);
  return 0;
}

/* At the end of the simulation: the coverage of each port for which it was counted. */
static PLI_INT32 print_coverage(p_cb_data data)
{
  char line[RIDDLESAGE_COVERAGE_LINE];
  size_t item;
  int port;

  (void)data;
  for (port = 0; port < made; port++) {
    for (item = 0; covered[port][0] != '\0' && item < RIDDLESAGE_COVERAGE_ITEMS; item++) {
      demand(riddlesage_coverage_line(&coverages[port], item, line));
      vpi_printf("%s: %s\n", covered[port], line);
    }
    covered[port][0] = '\0'; /* a simulator that loads this module twice calls this twice */
  }
  return 0;
}

static PLI_INT32 frame_size(PLI_BYTE8 *data)
{
  (void)data;
  return FRAME_BITS;
}

static void announce(const char *name, PLI_INT32 (*call)(PLI_BYTE8 *), PLI_INT32 returns, PLI_BYTE8 *data)
{
  s_vpi_systf_data one;

  memset(&one, 0, sizeof one);
  one.type = returns != 0 ? vpiSysFunc : vpiSysTask;
  one.sysfunctype = returns;
  one.tfname = (PLI_BYTE8 *)name;
  one.calltf = call;
  one.sizetf = returns == vpiSizedFunc ? frame_size : NULL;
  one.user_data = data;
  vpi_register_systf(&one);
}

static void announce_all(void)
{
  s_cb_data at_end;

  memset(&at_end, 0, sizeof at_end);
  at_end.reason = cbEndOfSimulation;
  at_end.cb_rtn = print_coverage;
  vpi_register_cb(&at_end);
  announce("$riddlesage_cover", call_cover, 0, NULL);
  announce("$riddlesage_port", call_port, vpiIntFunc, NULL);
  announce("$riddlesage_reset", call_reset, 0, NULL);
  announce("$riddlesage_copy", call_copy, 0, NULL);
  announce("$riddlesage_offer", call_offer, 0, NULL);
  announce("$riddlesage_hold", call_hold, 0, NULL);
  announce("$riddlesage_drive", call_drive, vpiIntFunc, NULL);
  announce("$riddlesage_sample", call_sample, vpiIntFunc, NULL);
  announce("$riddlesage_frame", call_frame, vpiSizedFunc, NULL);
  announce("$riddlesage_phase", call_phase, vpiIntFunc, NULL);
  announce("$riddlesage_stands", call_stands, 0, NULL);
  announce("$riddlesage_report", call_report, 0, NULL);
  announce("$riddlesage_tec", call_counter, vpiIntFunc, transmit_counter);
  announce("$riddlesage_rec", call_counter, vpiIntFunc, receive_counter);
}

void (*vlog_startup_routines[])(void) = { announce_all, NULL };
