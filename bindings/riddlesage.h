/**
 * @file riddlesage.h
 * @brief A reference model of a classical CAN controller, bit by bit, for C99 and C++11: Bosch CAN Specification 2.0
 * part B, and the classical frames of ISO 11898-1. Numbers in brackets are sections of Bosch, part B.
 *
 * One step of the model is one bit time. Not modelled: bit timing and synchronisation, CAN FD, the physical layer. All
 * times and durations are in bit times. docs/GLOSSARY.md explains the words.
 *
 * A port is a CAN node: a controller with a transmit queue, and a log of the frames that it has sent and received. In
 * each bit time, ask every port which level it drives, then give it the level of the bus:
 *
 * @code
 * riddlesage_port port = RIDDLESAGE_PORT_INIT;
 * riddlesage_port_idle(&port, 16, 64);
 * for (;;) {
 *   uint8_t level, event;
 *   riddlesage_port_drive(&port, &level);
 *   ...                                      the bus is dominant if any node drives dominant
 *   riddlesage_port_sample(&port, bus, &event, &frame);
 * }
 * riddlesage_port_free(&port);
 * @endcode
 *
 * What each call does is proved in the repository that this file belongs to, for the functions of crates/can_c that
 * these calls pass their arguments to; for riddlesage_marks(), and for the calls that take a text or a trace, it is
 * crates/can_page. Not proved, only tested: this header, riddlesage.c and texts.c, which check pointers and pass the
 * arguments on, the loop of riddlesage_wire_run() over other calls, coverage.c, which counts, and heap.c, which
 * allocates memory. The library as one file of C, riddlesage_portable.c, has a translation of the proved functions,
 * which is tested, not proved.
 *
 * Errors. A call that can fail returns a status, named below without RIDDLESAGE_. Unless it is OK, the port is as it
 * was, and nothing has been written; riddlesage_decode() and the calls that take a text or a trace state their
 * exceptions. Every argument and field may have any value: one that is out of range is refused by its status. If
 * several are wrong, the status is that of the first in the order of the arguments, the port before all others; a text
 * is read last.
 *
 * Requirements on the caller:
 *
 * - A pointer that is not NULL points to as much memory as is read or written there. During the call no other thread
 *   uses this memory, and no other argument points into it.
 * - A riddlesage_port is initialised with RIDDLESAGE_PORT_INIT or all bytes 0, or comes from riddlesage_port_new().
 *   Only these calls write it. A copy of the struct is refused (RIDDLESAGE_MOVED) as long as the original has not been
 *   overwritten; riddlesage_port_copy() copies a port.
 * - Calls for the same port, or the same wire, do not run at the same time. Different ports and wires are independent,
 *   and belong to no thread.
 *
 * Memory. Only riddlesage_port_new(), riddlesage_port_idle(), riddlesage_port_joining(), riddlesage_port_copy(),
 * riddlesage_play(), and the calls that take a text or a trace allocate memory, with malloc, or with what
 * RIDDLESAGE_MALLOC of riddlesage_portable.c names. From riddlesage_play() on they free theirs before they return.
 * riddlesage_play() and riddlesage_run() take a byte for each bit time, and some for each port, offer and hit;
 * riddlesage_port_times() takes more for each bit time. The calls that write a text also allocate 32 MiB in one block,
 * of which they touch as much as the text needs; riddlesage_port_times() does so if the scenario is wrong.
 */
#ifndef RIDDLESAGE_H
#define RIDDLESAGE_H

#include <stdbool.h>
#include <stddef.h>
#include <stdint.h>

/** The version of this header. The library's own is riddlesage_version(). */
#define RIDDLESAGE_VERSION "0.9.0"

/* All structs are laid out alike on all machines; on x86 of 32 bits, Linux aligns a uint64_t to four bytes only. */
#if defined(__i386__) && defined(__GNUC__)
#define RIDDLESAGE_LAYOUT __attribute__((aligned(8)))
#else
#define RIDDLESAGE_LAYOUT
#endif

#ifdef __cplusplus
extern "C" {
#endif

/** The result of a call. */
typedef enum riddlesage_status {
  RIDDLESAGE_OK = 0,             /**< the call has done what it promises */
  RIDDLESAGE_NULL_POINTER = 1,   /**< a pointer is NULL that must not be */
  RIDDLESAGE_MOVED = 2,          /**< the port is a copy of another one, or was not initialised to all bytes 0 */
  RIDDLESAGE_NO_PORT = 3,        /**< no port was made there, or it was freed */
  RIDDLESAGE_NO_MEMORY = 4,      /**< no memory for the port, the run of a bus, an analysis, or a text */
  RIDDLESAGE_QUEUE_FULL = 5,     /**< the transmit queue is full */
  RIDDLESAGE_NO_ENTRY = 6,       /**< the log has no entry with this number */
  RIDDLESAGE_BAD_FLAG = 7,       /**< extended, remote or details is neither 0 nor 1 */
  RIDDLESAGE_BAD_IDENTIFIER = 8, /**< the identifier is above 0x7ff and not extended, or above 0x1fffffff */
  RIDDLESAGE_BAD_DLC = 9,        /**< the DLC is above 15 */
  RIDDLESAGE_BAD_LEVEL = 10,     /**< a level is neither 0 nor 1 */
  RIDDLESAGE_BAD_COUNT = 11,     /**< more than two overload frames were requested */
  RIDDLESAGE_NO_LEVELS = 12,     /**< there are no levels to sample */
  RIDDLESAGE_NO_ROOM = 13,       /**< a buffer is too small for what it is to hold */
  RIDDLESAGE_SHORT = 14,         /**< the levels end before the frame does */
  RIDDLESAGE_NO_START = 15,      /**< the first level is recessive, so it is no start of frame */
  RIDDLESAGE_STUFF = 16,         /**< stuff error: a sixth equal level in a row (7.1) */
  RIDDLESAGE_CRC = 17,           /**< the CRC sequence is wrong */
  RIDDLESAGE_FORM = 18,          /**< form error: a delimiter, or one of the first six bits of the end of frame, is
                                      dominant (7.1) */
  RIDDLESAGE_BAD_SCENARIO = 19,  /**< the text is not a valid scenario */
  RIDDLESAGE_BAD_BYTE = 20,      /**< a byte of a trace is neither a level, nor a space, nor part of a line end */
  RIDDLESAGE_BAD_BUS = 21,       /**< a bus has no ports, more than 64, or the same one twice */
  RIDDLESAGE_NO_SUCH_PORT = 22,  /**< an offer, a hit or the caller names a port that the bus or scenario lacks */
  RIDDLESAGE_BAD_ORDER = 23,     /**< an offer is earlier than the previous one, or a hit not above the previous one */
  RIDDLESAGE_BAD_KIND = 24,      /**< the kind of a hit is not a riddlesage_hit_kind */
  RIDDLESAGE_BAD_WIRE = 25,      /**< the fields of a wire are out of range, or it has had 2^64 - 1 bit times */
  RIDDLESAGE_BAD_NETWORK = 26,   /**< the text is not a valid network */
  RIDDLESAGE_NO_MESSAGE = 27,    /**< no message of the network has this `frame` */
  RIDDLESAGE_TOO_LONG = 28       /**< the worst case is longer than a scenario can be, or has no end */
} riddlesage_status;

/** Levels: the value of a bit, one byte each in every list. Dominant overrides recessive (2). */
enum { RIDDLESAGE_DOMINANT = 0, RIDDLESAGE_RECESSIVE = 1 };

/** The event of a bit time, as a port reports it: at most one. */
typedef enum riddlesage_event {
  RIDDLESAGE_NOTHING = 0,     /**< no event */
  RIDDLESAGE_SENT = 1,        /**< a frame was transmitted: reported in the last bit of its end of frame (5) */
  RIDDLESAGE_RECEIVED = 2,    /**< a frame was received: reported in the last bit but one of its end of frame (5) */
  RIDDLESAGE_LOST = 3,        /**< arbitration was lost: the port continues as a receiver (3.2.1) */
  RIDDLESAGE_BIT_ERROR = 4,   /**< the sampled bit differs from the one that was sent (7.1) */
  RIDDLESAGE_STUFF_ERROR = 5, /**< a sixth equal bit in a row, where a stuff bit is due (7.1) */
  RIDDLESAGE_CRC_ERROR = 6,   /**< the CRC sequence is wrong: reported in the ACK delimiter (7.1, 7.2) */
  RIDDLESAGE_FORM_ERROR = 7,  /**< a bit of fixed form has the wrong level (7.1) */
  RIDDLESAGE_ACK_ERROR = 8,   /**< the transmitter sees a recessive ACK slot (7.1) */
  RIDDLESAGE_OVERLOAD = 9,    /**< an overload flag starts with the next bit time (3.2.4) */
  RIDDLESAGE_WENT_OFF = 10,   /**< the port is bus off from the next bit time on (8) */
  RIDDLESAGE_RECOVERED = 11   /**< bus off has ended: 128 times eleven recessive bits have passed (8) */
} riddlesage_event;

/** The state of fault confinement (8). TEC and REC are the transmit and the receive error counter. */
typedef enum riddlesage_state {
  RIDDLESAGE_ERROR_ACTIVE = 0,  /**< TEC and REC are at most 127 */
  RIDDLESAGE_ERROR_PASSIVE = 1, /**< TEC or REC is at least 128, and TEC at most 255 */
  RIDDLESAGE_BUS_OFF = 2        /**< TEC is at least 256 */
} riddlesage_state;

/**
 * The phase of a port before a bit time. Its name without RIDDLESAGE_PHASE_ is that of the verdicts of canhold. `place`
 * is the place within the phase, as each says.
 */
typedef enum riddlesage_phase {
  RIDDLESAGE_PHASE_IDLE = 0,          /**< between frames, and free to send */
  RIDDLESAGE_PHASE_JOINING = 1,       /**< bus integration: `place` recessive levels in a row so far, 0 to 10 */
  RIDDLESAGE_PHASE_STUFFED_PART = 2,  /**< start of frame to CRC sequence: `place` bits without stuff bits, 1 to 118 */
  RIDDLESAGE_PHASE_CRC_DELIMITER = 3, /**< the next bit is the CRC delimiter */
  RIDDLESAGE_PHASE_ACK_SLOT = 4,      /**< the next bit is the ACK slot */
  RIDDLESAGE_PHASE_ACK_DELIMITER = 5, /**< the next bit is the ACK delimiter */
  RIDDLESAGE_PHASE_END_OF_FRAME = 6,  /**< `place` of its seven bits have passed, 0 to 6 */
  RIDDLESAGE_PHASE_ERROR_FLAG = 7,    /**< active error flag: `place` of its six bits have passed, 0 to 5 */
  RIDDLESAGE_PHASE_PASSIVE_FLAG = 8,  /**< passive error flag: the last `place` levels were equal, 0 to 5 */
  RIDDLESAGE_PHASE_OVERLOAD_FLAG = 9, /**< `place` of its six bits have passed, 0 to 5 */
  RIDDLESAGE_PHASE_AFTER_FLAG = 10,   /**< after a flag, until a recessive level: `place` dominant levels, modulo 8 */
  RIDDLESAGE_PHASE_DELIMITER = 11,    /**< error or overload delimiter: `place` of its eight bits, 1 to 7 */
  RIDDLESAGE_PHASE_INTERMISSION = 12, /**< `place` of its three bits have passed, 0 to 2 */
  RIDDLESAGE_PHASE_SUSPEND = 13,      /**< suspend transmission: `place` of its eight bits, 0 to 7 */
  RIDDLESAGE_PHASE_BUS_OFF = 14       /**< `place` times eleven recessive levels so far, 0 to 127 */
} riddlesage_phase;

/** The rule of docs/ACCESS.md that decides in a bit time. The missing numbers are of rules that only verdicts name. */
typedef enum riddlesage_rule {
  RIDDLESAGE_RULE_JOINING = 0,
  RIDDLESAGE_RULE_START_OF_FRAME = 1,
  RIDDLESAGE_RULE_KEPT_FRAME = 2, /**< a transmitter after arbitration */
  RIDDLESAGE_RULE_INTERMISSION = 3,
  RIDDLESAGE_RULE_SUSPEND_TRANSMISSION = 4,
  RIDDLESAGE_RULE_BUS_OFF = 5,
  RIDDLESAGE_RULE_ARBITRATION = 6,
  RIDDLESAGE_RULE_STUFF_PLACES = 7,
  RIDDLESAGE_RULE_FIXED_FORM = 8,
  RIDDLESAGE_RULE_ACKNOWLEDGEMENT = 9,
  RIDDLESAGE_RULE_ERROR_FLAGS = 12,
  RIDDLESAGE_RULE_AFTER_A_FLAG = 14,
  RIDDLESAGE_RULE_DELIMITER = 15,
  RIDDLESAGE_RULE_OVERLOAD_FLAGS = 16
} riddlesage_rule;

/** The protocol state of a port before a bit time. */
typedef struct riddlesage_standing {
  uint8_t phase;  /**< a riddlesage_phase */
  uint8_t place;  /**< place within the phase; 0 in phases of one bit, and when idle */
  uint8_t sender; /**< 1 if the port is the transmitter of the frame on the bus, otherwise 0 */
  uint8_t rule;   /**< the riddlesage_rule that decides in this phase */
} riddlesage_standing;

/** A data frame or a remote frame. */
typedef struct riddlesage_frame {
  uint32_t identifier; /**< 0 to 0x7ff; 0 to 0x1fffffff if it is extended */
  uint8_t extended;    /**< 1 if the identifier has 29 bits, otherwise 0 */
  uint8_t remote;      /**< 1 for a remote frame, otherwise 0 */
  uint8_t dlc;         /**< the data length code, 0 to 15; 9 to 15 mean eight bytes */
  uint8_t data[8];     /**< the first min(DLC, 8) bytes of a data frame; the others are not read, and returned as 0 */
} riddlesage_frame;

/** A frame as received, with the bits for which a receiver accepts either level. */
typedef struct riddlesage_heard {
  riddlesage_frame frame;
  uint8_t acknowledged; /**< 1 if the ACK slot is dominant, otherwise 0 */
  uint8_t srr;          /**< the SRR bit; recessive in a standard frame, which has none */
  uint8_t r1;           /**< the reserved bit r1; dominant in a standard frame, which has none */
  uint8_t r0;           /**< the reserved bit r0 */
  uint8_t last;         /**< the last bit of the end of frame */
} riddlesage_heard;

/** A part of a riddlesage_port. Only the library uses its fields. */
struct riddlesage_handle {
  uint64_t at;
  uint8_t live;
  uint8_t unused[7];
} RIDDLESAGE_LAYOUT;

/** A port. It must stay at the address at which it was made. */
typedef struct riddlesage_port {
  struct riddlesage_handle handle;
  const void *self;
} riddlesage_port;

/** Initialises a riddlesage_port. */
#define RIDDLESAGE_PORT_INIT { { 0, 0, { 0 } }, NULL }

/** The capacity for the levels of any frame: no frame has more, stuff bits included. */
enum { RIDDLESAGE_MOST_LEVELS = 157 };

/**
 * Allocates a riddlesage_port, for callers that cannot keep one at a fixed address. It is as RIDDLESAGE_PORT_INIT:
 * riddlesage_port_idle() or riddlesage_port_joining() makes a port of it.
 * @return its address, for riddlesage_port_delete(); NULL without memory
 */
riddlesage_port *riddlesage_port_new(void);

/**
 * Frees a port of riddlesage_port_new(), and the memory that it is in. No call may use it afterwards.
 * @param port the port, made or not
 * @return OK, NULL_POINTER, MOVED
 */
riddlesage_status riddlesage_port_delete(riddlesage_port *port);

/**
 * Makes a port that is on the bus and idle, with both error counters 0. A port that is there already is freed; with
 * NO_MEMORY it stays.
 * @param port where the port is made
 * @param queue the capacity of its transmit queue, in frames
 * @param log the capacity of its log, in entries
 * @return OK, NULL_POINTER, MOVED, NO_MEMORY
 */
riddlesage_status riddlesage_port_idle(riddlesage_port *port, size_t queue, size_t log);

/**
 * Makes a port that begins with bus integration: it waits for eleven recessive levels in a row before it takes part.
 * Otherwise it is as that of riddlesage_port_idle().
 * @param port where the port is made
 * @param queue the capacity of its transmit queue, in frames
 * @param log the capacity of its log, in entries
 * @return OK, NULL_POINTER, MOVED, NO_MEMORY
 */
riddlesage_status riddlesage_port_joining(riddlesage_port *port, size_t queue, size_t log);

/**
 * Copies a port, with its queue and its log: from then on the copy behaves as the original does. A port that is there
 * already is freed; with NO_MEMORY it stays. The original does not change.
 * @param port where the copy is made; if it is the original, nothing is done
 * @param from the original
 * @return OK, NULL_POINTER and MOVED for either, NO_PORT for the original, NO_MEMORY
 */
riddlesage_status riddlesage_port_copy(riddlesage_port *port, riddlesage_port *from);

/**
 * Frees a port. The memory of riddlesage_port_new() remains. If there is no port, this does nothing.
 * @param port the port
 * @return OK, NULL_POINTER, MOVED
 */
riddlesage_status riddlesage_port_free(riddlesage_port *port);

/**
 * Queues a frame for transmission. The port first sends the queued frame with the highest priority, and of those with
 * the same arbitration field the one that was queued first. It repeats a frame until it has been sent (3.2.1, 7.2).
 * @param port the port
 * @param[in] frame the frame, which is copied
 * @return OK, NULL_POINTER, MOVED, NO_PORT, BAD_FLAG, BAD_IDENTIFIER, BAD_DLC, QUEUE_FULL
 */
riddlesage_status riddlesage_port_offer(riddlesage_port *port, const riddlesage_frame *frame);

/**
 * Requests overload frames, in place of an earlier request. As a receiver, the port starts them after the next frame
 * (3.2.4).
 * @param port the port
 * @param count how many, 0 to 2
 * @return OK, NULL_POINTER, MOVED, NO_PORT, BAD_COUNT
 */
riddlesage_status riddlesage_port_hold(riddlesage_port *port, uint8_t count);

/**
 * Gets the level that the port drives in this bit time. The port does not change.
 * @param port the port
 * @param[out] level RIDDLESAGE_DOMINANT or RIDDLESAGE_RECESSIVE
 * @return OK, NULL_POINTER, MOVED, NO_PORT
 */
riddlesage_status riddlesage_port_drive(riddlesage_port *port, uint8_t *level);

/**
 * Passes one bit time: the port samples the level of the bus.
 * @param port the port
 * @param level RIDDLESAGE_DOMINANT or RIDDLESAGE_RECESSIVE
 * @param[out] event the event of this bit time, a riddlesage_event
 * @param[out] frame the frame, if the event is SENT or RECEIVED; otherwise not written; may be NULL
 * @return OK, NULL_POINTER, MOVED, NO_PORT, BAD_LEVEL
 */
riddlesage_status riddlesage_port_sample(riddlesage_port *port, uint8_t level, uint8_t *event, riddlesage_frame *frame);

/**
 * Passes `count` bit times: the port samples these levels, whatever it drives. All levels are checked before the first
 * is sampled.
 * @param port the port
 * @param[in] levels the levels
 * @param count how many, at least 1
 * @param[out] drives the level that the port drove in each bit time: `count` bytes
 * @param[out] events the event of each bit time, a riddlesage_event: `count` bytes
 * @return OK, NULL_POINTER, MOVED, NO_PORT, NO_LEVELS, BAD_LEVEL
 */
riddlesage_status riddlesage_port_run(riddlesage_port *port, const uint8_t *levels, size_t count, uint8_t *drives,
                                      uint8_t *events);

/**
 * Gets the error counters (8).
 * @param port the port
 * @param[out] transmit the transmit error counter, TEC, 0 to 263
 * @param[out] receive the receive error counter, REC, 0 to 255
 * @return OK, NULL_POINTER, MOVED, NO_PORT
 */
riddlesage_status riddlesage_port_counters(riddlesage_port *port, uint16_t *transmit, uint16_t *receive);

/**
 * Gets the state of fault confinement (8).
 * @param port the port
 * @param[out] state a riddlesage_state
 * @return OK, NULL_POINTER, MOVED, NO_PORT
 */
riddlesage_status riddlesage_port_state(riddlesage_port *port, uint8_t *state);

/**
 * Gets the phase of the port before the next bit time, and the rule that decides in it. They are those of a verdict of
 * `canhold judge`, with one exception: the first bit of a flag, after an error or OVERLOAD. A verdict names the rule by
 * which the flag was started. This call, which knows only the present state, names ERROR_FLAGS or OVERLOAD_FLAGS; the
 * event of the bit time before says what started the flag.
 * @param port the port
 * @param[out] standing phase, place, role and rule
 * @return OK, NULL_POINTER, MOVED, NO_PORT
 */
riddlesage_status riddlesage_port_phase(riddlesage_port *port, riddlesage_standing *standing);

/**
 * Gets the number of entries in the log.
 * @param port the port
 * @param[out] count how many
 * @return OK, NULL_POINTER, MOVED, NO_PORT
 */
riddlesage_status riddlesage_port_log_length(riddlesage_port *port, size_t *count);

/**
 * Gets the number of entries for which the log had no capacity.
 * @param port the port
 * @param[out] count how many; it stops at 2^32 - 1
 * @return OK, NULL_POINTER, MOVED, NO_PORT
 */
riddlesage_status riddlesage_port_missed(riddlesage_port *port, uint32_t *count);

/**
 * Gets an entry of the log.
 * @param port the port
 * @param number the entry's number; the oldest is 0
 * @param[out] frame its frame
 * @param[out] sent 1 if the port sent it, 0 if it received it
 * @return OK, NULL_POINTER, MOVED, NO_PORT, NO_ENTRY
 */
riddlesage_status riddlesage_port_entry(riddlesage_port *port, size_t number, riddlesage_frame *frame, uint8_t *sent);

/** A frame that is queued at a port while the bus runs. */
typedef struct riddlesage_offer {
  uint64_t time;          /**< the bit time before which it is queued; the first of the call is 0 */
  uint64_t port;          /**< the index of the port; the first is 0 */
  riddlesage_frame frame; /**< the frame */
} RIDDLESAGE_LAYOUT riddlesage_offer;

/** The kinds of injected bit errors. */
typedef enum riddlesage_hit_kind {
  RIDDLESAGE_HIT_AT = 0,  /**< for all nodes, the level of the bus is inverted in bit time `time` */
  RIDDLESAGE_HIT_IN = 1,  /**< for all nodes, it is inverted `offset` bit times after the start of transmission attempt
                               `attempt`, unless a later attempt has begun by then */
  RIDDLESAGE_HIT_VIEW = 2 /**< port `port` alone samples the inverse of the bus level, in bit time `time` */
} riddlesage_hit_kind;

/**
 * An injected bit error, in one bit time of a bus. Fields that its kind does not name are not read. A transmission
 * attempt begins with a dominant level after eleven recessive ones.
 */
typedef struct riddlesage_hit {
  uint64_t time;    /**< the bit time; the first of the call is 0 */
  uint64_t attempt; /**< the transmission attempt; the first that begins in the call is 0 */
  uint64_t offset;  /**< how many bit times after its start of frame */
  uint64_t port;    /**< the index of the port; the first is 0 */
  uint8_t kind;     /**< a riddlesage_hit_kind */
} RIDDLESAGE_LAYOUT riddlesage_hit;

/** The most ports that a bus may have. */
enum { RIDDLESAGE_MOST_PORTS = 64 };

/**
 * Runs a bus of ports for `bits` bit times, queues frames at their times, and injects bit errors (docs/BUS.md).
 *
 * The ports continue from their present state, and keep the state that they reach. Other calls return what they have
 * sent and received; they may continue, also on another bus. The bus counts as recessive for eleven bit times before
 * the call, so its first dominant level begins attempt 0.
 * @param[in] ports the ports, each once
 * @param count how many, 1 to RIDDLESAGE_MOST_PORTS
 * @param[in] offers the frames, in the order of their times. Those of one time are queued in this order. One at `bits`
 * or later is not queued. May be NULL if there are none
 * @param offer_count how many
 * @param[in] hits the bit errors, in strictly rising order: HIT_AT by time; then HIT_IN by attempt and offset; then
 * HIT_VIEW by time and port. May be NULL if there are none
 * @param hit_count how many
 * @param[out] levels the level of the bus in each bit time: `bits` bytes; may be NULL if that is 0
 * @param bits how many bit times the bus runs
 * @param[out] refused how many of the offers a full queue refused; may be NULL
 * @return OK, NULL_POINTER, BAD_BUS, and MOVED, NO_PORT for a port; BAD_FLAG, BAD_IDENTIFIER, BAD_DLC for an offer;
 * BAD_KIND for a hit; NO_MEMORY; and for the first offer that is wrong, or otherwise the first hit, BAD_ORDER or
 * NO_SUCH_PORT
 */
riddlesage_status riddlesage_play(riddlesage_port *const *ports, size_t count, const riddlesage_offer *offers,
                                  size_t offer_count, const riddlesage_hit *hits, size_t hit_count, uint8_t *levels,
                                  size_t bits, size_t *refused);

/**
 * The state of a bus between two bit times, without its nodes: for a bus on which some nodes are your own code, and all
 * are called bit time by bit time. Initialise it with RIDDLESAGE_WIRE_INIT or all bytes 0: no bit time has passed, and
 * the bus counts as recessive for eleven. It is a plain value, which may be read, copied and kept.
 */
typedef struct riddlesage_wire {
  uint64_t time;      /**< how many bit times have passed */
  uint64_t attempts;  /**< how many transmission attempts have begun */
  uint64_t start;     /**< the bit time in which the latest of them began; not read if there is none */
  uint8_t until_rest; /**< how many recessive levels are missing from eleven in a row, after which a dominant level
                           begins an attempt: 0 to 11 */
} RIDDLESAGE_LAYOUT riddlesage_wire;

/** Initialises a riddlesage_wire. */
#define RIDDLESAGE_WIRE_INIT { 0, 0, 0, 0 }

/**
 * Passes one bit time of a bus (docs/BUS.md): its level is dominant if any node drives dominant, and inverted if a hit
 * falls on it. Each call reads all the hits; the list may differ from call to call. Hits in other bit times have no
 * effect.
 * @param wire the state of the bus
 * @param[in] drives the level that each node drives; may be NULL if there is none
 * @param count how many nodes
 * @param[in] hits the bit errors, in any order; may be NULL if there are none
 * @param hit_count how many
 * @param[out] level the level of the bus
 * @param[out] seen the level that each node samples: `count` bytes; may be NULL
 * @return OK, NULL_POINTER, BAD_WIRE, BAD_LEVEL, and for the first hit that is wrong BAD_KIND or NO_SUCH_PORT
 */
riddlesage_status riddlesage_wire_step(riddlesage_wire *wire, const uint8_t *drives, size_t count,
                                       const riddlesage_hit *hits, size_t hit_count, uint8_t *level, uint8_t *seen);

/**
 * Passes bit times of a bus of ports until one of them has an event, but at most `bits`. Each bit time is that of
 * riddlesage_port_drive() for every port, riddlesage_wire_step(), and riddlesage_port_sample() for every port.
 * @param wire the state of the bus
 * @param ports the ports of the bus
 * @param count how many: 1 to RIDDLESAGE_MOST_PORTS
 * @param[in] hits the bit errors, in any order; may be NULL if there are none
 * @param hit_count how many
 * @param bits the most bit times
 * @param[out] events the event of each port in the last bit time that passed, RIDDLESAGE_NOTHING if none did: `count`
 * bytes
 * @param[out] frames the frame of each port whose event has one: `count` frames
 * @param[out] passed how many bit times passed: fewer than `bits` only if a port has an event, or after 2^64 - 1 of
 * them
 * @return OK; NULL_POINTER, BAD_BUS, or the status of the first port that cannot be used, MOVED or NO_PORT; for a wire
 * or hits BAD_WIRE, BAD_KIND, NO_SUCH_PORT
 */
riddlesage_status riddlesage_wire_run(riddlesage_wire *wire, riddlesage_port *const *ports, size_t count,
                                      const riddlesage_hit *hits, size_t hit_count, size_t bits, uint8_t *events,
                                      riddlesage_frame *frames, size_t *passed);

/**
 * Encodes a frame: the levels that its transmitter drives from the start of frame to the end of frame, with stuff bits,
 * the ACK slot recessive (3.2.1, 3.2.2, 6).
 * @param[in] frame the frame
 * @param[out] levels the levels
 * @param room the capacity of `levels`, in bytes; RIDDLESAGE_MOST_LEVELS suffices
 * @param[out] count how many levels the frame has
 * @return OK, NULL_POINTER, BAD_FLAG, BAD_IDENTIFIER, BAD_DLC, NO_ROOM
 */
riddlesage_status riddlesage_encode(const riddlesage_frame *frame, uint8_t *levels, size_t room, size_t *count);

/**
 * Decodes the frame with which the levels begin. It reads at most the first RIDDLESAGE_MOST_LEVELS; later ones have no
 * effect.
 * @param[in] levels the levels
 * @param count how many there are
 * @param[out] heard the frame as received
 * @param[out] place how many levels the frame has. With one of the last five statuses, how many levels come before the
 * first wrong one
 * @return OK, NULL_POINTER, BAD_LEVEL; and, if the levels begin with no frame, the fault: SHORT, NO_START, STUFF, CRC,
 * FORM
 */
riddlesage_status riddlesage_decode(const uint8_t *levels, size_t count, riddlesage_heard *heard, size_t *place);

/** The field of a frame in which a level is (3.2.1). */
typedef enum riddlesage_field {
  RIDDLESAGE_FIELD_START_OF_FRAME = 0,   /**< start of frame */
  RIDDLESAGE_FIELD_IDENTIFIER = 1,       /**< identifier */
  RIDDLESAGE_FIELD_RTR_OR_SRR = 2,       /**< RTR or SRR, if the levels end before the IDE bit */
  RIDDLESAGE_FIELD_RTR = 3,              /**< RTR */
  RIDDLESAGE_FIELD_SRR = 4,              /**< SRR */
  RIDDLESAGE_FIELD_IDE = 5,              /**< IDE */
  RIDDLESAGE_FIELD_R1 = 6,               /**< reserved bit r1 */
  RIDDLESAGE_FIELD_R0 = 7,               /**< reserved bit r0 */
  RIDDLESAGE_FIELD_DATA_LENGTH_CODE = 8, /**< DLC */
  RIDDLESAGE_FIELD_DATA = 9,             /**< data bytes */
  RIDDLESAGE_FIELD_CRC_SEQUENCE = 10,    /**< CRC sequence */
  RIDDLESAGE_FIELD_CRC_DELIMITER = 11,   /**< CRC delimiter */
  RIDDLESAGE_FIELD_ACK_SLOT = 12,        /**< ACK slot */
  RIDDLESAGE_FIELD_ACK_DELIMITER = 13,   /**< ACK delimiter */
  RIDDLESAGE_FIELD_END_OF_FRAME = 14     /**< end of frame */
} riddlesage_field;

/**
 * Names the field of each level of a frame, and its stuff bits (3.2.1, 6). It reads at most the first
 * RIDDLESAGE_MOST_LEVELS. Levels have a field from a start of frame on, to the end of the frame, or to a wrong stuff
 * bit; if the first level is recessive, none has.
 * @param[in] levels the levels
 * @param length how many there are
 * @param[out] fields the riddlesage_field of each level: RIDDLESAGE_MOST_LEVELS bytes. A stuff bit has that of the
 * level before it
 * @param[out] stuffed 1 for a stuff bit, otherwise 0: RIDDLESAGE_MOST_LEVELS bytes
 * @param[out] count how many levels have a field
 * @return OK, NULL_POINTER, BAD_LEVEL
 */
riddlesage_status riddlesage_marks(const uint8_t *levels, size_t length, uint8_t *fields, uint8_t *stuffed,
                                   size_t *count);

/**
 * The most bytes of a text that a call below writes. To get the length of a text first, call with a capacity of 0 and a
 * buffer that is not NULL: the status is NO_ROOM, and `count` is the length.
 */
enum { RIDDLESAGE_MOST_TEXT = 33554432 };

/** The capacity for the name of a field of a scenario or a network, in bytes. */
enum { RIDDLESAGE_FIELD_ROOM = 64 };

/** The capacity for what a field of a network must be, in words, in bytes. */
enum { RIDDLESAGE_WORDS_ROOM = 192 };

/** The most bit times of a scenario. */
enum { RIDDLESAGE_MOST_BITS = 1000000 };

/**
 * Simulates a scenario, and writes its report: byte for byte the output of `canbit run` (docs/FORMATS.md).
 * @param[in] text the scenario, a TOML document
 * @param length its length in bytes
 * @param[out] report the report, without a terminating 0
 * @param room the capacity of `report`, in bytes
 * @param[out] count how many bytes the report has; with NO_ROOM too, or 0 if these are more than RIDDLESAGE_MOST_TEXT
 * @param[out] field with BAD_SCENARIO the first field that is wrong, such as `port[0].log`, with a terminating 0:
 * RIDDLESAGE_FIELD_ROOM bytes; may be NULL
 * @return OK, NULL_POINTER, NO_MEMORY, BAD_SCENARIO, NO_ROOM
 */
riddlesage_status riddlesage_run(const char *text, size_t length, char *report, size_t room, size_t *count,
                                 char *field);

/** What a port of a scenario did in a bit time. */
typedef struct riddlesage_port_time {
  uint16_t transmit; /**< the transmit error counter, TEC, before the bit time */
  uint16_t receive;  /**< the receive error counter, REC, before the bit time */
  uint8_t phase;     /**< the riddlesage_phase before the bit time */
  uint8_t sender;    /**< 1 if the port was the transmitter of the frame on the bus, otherwise 0 */
  uint8_t drives;    /**< the level that it drove */
  uint8_t samples;   /**< the level that it sampled */
  uint8_t event;     /**< the riddlesage_event of the bit time */
} riddlesage_port_time;

/**
 * Simulates a scenario, and writes what one of its ports did in each bit time.
 * @param[in] text the scenario, a TOML document
 * @param length its length in bytes
 * @param port the index of the port; the first is 0
 * @param[out] times the bit times, the first of the scenario first
 * @param room the capacity of `times`, in elements; RIDDLESAGE_MOST_BITS suffices
 * @param[out] count how many bit times the scenario has: its `bits`. It is not written with NO_ROOM
 * @param[out] field with BAD_SCENARIO the first field that is wrong, such as `port[0].log`, with a terminating 0:
 * RIDDLESAGE_FIELD_ROOM bytes; may be NULL
 * @return OK, NULL_POINTER, NO_MEMORY, BAD_SCENARIO, NO_SUCH_PORT, NO_ROOM
 */
riddlesage_status riddlesage_port_times(const char *text, size_t length, size_t port, riddlesage_port_time *times,
                                        size_t room, size_t *count, char *field);

/** What is wrong in a network: `canplan` prints both texts (docs/CODES.md). */
typedef struct riddlesage_wrong {
  char field[RIDDLESAGE_FIELD_ROOM]; /**< the first field that is wrong, such as `message[3].period`, with a terminating
                                          0 */
  char words[RIDDLESAGE_WORDS_ROOM]; /**< what it must be, such as `must be 0 to 15`, with a terminating 0 */
} riddlesage_wrong;

/**
 * Analyses a network, and writes an upper bound on the response time of each message: byte for byte the output of
 * `canplan` (docs/PLANNING.md).
 * @param[in] text the network, a TOML document
 * @param length its length in bytes
 * @param details 1 to write also the parts of each bound, as `canplan --details`; otherwise 0
 * @param[out] report a line for each message and for the network, without a terminating 0
 * @param room the capacity of `report`, in bytes
 * @param[out] count how many bytes the report has; with NO_ROOM too, or 0 if these are more than RIDDLESAGE_MOST_TEXT
 * @param[out] late how many messages may miss their deadlines; may be NULL
 * @param[out] wrong with BAD_NETWORK what is wrong; may be NULL
 * @return OK, NULL_POINTER, BAD_FLAG for `details`, NO_MEMORY, BAD_NETWORK, NO_ROOM
 */
riddlesage_status riddlesage_plan(const char *text, size_t length, uint8_t details, char *report, size_t room,
                                  size_t *count, size_t *late, riddlesage_wrong *wrong);

/**
 * Writes the worst case of a message of a network, without bit errors, as a scenario for riddlesage_run(): byte for
 * byte the output of `canplan --timeline` (docs/PLANNING.md).
 * @param[in] text the network, a TOML document
 * @param length its length in bytes
 * The port of the message is its place in the report of riddlesage_plan(), the first being 0, and at most 63.
 * @param[in] message the `frame` of the message as the network has it, such as `S 300 D`: not its `name`, and without
 * the DLC that the report of riddlesage_plan() adds; it needs no terminating 0
 * @param message_length its length in bytes
 * @param[out] scenario the scenario, without a terminating 0
 * @param room the capacity of `scenario`, in bytes
 * @param[out] count how many bytes the scenario has; with NO_ROOM too, or 0 if these are more than RIDDLESAGE_MOST_TEXT
 * @param[out] wrong with BAD_NETWORK what is wrong; may be NULL
 * @return OK, NULL_POINTER, NO_MEMORY, BAD_NETWORK, NO_MESSAGE, TOO_LONG, NO_ROOM
 */
riddlesage_status riddlesage_worst_case(const char *text, size_t length, const char *message, size_t message_length,
                                        char *scenario, size_t room, size_t *count, riddlesage_wrong *wrong);

/**
 * Decodes a trace, and writes a line for each frame and fault: byte for byte the output of `canbit decode`
 * (docs/FORMATS.md).
 * @param[in] text the trace: digits 0 and 1, spaces and line ends
 * @param length its length in bytes
 * @param[out] lines the lines, without a terminating 0; with BAD_BYTE those of the levels before that byte
 * @param room the capacity of `lines`, in bytes
 * @param[out] count how many bytes the lines have, also with BAD_BYTE; with NO_ROOM too, or 0 if these are more than
 * RIDDLESAGE_MOST_TEXT
 * @param[out] place with BAD_BYTE how many bytes come before that one; may be NULL
 * @return OK, NULL_POINTER, NO_MEMORY, NO_ROOM, BAD_BYTE. NO_ROOM, if the lines before a bad byte have no room
 */
riddlesage_status riddlesage_decode_trace(const char *text, size_t length, char *lines, size_t room, size_t *count,
                                          size_t *place);

/**
 * Decodes a trace given as levels, without copying them, and writes a line for each frame and fault: those of
 * riddlesage_decode_trace() for the same levels as text.
 * @param[in] levels the levels
 * @param length how many there are
 * @param[out] lines the lines, without a terminating 0; with BAD_BYTE those of the levels before that byte
 * @param room the capacity of `lines`, in bytes
 * @param[out] count how many bytes the lines have, also with BAD_BYTE; with NO_ROOM too, or 0 if these are more than
 * RIDDLESAGE_MOST_TEXT
 * @param[out] place with BAD_BYTE how many levels come before the first byte that is not a level; may be NULL
 * @return OK, NULL_POINTER, NO_MEMORY, NO_ROOM, BAD_BYTE. NO_ROOM, if the lines before a bad byte have no room
 */
riddlesage_status riddlesage_decode_levels(const uint8_t *levels, size_t length, char *lines, size_t room,
                                           size_t *count, size_t *place);

/** How many combinations of a rule of docs/ACCESS.md, a role and an error state can occur (docs/COVERAGE.md). */
enum { RIDDLESAGE_COVERAGE_ITEMS = 64 };

/**
 * In how many bit times each of these combinations has occurred. Initialise it with RIDDLESAGE_COVERAGE_INIT or all
 * bytes 0. It is a plain value, which may be read, copied, kept and added to another.
 */
typedef struct riddlesage_coverage {
  uint64_t counts[RIDDLESAGE_COVERAGE_ITEMS]; /**< a number for each combination */
} riddlesage_coverage;

/** Initialises a riddlesage_coverage. */
#define RIDDLESAGE_COVERAGE_INIT { { 0 } }

/**
 * Passes one bit time as riddlesage_port_sample() does, and counts the rules that the port applies in it. One coverage
 * may count the bit times of several ports.
 * @param port the port
 * @param coverage the counts
 * @param level RIDDLESAGE_DOMINANT or RIDDLESAGE_RECESSIVE
 * @param[out] event the event of this bit time, a riddlesage_event
 * @param[out] frame the frame, if the event is SENT or RECEIVED; otherwise not written; may be NULL
 * @return OK, NULL_POINTER, MOVED, NO_PORT, BAD_LEVEL
 */
riddlesage_status riddlesage_coverage_sample(riddlesage_port *port, riddlesage_coverage *coverage, uint8_t level,
                                             uint8_t *event, riddlesage_frame *frame);

/**
 * Gets the name of a combination.
 * @param item its number, from 0 on
 * @return its name, such as "Suspend transmission, transmitter passive", which is never freed; NULL for an undefined
 * number
 */
const char *riddlesage_coverage_name(size_t item);

/**
 * Gets a case of the conformance kit in which a combination occurs.
 * @param item its number, from 0 on
 * @return the name of the case, such as "suspend-after-error", which is never freed; no text if none reaches it; NULL
 * for an undefined number
 */
const char *riddlesage_coverage_case(size_t item);

/** The capacity for a line of riddlesage_coverage_line(), in bytes. */
enum { RIDDLESAGE_COVERAGE_LINE = 128 };

/**
 * Writes how often a combination has occurred, as a line of text: `coverage 12 Joining, receiver active`. If that is
 * never, the line also names the case.
 * @param[in] coverage the counts
 * @param item its number, from 0 on
 * @param[out] line the line, with a terminating 0 and no line end: RIDDLESAGE_COVERAGE_LINE bytes
 * @return OK, NULL_POINTER, NO_ENTRY for an undefined number
 */
riddlesage_status riddlesage_coverage_line(const riddlesage_coverage *coverage, size_t item, char *line);

/**
 * Gets the name of a status.
 * @param status the status
 * @return its name, such as "queue full", which is never freed; NULL for an undefined number
 */
const char *riddlesage_status_name(riddlesage_status status);

/**
 * Gets the name of an event.
 * @param event the event
 * @return its name, such as "bit error", which is never freed; NULL for an undefined number
 */
const char *riddlesage_event_name(riddlesage_event event);

/**
 * Gets the name of a phase, as verdicts of canhold write it.
 * @param phase the phase
 * @return its name, such as "end-of-frame", which is never freed; NULL for an undefined number
 */
const char *riddlesage_phase_name(riddlesage_phase phase);

/**
 * Gets the name of a rule, as docs/ACCESS.md writes it.
 * @param rule the rule
 * @return its name, such as "Stuff places", which is never freed; NULL for an undefined number
 */
const char *riddlesage_rule_name(riddlesage_rule rule);

/**
 * Gets the version of the library, which should be RIDDLESAGE_VERSION.
 * @return the version, such as "0.9.0", which is never freed
 */
const char *riddlesage_version(void);

#ifdef __cplusplus
}
#endif

#endif
