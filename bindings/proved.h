/*
 * The proved functions of crates/can_c and crates/can_page that the library calls. A slice is a pointer, which is not
 * NULL, and its length. Every number that they write through a pointer has the same width on all machines.
 */
RIDDLESAGE_INTERNAL uint8_t can_c_idle(struct riddlesage_handle *handle, size_t queue, size_t log);
RIDDLESAGE_INTERNAL uint8_t can_c_joining(struct riddlesage_handle *handle, size_t queue, size_t log);
RIDDLESAGE_INTERNAL uint8_t can_c_copy(struct riddlesage_handle *handle, struct riddlesage_handle *from);
RIDDLESAGE_INTERNAL void can_c_free(struct riddlesage_handle *handle);
RIDDLESAGE_INTERNAL uint8_t can_c_offer(struct riddlesage_handle *handle, const riddlesage_frame *frame);
RIDDLESAGE_INTERNAL uint8_t can_c_hold(struct riddlesage_handle *handle, uint8_t count);
RIDDLESAGE_INTERNAL uint8_t can_c_drive(struct riddlesage_handle *handle, uint8_t *level);
RIDDLESAGE_INTERNAL uint8_t can_c_sample(struct riddlesage_handle *handle, uint8_t level, uint8_t *event,
                                         riddlesage_frame *frame);
RIDDLESAGE_INTERNAL uint8_t can_c_run(struct riddlesage_handle *handle, const uint8_t *levels, size_t levels_length,
                                      uint8_t *drives, size_t drives_length, uint8_t *events, size_t events_length);
RIDDLESAGE_INTERNAL uint8_t can_c_counters(struct riddlesage_handle *handle, uint16_t *transmit, uint16_t *receive);
RIDDLESAGE_INTERNAL uint8_t can_c_state(struct riddlesage_handle *handle, uint8_t *state);
RIDDLESAGE_INTERNAL uint8_t can_c_phase(struct riddlesage_handle *handle, riddlesage_standing *standing);
RIDDLESAGE_INTERNAL uint8_t can_c_log_length(struct riddlesage_handle *handle, uint64_t *count);
RIDDLESAGE_INTERNAL uint8_t can_c_missed(struct riddlesage_handle *handle, uint32_t *count);
RIDDLESAGE_INTERNAL uint8_t can_c_entry(struct riddlesage_handle *handle, size_t number, riddlesage_frame *frame,
                                        uint8_t *sent);
RIDDLESAGE_INTERNAL uint8_t can_c_play(struct riddlesage_handle *handles, size_t handles_length,
                                       const riddlesage_offer *offers, size_t offers_length, const riddlesage_hit *hits,
                                       size_t hits_length, uint8_t *levels, size_t levels_length, uint64_t *refused);
RIDDLESAGE_INTERNAL uint8_t can_c_wire(riddlesage_wire *wire, const uint8_t *drives, size_t drives_length,
                                       const riddlesage_hit *hits, size_t hits_length, uint8_t *level, uint8_t *seen,
                                       size_t seen_length);
RIDDLESAGE_INTERNAL uint8_t can_c_encode(const riddlesage_frame *frame, uint8_t *levels, size_t levels_length,
                                         uint64_t *count);
RIDDLESAGE_INTERNAL uint8_t can_c_decode(const uint8_t *levels, size_t levels_length, riddlesage_heard *heard,
                                         uint64_t *place);

#ifndef RIDDLESAGE_PORTS_ONLY
/* The buffer for a text. It may have any content before it is written. */
struct lines {
  uint64_t count;
  bool full;
  char bytes[RIDDLESAGE_MOST_TEXT];
};

/* What is wrong in a scenario or a network: the number of the field, and its port, message or element if it has one. */
struct wrong {
  uint64_t number;
  uint64_t element;
  uint8_t field;
  uint8_t unused[7];
} RIDDLESAGE_LAYOUT;

RIDDLESAGE_INTERNAL uint8_t page_run(const char *text, size_t length, struct lines *out, struct wrong *wrong);
RIDDLESAGE_INTERNAL uint8_t page_port_times(const char *text, size_t length, size_t port, riddlesage_port_time *times,
                                            size_t room, uint64_t *count);
RIDDLESAGE_INTERNAL uint8_t page_plan(const char *text, size_t length, bool details, struct lines *out, uint64_t *late,
                                      struct wrong *wrong);
RIDDLESAGE_INTERNAL uint8_t page_worst_case(const char *text, size_t length, const char *message,
                                            size_t message_length, struct lines *out, struct wrong *wrong);
RIDDLESAGE_INTERNAL uint8_t page_decode(const uint8_t *text, size_t length, struct lines *out, uint64_t *place);
RIDDLESAGE_INTERNAL uint8_t page_decode_levels(const uint8_t *levels, size_t length, struct lines *out,
                                               uint64_t *place);
RIDDLESAGE_INTERNAL uint8_t page_marks(const uint8_t *levels, size_t length, uint8_t *fields, size_t fields_length,
                                       uint8_t *stuffed, size_t stuffed_length, uint64_t *count);
#endif
