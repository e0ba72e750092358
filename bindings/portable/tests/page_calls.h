/* The proved functions of crates/can_page that page/tests/native.c calls, besides those of proved.h. */
RIDDLESAGE_INTERNAL uint8_t page_frame_text(uint32_t identifier, bool extended, bool remote, uint8_t dlc,
                                            const uint8_t *bytes, size_t length, uint8_t *text, size_t room,
                                            uint64_t *count);
RIDDLESAGE_INTERNAL uint8_t page_encode(const uint8_t *text, size_t length, uint8_t *levels, size_t room,
                                        uint64_t *count, uint64_t *place);
RIDDLESAGE_INTERNAL uint8_t page_levels(const uint8_t *text, size_t length, uint8_t *levels, size_t room,
                                        uint64_t *count, uint64_t *place);
RIDDLESAGE_INTERNAL uint8_t page_all_port_times(const uint8_t *text, size_t length, void *times, size_t room,
                                                uint64_t *count);
