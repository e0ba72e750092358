/// @file riddlesage.hpp
/// @brief riddlesage.h for C++20: a bit-level reference model of a classical CAN controller.
///
/// A Port is a CAN node. It frees itself, and can be moved and kept in containers. Enumerations and spans replace
/// numbers and pointers. Only play() and the calls that return or take a text may throw, if there is no memory for a
/// text or a list. A call that can fail returns a Status; unless it is Status::ok, nothing has changed. riddlesage.h
/// says what each call does. The Rattle functions that the calls use are proved; this header is only tested.
#ifndef RIDDLESAGE_HPP
#define RIDDLESAGE_HPP

#include "riddlesage.h"

#include <algorithm>
#include <array>
#include <cstddef>
#include <cstdint>
#include <cstdlib>
#include <functional>
#include <iterator>
#include <memory>
#include <optional>
#include <span>
#include <string>
#include <string_view>
#include <type_traits>
#include <utility>
#include <variant>
#include <vector>

namespace riddlesage {

/// A level: the value of a bit. Dominant overrides recessive: `a & b` is the level of a bus that both drive (2).
enum class Level : std::uint8_t { dominant = RIDDLESAGE_DOMINANT, recessive = RIDDLESAGE_RECESSIVE };

[[nodiscard]] constexpr Level operator&(Level one, Level other) noexcept
{
  return one == Level::recessive ? other : Level::dominant;
}

constexpr Level &operator&=(Level &one, Level other) noexcept { return one = one & other; }

/// The other level.
[[nodiscard]] constexpr Level operator~(Level level) noexcept
{
  return level == Level::recessive ? Level::dominant : Level::recessive;
}

/// The result of a call.
enum class Status : std::uint8_t {
  ok = RIDDLESAGE_OK,
  no_memory = RIDDLESAGE_NO_MEMORY,
  queue_full = RIDDLESAGE_QUEUE_FULL,
  bad_identifier = RIDDLESAGE_BAD_IDENTIFIER,
  bad_dlc = RIDDLESAGE_BAD_DLC,
  bad_level = RIDDLESAGE_BAD_LEVEL,
  bad_count = RIDDLESAGE_BAD_COUNT,
  no_levels = RIDDLESAGE_NO_LEVELS,
  no_room = RIDDLESAGE_NO_ROOM,
  too_short = RIDDLESAGE_SHORT,
  no_start = RIDDLESAGE_NO_START,
  stuff = RIDDLESAGE_STUFF,
  crc = RIDDLESAGE_CRC,
  form = RIDDLESAGE_FORM,
  bad_scenario = RIDDLESAGE_BAD_SCENARIO,
  bad_byte = RIDDLESAGE_BAD_BYTE,
  bad_bus = RIDDLESAGE_BAD_BUS,
  no_such_port = RIDDLESAGE_NO_SUCH_PORT,
  bad_order = RIDDLESAGE_BAD_ORDER,
  bad_wire = RIDDLESAGE_BAD_WIRE,
  bad_network = RIDDLESAGE_BAD_NETWORK,
  no_message = RIDDLESAGE_NO_MESSAGE,
  too_long = RIDDLESAGE_TOO_LONG
};

/// The event of a bit time, as a port reports it.
enum class Event : std::uint8_t {
  nothing = RIDDLESAGE_NOTHING,
  sent = RIDDLESAGE_SENT,
  received = RIDDLESAGE_RECEIVED,
  lost = RIDDLESAGE_LOST,
  bit_error = RIDDLESAGE_BIT_ERROR,
  stuff_error = RIDDLESAGE_STUFF_ERROR,
  crc_error = RIDDLESAGE_CRC_ERROR,
  form_error = RIDDLESAGE_FORM_ERROR,
  ack_error = RIDDLESAGE_ACK_ERROR,
  overload = RIDDLESAGE_OVERLOAD,
  went_off = RIDDLESAGE_WENT_OFF,
  recovered = RIDDLESAGE_RECOVERED
};

/// The state of fault confinement (8).
enum class State : std::uint8_t {
  error_active = RIDDLESAGE_ERROR_ACTIVE,
  error_passive = RIDDLESAGE_ERROR_PASSIVE,
  bus_off = RIDDLESAGE_BUS_OFF
};

/// The phase of a port before a bit time.
enum class Phase : std::uint8_t {
  idle = RIDDLESAGE_PHASE_IDLE,
  joining = RIDDLESAGE_PHASE_JOINING,
  stuffed_part = RIDDLESAGE_PHASE_STUFFED_PART,
  crc_delimiter = RIDDLESAGE_PHASE_CRC_DELIMITER,
  ack_slot = RIDDLESAGE_PHASE_ACK_SLOT,
  ack_delimiter = RIDDLESAGE_PHASE_ACK_DELIMITER,
  end_of_frame = RIDDLESAGE_PHASE_END_OF_FRAME,
  error_flag = RIDDLESAGE_PHASE_ERROR_FLAG,
  passive_flag = RIDDLESAGE_PHASE_PASSIVE_FLAG,
  overload_flag = RIDDLESAGE_PHASE_OVERLOAD_FLAG,
  after_flag = RIDDLESAGE_PHASE_AFTER_FLAG,
  delimiter = RIDDLESAGE_PHASE_DELIMITER,
  intermission = RIDDLESAGE_PHASE_INTERMISSION,
  suspend = RIDDLESAGE_PHASE_SUSPEND,
  bus_off = RIDDLESAGE_PHASE_BUS_OFF
};

/// The rule of docs/ACCESS.md that decides in a bit time.
enum class Rule : std::uint8_t {
  joining = RIDDLESAGE_RULE_JOINING,
  start_of_frame = RIDDLESAGE_RULE_START_OF_FRAME,
  kept_frame = RIDDLESAGE_RULE_KEPT_FRAME,
  intermission = RIDDLESAGE_RULE_INTERMISSION,
  suspend_transmission = RIDDLESAGE_RULE_SUSPEND_TRANSMISSION,
  bus_off = RIDDLESAGE_RULE_BUS_OFF,
  arbitration = RIDDLESAGE_RULE_ARBITRATION,
  stuff_places = RIDDLESAGE_RULE_STUFF_PLACES,
  fixed_form = RIDDLESAGE_RULE_FIXED_FORM,
  acknowledgement = RIDDLESAGE_RULE_ACKNOWLEDGEMENT,
  error_flags = RIDDLESAGE_RULE_ERROR_FLAGS,
  after_a_flag = RIDDLESAGE_RULE_AFTER_A_FLAG,
  delimiter = RIDDLESAGE_RULE_DELIMITER,
  overload_flags = RIDDLESAGE_RULE_OVERLOAD_FLAGS
};

/// The field of a frame in which a level is (3.2.1). rtr_or_srr is what RTR and SRR are if the levels end before the
/// IDE bit.
enum class Field : std::uint8_t {
  start_of_frame = RIDDLESAGE_FIELD_START_OF_FRAME,
  identifier = RIDDLESAGE_FIELD_IDENTIFIER,
  rtr_or_srr = RIDDLESAGE_FIELD_RTR_OR_SRR,
  rtr = RIDDLESAGE_FIELD_RTR,
  srr = RIDDLESAGE_FIELD_SRR,
  ide = RIDDLESAGE_FIELD_IDE,
  r1 = RIDDLESAGE_FIELD_R1,
  r0 = RIDDLESAGE_FIELD_R0,
  data_length_code = RIDDLESAGE_FIELD_DATA_LENGTH_CODE,
  data = RIDDLESAGE_FIELD_DATA,
  crc_sequence = RIDDLESAGE_FIELD_CRC_SEQUENCE,
  crc_delimiter = RIDDLESAGE_FIELD_CRC_DELIMITER,
  ack_slot = RIDDLESAGE_FIELD_ACK_SLOT,
  ack_delimiter = RIDDLESAGE_FIELD_ACK_DELIMITER,
  end_of_frame = RIDDLESAGE_FIELD_END_OF_FRAME
};

namespace detail {

/// A string of the library; empty for a null pointer.
[[nodiscard]] inline std::string_view text_of(const char *text) noexcept { return text != nullptr ? text : ""; }

} // namespace detail

/// The name of a status, such as "queue full".
[[nodiscard]] inline std::string_view name(Status status) noexcept
{
  return detail::text_of(riddlesage_status_name(static_cast<riddlesage_status>(status)));
}

/// The name of an event, such as "bit error".
[[nodiscard]] inline std::string_view name(Event event) noexcept
{
  return detail::text_of(riddlesage_event_name(static_cast<riddlesage_event>(event)));
}

/// The name of a phase, such as "end-of-frame".
[[nodiscard]] inline std::string_view name(Phase phase) noexcept
{
  return detail::text_of(riddlesage_phase_name(static_cast<riddlesage_phase>(phase)));
}

/// The name of a rule, such as "Stuff places".
[[nodiscard]] inline std::string_view name(Rule rule) noexcept
{
  return detail::text_of(riddlesage_rule_name(static_cast<riddlesage_rule>(rule)));
}

/// The version of the library, which should be RIDDLESAGE_VERSION.
[[nodiscard]] inline std::string_view version() noexcept { return riddlesage_version(); }

/// A data frame or a remote frame: `Frame{.identifier = 0x123, .dlc = 2, .data = {0xaa, 0x55}}`.
struct Frame {
  std::uint32_t identifier = 0;      ///< 0 to 0x7ff; 0 to 0x1fffffff if it is extended
  bool extended = false;             ///< whether the identifier has 29 bits
  bool remote = false;               ///< whether it is a remote frame
  std::uint8_t dlc = 0;              ///< the data length code, 0 to 15; 9 to 15 mean eight bytes
  std::array<std::uint8_t, 8> data{}; ///< the first min(DLC, 8) bytes are those of a data frame

  /// The data bytes of the frame: none for a remote frame.
  [[nodiscard]] constexpr std::span<const std::uint8_t> bytes() const noexcept
  {
    return std::span(data).first(remote ? 0U : std::min<std::size_t>(dlc, data.size()));
  }

  /// Whether it is the same frame; `data` after the frame's bytes is not compared.
  [[nodiscard]] friend constexpr bool operator==(const Frame &one, const Frame &other) noexcept
  {
    return one.identifier == other.identifier && one.extended == other.extended && one.remote == other.remote &&
           one.dlc == other.dlc && std::ranges::equal(one.bytes(), other.bytes());
  }
};

/// The event of a bit time, and the frame if one was sent or received.
struct Reported {
  Event event = Event::nothing;
  std::optional<Frame> frame;

  /// Whether there was an event.
  [[nodiscard]] explicit operator bool() const noexcept { return event != Event::nothing; }
};

/// An entry of a port's log: a frame, and whether the port sent or received it.
struct Entry {
  Frame frame;
  bool sent = false;
};

/// The protocol state of a port before a bit time.
struct Standing {
  Phase phase = Phase::idle;
  std::uint8_t place = 0; ///< place within the phase; 0 in phases of one bit, and when idle
  bool sender = false;    ///< whether the port is the transmitter of the frame on the bus
  Rule rule = Rule::start_of_frame;

  [[nodiscard]] friend constexpr bool operator==(const Standing &, const Standing &) noexcept = default;
};

/// The error counters.
struct Counters {
  std::uint16_t transmit = 0; ///< 0 to 263
  std::uint16_t receive = 0;  ///< 0 to 255

  [[nodiscard]] friend constexpr bool operator==(const Counters &, const Counters &) noexcept = default;
};

/// A frame as received, with the bits for which a receiver accepts either level.
struct Heard {
  Frame frame;
  bool acknowledged = false;
  Level srr = Level::recessive;
  Level r1 = Level::dominant;
  Level r0 = Level::dominant;
  Level last = Level::recessive;
  std::size_t length = 0; ///< how many levels it had, stuff bits included
};

/// Why levels begin with no frame: too_short, no_start, stuff, crc or form; or bad_level, with a place of 0.
struct Fault {
  Status kind = Status::too_short;
  std::size_t place = 0; ///< how many levels come before the first wrong one
};

/// The levels of a frame, or why there are none.
class Encoded {
public:
  [[nodiscard]] Status status() const noexcept { return status_; }
  [[nodiscard]] std::span<const Level> levels() const noexcept { return std::span(levels_).first(count_); }

private:
  friend Encoded encode(const Frame &frame) noexcept;

  Status status_ = Status::ok;
  std::size_t count_ = 0;
  std::array<Level, RIDDLESAGE_MOST_LEVELS> levels_{};
};

/// What a level is: its field, and whether it is a stuff bit, which has the field of the level before it.
struct Mark {
  Field field = Field::start_of_frame;
  bool stuffed = false;

  [[nodiscard]] friend constexpr bool operator==(const Mark &, const Mark &) noexcept = default;
};

/// The marks of levels, or why there are none.
class Marks {
public:
  [[nodiscard]] Status status() const noexcept { return status_; }
  [[nodiscard]] std::span<const Mark> marks() const noexcept { return std::span(marks_).first(count_); }

private:
  friend Marks marks(std::span<const Level> levels) noexcept;

  Status status_ = Status::ok;
  std::size_t count_ = 0;
  std::array<Mark, RIDDLESAGE_MOST_LEVELS> marks_{};
};

namespace detail {

// Arguments for C: enumerations of one byte, which may be accessed as bytes.
// NOLINTBEGIN(cppcoreguidelines-pro-type-reinterpret-cast)
[[nodiscard]] inline const std::uint8_t *bytes_of(std::span<const Level> of) noexcept
{
  return reinterpret_cast<const std::uint8_t *>(of.data());
}

/// The levels for calls that refuse a null pointer: if there are none, an address from which nothing is read.
[[nodiscard]] inline const std::uint8_t *front_of(std::span<const Level> of) noexcept
{
  static constexpr std::uint8_t nothing = 0;
  return of.empty() ? &nothing : bytes_of(of);
}

[[nodiscard]] inline std::uint8_t *room_of(std::span<Level> of) noexcept
{
  return reinterpret_cast<std::uint8_t *>(of.data());
}

[[nodiscard]] inline std::uint8_t *room_of(std::span<Event> of) noexcept
{
  return reinterpret_cast<std::uint8_t *>(of.data());
}
// NOLINTEND(cppcoreguidelines-pro-type-reinterpret-cast)

[[nodiscard]] constexpr Status status_of(riddlesage_status status) noexcept { return static_cast<Status>(status); }

/// Checks calls that cannot fail on a live port: a call of a port that was moved from ends the program.
inline void demand(riddlesage_status status) noexcept
{
  if (status != RIDDLESAGE_OK)
    std::abort();
}

[[nodiscard]] inline riddlesage_frame plain(const Frame &frame) noexcept
{
  riddlesage_frame out{frame.identifier, static_cast<std::uint8_t>(frame.extended),
                       static_cast<std::uint8_t>(frame.remote), frame.dlc, {}};
  std::ranges::copy(frame.data, std::begin(out.data));
  return out;
}

[[nodiscard]] inline Frame frame_of(const riddlesage_frame &plain) noexcept
{
  Frame out{plain.identifier, plain.extended != 0, plain.remote != 0, plain.dlc, {}};
  std::ranges::copy(plain.data, out.data.begin());
  return out;
}

/// The event that a call of the library reports, with its frame if it has one.
[[nodiscard]] inline Reported reported(std::uint8_t event, const riddlesage_frame &frame) noexcept
{
  Reported out{static_cast<Event>(event), std::nullopt};
  if (out.event == Event::sent || out.event == Event::received)
    out.frame = frame_of(frame);
  return out;
}

struct Delete {
  void operator()(riddlesage_port *port) const noexcept { demand(riddlesage_port_delete(port)); }
};

} // namespace detail

struct Offer;
struct Played;
class Hit;

/// A CAN node: a controller with a transmit queue, and a log of the frames that it has sent and received. A port that
/// was moved from may be destroyed and assigned to; any other call of it ends the program.
class Port {
public:
  /// Makes a port that is on the bus and idle, with the capacity of its transmit queue, in frames, and of its log, in
  /// entries; none without memory.
  [[nodiscard]] static std::optional<Port> idle(std::size_t queue, std::size_t log) noexcept
  {
    return made(riddlesage_port_idle, queue, log);
  }

  /// Makes a port that begins with bus integration: it waits for eleven recessive levels in a row before it takes part.
  [[nodiscard]] static std::optional<Port> joining(std::size_t queue, std::size_t log) noexcept
  {
    return made(riddlesage_port_joining, queue, log);
  }

  /// Copies the port: from then on the copy behaves as this one does; none without memory.
  [[nodiscard]] std::optional<Port> copy() const noexcept
  {
    Place at(riddlesage_port_new());
    if (at == nullptr)
      return std::nullopt;
    const riddlesage_status status = riddlesage_port_copy(at.get(), at_.get());
    if (status == RIDDLESAGE_NO_MEMORY)
      return std::nullopt;
    detail::demand(status);
    return Port(std::move(at));
  }

  /// Queues a frame for transmission. Fails with bad_identifier, bad_dlc, queue_full.
  [[nodiscard]] Status offer(const Frame &frame) noexcept
  {
    const riddlesage_frame plain = detail::plain(frame);
    return answered(riddlesage_port_offer(at_.get(), &plain));
  }

  /// Requests 0 to 2 overload frames, in place of an earlier request (3.2.4). Fails with bad_count.
  [[nodiscard]] Status hold(std::uint8_t count) noexcept { return answered(riddlesage_port_hold(at_.get(), count)); }

  /// The level that the port drives in this bit time.
  [[nodiscard]] Level drive() const noexcept { return static_cast<Level>(number_of(riddlesage_port_drive)); }

  /// Passes one bit time: samples the level of the bus, and returns the event.
  Reported sample(Level bus) noexcept
  {
    std::uint8_t event = 0;
    riddlesage_frame frame{};
    detail::demand(riddlesage_port_sample(at_.get(), static_cast<std::uint8_t>(bus), &event, &frame));
    return detail::reported(event, frame);
  }

  /// Samples these levels, one per bit time, whatever the port drives; writes what it drove in each bit time, and the
  /// event of each. Fails with no_levels, no_room, bad_level.
  [[nodiscard]] Status run(std::span<const Level> levels, std::span<Level> drives, std::span<Event> events) noexcept
  {
    if (levels.empty())
      return Status::no_levels;
    if (drives.size() < levels.size() || events.size() < levels.size())
      return Status::no_room;
    return answered(riddlesage_port_run(at_.get(), detail::bytes_of(levels), levels.size(), detail::room_of(drives),
                                        detail::room_of(events)));
  }

  [[nodiscard]] Counters counters() const noexcept
  {
    Counters counters;
    detail::demand(riddlesage_port_counters(at_.get(), &counters.transmit, &counters.receive));
    return counters;
  }

  [[nodiscard]] State state() const noexcept { return static_cast<State>(number_of(riddlesage_port_state)); }

  /// The phase of the port before the next bit time, and the rule that decides in it.
  [[nodiscard]] Standing phase() const noexcept
  {
    riddlesage_standing at{};
    detail::demand(riddlesage_port_phase(at_.get(), &at));
    return {static_cast<Phase>(at.phase), at.place, at.sender != 0, static_cast<Rule>(at.rule)};
  }

  /// How many entries the log has.
  [[nodiscard]] std::size_t log_length() const noexcept { return number_of(riddlesage_port_log_length); }

  /// The number of entries for which the log had no capacity.
  [[nodiscard]] std::uint32_t missed() const noexcept { return number_of(riddlesage_port_missed); }

  /// The entry of the log with this number, the oldest being 0; none if there is no such entry.
  [[nodiscard]] std::optional<Entry> entry(std::size_t number) const noexcept
  {
    riddlesage_frame frame{};
    std::uint8_t sent = 0;
    const riddlesage_status status = riddlesage_port_entry(at_.get(), number, &frame, &sent);
    if (status == RIDDLESAGE_NO_ENTRY)
      return std::nullopt;
    detail::demand(status);
    return Entry{detail::frame_of(frame), sent != 0};
  }

private:
  using Place = std::unique_ptr<riddlesage_port, detail::Delete>;

  friend Played play(std::span<Port> ports, std::span<const Offer> offers, std::span<const Hit> hits,
                     std::span<Level> levels);
  friend class Wire;
  friend class Coverage;

  explicit Port(Place at) noexcept : at_(std::move(at)) {}

  static std::optional<Port> made(riddlesage_status (*make)(riddlesage_port *, std::size_t, std::size_t),
                                  std::size_t queue, std::size_t log) noexcept
  {
    Place at(riddlesage_port_new());
    if (at == nullptr || make(at.get(), queue, log) != RIDDLESAGE_OK)
      return std::nullopt;
    return Port(std::move(at));
  }

  /// The number that this call of the library returns for the port.
  template <typename Number>
  [[nodiscard]] Number number_of(riddlesage_status (*call)(riddlesage_port *, Number *)) const noexcept
  {
    Number number = 0;
    detail::demand(call(at_.get(), &number));
    return number;
  }

  /// The address of the port; a port that was moved from ends the program.
  [[nodiscard]] riddlesage_port *place() const noexcept
  {
    if (at_ == nullptr)
      std::abort();
    return at_.get();
  }

  [[nodiscard]] Status answered(riddlesage_status status) const noexcept
  {
    static_cast<void>(place());
    return detail::status_of(status);
  }

  Place at_;
};

/// A frame that is queued at a port while the bus runs.
struct Offer {
  std::uint64_t time = 0; ///< the bit time before which it is queued; the first of the call is 0
  std::size_t port = 0;   ///< the index of the port; the first is 0
  Frame frame;
};

/// The result of play().
struct Played {
  Status status = Status::ok; ///< unless it is ok, no port has changed, and no level is written
  std::size_t refused = 0;    ///< how many of the offers a full queue refused
};

/// An injected bit error, in one bit time of a bus.
class Hit {
public:
  /// For all nodes, the level of the bus is inverted in this bit time; the first of the call is 0.
  [[nodiscard]] static constexpr Hit at(std::uint64_t time) noexcept
  {
    return Hit({time, 0, 0, 0, RIDDLESAGE_HIT_AT});
  }

  /// For all nodes, it is inverted `offset` bit times after the start of a transmission attempt, unless a later one has
  /// begun by then; the first of the call is 0.
  [[nodiscard]] static constexpr Hit in(std::uint64_t attempt, std::uint64_t offset) noexcept
  {
    return Hit({0, attempt, offset, 0, RIDDLESAGE_HIT_IN});
  }

  /// This port alone samples the inverse of the bus level in this bit time.
  [[nodiscard]] static constexpr Hit view(std::uint64_t time, std::size_t port) noexcept
  {
    return Hit({time, 0, 0, port, RIDDLESAGE_HIT_VIEW});
  }

private:
  friend Played play(std::span<Port> ports, std::span<const Offer> offers, std::span<const Hit> hits,
                     std::span<Level> levels);
  friend class Wire;

  /// The hits as C has them: a Hit has their fields, and nothing else.
  static const riddlesage_hit *plain(std::span<const Hit> hits) noexcept
  {
    static_assert(sizeof(Hit) == sizeof(riddlesage_hit) && std::is_standard_layout_v<Hit>);
    // NOLINTNEXTLINE(cppcoreguidelines-pro-type-reinterpret-cast)
    return reinterpret_cast<const riddlesage_hit *>(hits.data());
  }

  explicit constexpr Hit(const riddlesage_hit &plain) noexcept : plain_(plain) {}

  riddlesage_hit plain_;
};

/// Runs a bus of 1 to 64 ports for one bit time per level, queues frames at their times, injects bit errors, and writes
/// the levels of the bus. Offers are in the order of their times; hits in strictly rising order: those of at(), then of
/// in(), then of view(). The ports continue from their present state, and keep the state that they reach. Fails with
/// bad_bus, bad_identifier, bad_dlc, no_memory, bad_order, no_such_port.
[[nodiscard]] inline Played play(std::span<Port> ports, std::span<const Offer> offers, std::span<const Hit> hits,
                                 std::span<Level> levels)
{
  std::array<riddlesage_port *, RIDDLESAGE_MOST_PORTS> at{};
  if (ports.size() > at.size())
    return {Status::bad_bus, 0};
  std::ranges::transform(ports, at.begin(), [](const Port &port) { return port.place(); });
  std::vector<riddlesage_offer> offered;
  offered.reserve(offers.size());
  for (const Offer &offer : offers)
    offered.push_back({offer.time, offer.port, detail::plain(offer.frame)});
  std::vector<riddlesage_hit> plain;
  plain.reserve(hits.size());
  for (const Hit &hit : hits)
    plain.push_back(hit.plain_);
  Played out;
  out.status = detail::status_of(riddlesage_play(at.data(), ports.size(), offered.data(), offered.size(), plain.data(),
                                                 plain.size(), detail::room_of(levels), levels.size(), &out.refused));
  return out;
}

/// The result of Wire::run().
struct Ran {
  Status status = Status::ok; ///< unless it is ok, nothing has changed
  std::size_t passed = 0;     ///< how many bit times have passed
};

/// The state of a bus between two bit times, without its nodes: for a bus on which some nodes are your own code. At
/// first no bit time has passed, and the bus counts as recessive for eleven. It is a value, and allocates no memory.
class Wire {
public:
  /// Passes one bit time, in which each node drives one of these levels. Writes the level of the bus, dominant if any
  /// node drives dominant, and inverted if a hit falls on it; and what each node samples, unless `seen` is empty. Hits
  /// may be in any order, and differ from bit time to bit time. Fails with no_room if `seen` is neither empty nor as
  /// long as `drives`, and with no_such_port for a view of no node.
  [[nodiscard]] Status step(std::span<const Level> drives, std::span<const Hit> hits, Level &level,
                            std::span<Level> seen = {}) noexcept
  {
    if (!seen.empty() && seen.size() != drives.size())
      return Status::no_room;
    return detail::status_of(riddlesage_wire_step(&plain_, detail::bytes_of(drives), drives.size(), Hit::plain(hits),
                                                  hits.size(), detail::room_of(std::span(&level, 1)),
                                                  seen.empty() ? nullptr : detail::room_of(seen)));
  }

  /// Passes bit times of a bus of 1 to 64 ports until one of them has an event, but at most `bits`. Writes the event of
  /// each port in the last bit time. Hits may be in any order. Fails with bad_bus, with no_room if `reported` is not as
  /// long as `ports`, and with no_such_port for a view of no port.
  [[nodiscard]] Ran run(std::span<Port> ports, std::span<const Hit> hits, std::size_t bits,
                        std::span<Reported> reported) noexcept
  {
    std::array<riddlesage_port *, RIDDLESAGE_MOST_PORTS> at{};
    std::array<std::uint8_t, RIDDLESAGE_MOST_PORTS> events{};
    std::array<riddlesage_frame, RIDDLESAGE_MOST_PORTS> frames{};
    if (ports.size() > at.size())
      return {Status::bad_bus, 0};
    if (reported.size() != ports.size())
      return {Status::no_room, 0};
    std::ranges::transform(ports, at.begin(), [](const Port &port) { return port.place(); });
    Ran out;
    out.status = detail::status_of(riddlesage_wire_run(&plain_, at.data(), ports.size(), Hit::plain(hits), hits.size(),
                                                       bits, events.data(), frames.data(), &out.passed));
    if (out.status == Status::ok)
      std::ranges::transform(std::span(events).first(ports.size()), frames, reported.begin(), detail::reported);
    return out;
  }

  /// How many bit times have passed.
  [[nodiscard]] std::uint64_t time() const noexcept { return plain_.time; }

  /// How many transmission attempts have begun.
  [[nodiscard]] std::uint64_t attempts() const noexcept { return plain_.attempts; }

private:
  riddlesage_wire plain_ = RIDDLESAGE_WIRE_INIT;
};

/// In how many bit times each combination of a rule of docs/ACCESS.md, a role and an error state has occurred
/// (docs/COVERAGE.md). It is a value, and allocates no memory.
class Coverage {
public:
  /// How many combinations can occur.
  static constexpr std::size_t items = RIDDLESAGE_COVERAGE_ITEMS;

  /// Passes one bit time as Port::sample() does, and counts the rules that the port applies in it.
  Reported sample(Port &port, Level bus) noexcept
  {
    std::uint8_t event = 0;
    riddlesage_frame frame{};
    detail::demand(
        riddlesage_coverage_sample(port.place(), &plain_, static_cast<std::uint8_t>(bus), &event, &frame));
    return detail::reported(event, frame);
  }

  /// The count of each combination.
  [[nodiscard]] std::span<const std::uint64_t, items> counts() const noexcept { return plain_.counts; }

  /// Adds the counts of another one.
  Coverage &operator+=(const Coverage &other) noexcept
  {
    std::ranges::transform(plain_.counts, other.plain_.counts, std::begin(plain_.counts), std::plus<>());
    return *this;
  }

  /// The name of a combination, such as "Suspend transmission, transmitter passive"; empty for an undefined number.
  [[nodiscard]] static std::string_view name(std::size_t item) noexcept
  {
    return detail::text_of(riddlesage_coverage_name(item));
  }

  /// The name of a case of the conformance kit in which a combination occurs; empty if none reaches it.
  [[nodiscard]] static std::string_view case_name(std::size_t item) noexcept
  {
    return detail::text_of(riddlesage_coverage_case(item));
  }

  /// The line of a combination in a report, such as `coverage 12 Joining, receiver active`; empty for an undefined
  /// number.
  [[nodiscard]] std::string line(std::size_t item) const
  {
    std::array<char, RIDDLESAGE_COVERAGE_LINE> line{};
    static_cast<void>(riddlesage_coverage_line(&plain_, item, line.data()));
    return line.data();
  }

private:
  riddlesage_coverage plain_ = RIDDLESAGE_COVERAGE_INIT;
};

/// Encodes a frame: the levels that its transmitter drives from the start of frame to the end of frame, with stuff
/// bits, the ACK slot recessive (3.2.1, 3.2.2, 6). Fails with bad_identifier, bad_dlc.
[[nodiscard]] inline Encoded encode(const Frame &frame) noexcept
{
  Encoded out;
  const riddlesage_frame plain = detail::plain(frame);
  out.status_ = detail::status_of(
      riddlesage_encode(&plain, detail::room_of(std::span<Level>(out.levels_)), out.levels_.size(), &out.count_));
  return out;
}

/// Decodes the frame with which the levels begin; or returns the fault if they begin with none.
[[nodiscard]] inline std::variant<Heard, Fault> decode(std::span<const Level> levels) noexcept
{
  riddlesage_heard heard{};
  std::size_t place = 0;
  const riddlesage_status status = riddlesage_decode(detail::front_of(levels), levels.size(), &heard, &place);
  if (status != RIDDLESAGE_OK)
    return Fault{detail::status_of(status), place};
  const auto level = [](std::uint8_t number) { return static_cast<Level>(number); };
  return Heard{detail::frame_of(heard.frame), heard.acknowledged != 0, level(heard.srr), level(heard.r1),
               level(heard.r0), level(heard.last), place};
}

/// Names the field of each level, and the stuff bits. It reads at most the first RIDDLESAGE_MOST_LEVELS. Levels have a
/// mark from a start of frame on, to the end of the frame, or to a wrong stuff bit; if the first one is recessive, none
/// has one.
[[nodiscard]] inline Marks marks(std::span<const Level> levels) noexcept
{
  Marks out;
  std::array<std::uint8_t, RIDDLESAGE_MOST_LEVELS> fields{};
  std::array<std::uint8_t, RIDDLESAGE_MOST_LEVELS> stuffed{};
  out.status_ = detail::status_of(
      riddlesage_marks(detail::front_of(levels), levels.size(), fields.data(), stuffed.data(), &out.count_));
  std::ranges::transform(fields, stuffed, out.marks_.begin(), [](std::uint8_t field, std::uint8_t is_stuffed) {
    return Mark{static_cast<Field>(field), is_stuffed != 0};
  });
  return out;
}

/// The output for a document or a trace, or why there is none.
struct Written {
  Status status = Status::ok;
  std::string text;      ///< with bad_byte the lines of the levels before that byte
  std::string field;     ///< with bad_scenario or bad_network the first field that is wrong, such as "port[0].log"
  std::string words;     ///< with bad_network what that field must be, such as "must be 0 to 15"
  std::size_t place = 0; ///< with bad_byte how many bytes come before that one
  std::size_t late = 0;  ///< of plan() how many messages may miss their deadlines
};

/// What a port of a scenario did in a bit time. The counters and the phase are those before it.
struct PortTime {
  Counters counters{};
  Phase phase = Phase::idle;
  bool sender = false; ///< whether the port was the transmitter of the frame on the bus
  Level drives = Level::recessive;
  Level samples = Level::recessive;
  Event event = Event::nothing;

  [[nodiscard]] friend constexpr bool operator==(const PortTime &, const PortTime &) noexcept = default;
};

/// The result of port_times().
struct PortTimes {
  Status status = Status::ok;
  std::vector<PortTime> times;
  std::string field; ///< with bad_scenario the first field that is wrong, such as "port[0].log"
};

namespace detail {

/// The result of a call that writes a text; if the first buffer is too small, it is called again with a larger one.
template <typename Call> [[nodiscard]] Written written(const Call &call)
{
  constexpr std::size_t room = 65536;
  Written out;
  std::size_t count = 0;
  out.text.resize(room);
  out.status = status_of(call(out, &count));
  if (out.status == Status::no_room && count > room) {
    out.text.resize(count);
    out.status = status_of(call(out, &count));
  }
  out.text.resize(out.status == Status::ok || out.status == Status::bad_byte ? count : 0);
  return out;
}

/// The address of a text for calls that refuse a null pointer.
[[nodiscard]] inline const char *front_of(std::string_view of) noexcept { return of.empty() ? "" : of.data(); }

/// The result of a call that writes a text for a network, and what is wrong in it.
template <typename Call> [[nodiscard]] Written written_for_network(const Call &call)
{
  riddlesage_wrong wrong{};
  Written out = written([&](Written &to, std::size_t *count) { return call(to, count, &wrong); });
  out.field = std::data(wrong.field);
  out.words = std::data(wrong.words);
  return out;
}

[[nodiscard]] inline PortTime port_time_of(const riddlesage_port_time &plain) noexcept
{
  return {{plain.transmit, plain.receive},
          static_cast<Phase>(plain.phase),
          plain.sender != 0,
          static_cast<Level>(plain.drives),
          static_cast<Level>(plain.samples),
          static_cast<Event>(plain.event)};
}

} // namespace detail

/// Simulates a scenario, a TOML document, and returns its report: the output of `canbit run`. Fails with bad_scenario,
/// no_memory, and no_room if the report has more than RIDDLESAGE_MOST_TEXT bytes.
[[nodiscard]] inline Written run(std::string_view scenario)
{
  std::array<char, RIDDLESAGE_FIELD_ROOM> field{};
  Written out = detail::written([&](Written &to, std::size_t *count) {
    return riddlesage_run(detail::front_of(scenario), scenario.size(), to.text.data(), to.text.size(), count,
                          field.data());
  });
  if (out.status == Status::bad_scenario)
    out.field = field.data();
  return out;
}

/// Simulates a scenario, and returns what one of its ports did in each bit time; the first port is 0. Fails with
/// bad_scenario, no_such_port, no_memory.
[[nodiscard]] inline PortTimes port_times(std::string_view scenario, std::size_t port)
{
  std::array<char, RIDDLESAGE_FIELD_ROOM> field{};
  std::vector<riddlesage_port_time> plain(RIDDLESAGE_MOST_BITS);
  std::size_t count = 0;
  PortTimes out;
  out.status = detail::status_of(riddlesage_port_times(detail::front_of(scenario), scenario.size(), port, plain.data(),
                                                       plain.size(), &count, field.data()));
  out.field = field.data();
  out.times.resize(count);
  std::ranges::transform(std::span(plain).first(count), out.times.begin(), detail::port_time_of);
  return out;
}

/// Analyses a network, a TOML document, and returns an upper bound on the response time of each message: the output of
/// `canplan`, or of `canplan --details`. Fails with bad_network, no_memory, and no_room beyond RIDDLESAGE_MOST_TEXT
/// bytes.
[[nodiscard]] inline Written plan(std::string_view network, bool details = false)
{
  std::size_t late = 0;
  Written out = detail::written_for_network([&](Written &to, std::size_t *count, riddlesage_wrong *wrong) {
    return riddlesage_plan(detail::front_of(network), network.size(), static_cast<std::uint8_t>(details),
                           to.text.data(), to.text.size(), count, &late, wrong);
  });
  out.late = late;
  return out;
}

/// Returns the worst case of a message of a network, such as `S 300 D`, without bit errors, as a scenario for run():
/// the output of `canplan --timeline`. The message is named by its `frame`, as the network has it. Its port in the
/// scenario is its place in the report of plan(), the first being 0, and at most 63. Fails with bad_network,
/// no_message, too_long, no_memory, and no_room beyond RIDDLESAGE_MOST_TEXT bytes.
[[nodiscard]] inline Written worst_case(std::string_view network, std::string_view message)
{
  return detail::written_for_network([&](Written &to, std::size_t *count, riddlesage_wrong *wrong) {
    return riddlesage_worst_case(detail::front_of(network), network.size(), detail::front_of(message), message.size(),
                                 to.text.data(), to.text.size(), count, wrong);
  });
}

/// Decodes a trace, a text of `0` and `1` with spaces and line ends, and returns a line for each frame and fault: the
/// output of `canbit decode`. Fails with bad_byte, no_memory, and no_room beyond RIDDLESAGE_MOST_TEXT bytes.
[[nodiscard]] inline Written decode_trace(std::string_view trace)
{
  return detail::written([&](Written &to, std::size_t *count) {
    return riddlesage_decode_trace(detail::front_of(trace), trace.size(), to.text.data(), to.text.size(), count,
                                   &to.place);
  });
}

/// Decodes a trace given as levels, and returns the lines of decode_trace() for the same levels as text. Fails with
/// no_memory, and no_room beyond RIDDLESAGE_MOST_TEXT bytes.
[[nodiscard]] inline Written decode_levels(std::span<const Level> levels)
{
  const std::uint8_t *const at = detail::front_of(levels);
  return detail::written([&](Written &to, std::size_t *count) {
    return riddlesage_decode_levels(at, levels.size(), to.text.data(), to.text.size(), count, &to.place);
  });
}

/// The text of a frame, such as `S 123 D 2 aa55`.
[[nodiscard]] inline std::string text(const Frame &frame)
{
  constexpr std::string_view digits = "0123456789abcdef";
  std::string out = frame.extended ? "E " : "S ";
  for (unsigned place = frame.extended ? 8 : 3; place-- > 0;)
    out += digits[frame.identifier >> (4 * place) & 0xfU];
  out += (frame.remote ? " R " : " D ") + std::to_string(frame.dlc);
  if (!frame.bytes().empty())
    out += ' ';
  for (const std::uint8_t byte : frame.bytes()) {
    out += digits[byte >> 4U];
    out += digits[byte & 0xfU];
  }
  return out;
}

} // namespace riddlesage

#endif
