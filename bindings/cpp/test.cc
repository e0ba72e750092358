// Tests what riddlesage.hpp adds to riddlesage.h: ports that move, errors by name, frames and levels by type.
#include "riddlesage.hpp"

#include <algorithm>
#include <array>
#include <cstdio>
#include <cstdlib>
#include <limits>
#include <type_traits>
#include <vector>

namespace {

using namespace riddlesage;

int wrong = 0; // NOLINT: the count of this program

void want(bool holds, const char *what)
{
  if (!holds) {
    wrong++;
    std::printf("not so: %s\n", what);
  }
}

const Frame some{.identifier = 0x123, .dlc = 2, .data = {0xaa, 0x55}}; // NOLINT: a frame like any other

Port made(std::size_t queue, std::size_t log)
{
  auto port = Port::idle(queue, log);
  if (!port)
    std::exit(EXIT_FAILURE);
  return std::move(*port);
}

void coding()
{
  const Encoded encoded = encode(some);
  want(encoded.status() == Status::ok && encoded.levels().size() == 62, "the levels of a frame");
  const auto heard = decode(encoded.levels());
  want(std::holds_alternative<Heard>(heard) && std::get<Heard>(heard).frame == some, "a frame is heard");
  want(std::get<Heard>(heard).length == 62 && !std::get<Heard>(heard).acknowledged, "its length, unacknowledged");
  const auto fault = decode(encoded.levels().first(20));
  want(std::holds_alternative<Fault>(fault) && std::get<Fault>(fault).kind == Status::too_short, "a frame cut short");
  want(std::get<Fault>(fault).place == 20, "its place");
  want(std::get<Fault>(decode({})).kind == Status::too_short, "no levels at all");
  const Marks marked = marks(encoded.levels());
  want(marked.status() == Status::ok && marked.marks().size() == 62, "the marks of a frame");
  want(marked.marks()[0] == Mark{} && marked.marks()[61] == Mark{Field::end_of_frame, false}, "its fields");
  want(std::ranges::count_if(marked.marks(), &Mark::stuffed) == 2, "its stuff bits");
  want(marks({}).marks().empty() && marks(std::array{Level::recessive}).marks().empty(), "levels without marks");
  want(encode({.identifier = 0x800}).status() == Status::bad_identifier, "an identifier that is too large");
  want(encode({.dlc = 16}).levels().empty(), "no levels of what is no frame");
  want(text(some) == "S 123 D 2 aa55" && text({.identifier = 0x1234567, .extended = true, .remote = true, .dlc = 9}) ==
                                             "E 01234567 R 9",
       "texts");
  want(name(Status::queue_full) == "queue full" && name(Event::ack_error) == "ack error", "names");
  want(name(Phase::end_of_frame) == "end-of-frame" && name(Rule::stuff_places) == "Stuff places", "their names");
  want(version() == RIDDLESAGE_VERSION, "the version");
}

void texts()
{
  const std::string_view report = "bits 3\n111\nport 0 active tec 0 rec 0 missed 0\n";
  const Written ran = run("version = 1\nbits = 3\nport = [{}]");
  want(ran.status == Status::ok && ran.text == report, "a report");
  want(run("version = 1\nbits = 100000\nport = [{}]").text.size() == report.size() + 100002, "a long one");
  want(run("version = 1\nbits = 3\nport = [1]").field == "port[0]" && run({}).status == Status::bad_scenario,
       "what is no scenario");
  want(decode_trace("111 000000").text == "3 fault C3 at 8\n" && decode_trace({}).text.empty(), "traces");
  const Written bad = decode_trace("0000001x0");
  want(bad.status == Status::bad_byte && bad.place == 7 && bad.text == "0 fault C3 at 5\n", "what is no level");
  want(decode_levels(encode(some).levels()).text == "0 S 123 D 2 aa55 noack\n" && decode_levels({}).text.empty(),
       "a trace by its levels");
}

// What a port of a scenario did, and the bounds and a worst case of a network.
void networks()
{
  const std::string_view scenario = "version = 1\nbits = 3\nport = [{ queue = [\"S 001 D 0\"] }, {}]";
  const PortTimes ran = port_times(scenario, 0);
  want(ran.status == Status::ok && ran.times.size() == 3, "three bit times");
  want(ran.times[0] == PortTime{.drives = Level::dominant, .samples = Level::dominant}, "a start of frame");
  want(ran.times[1].phase == Phase::stuffed_part && ran.times[1].sender, "a transmitter");
  want(!port_times(scenario, 1).times[1].sender && port_times(scenario, 2).status == Status::no_such_port, "others");
  const PortTimes none = port_times("version = 1\nport = [{}]", 0);
  want(none.status == Status::bad_scenario && none.times.empty() && none.field == "bits", "what is no scenario");

  const std::string network = "version = 1\n[[message]]\nframe = \"S 100 D\"\ndlc = 0\nperiod = 500\n";
  const Written planned = plan(network);
  want(planned.status == Status::ok && planned.late == 0 && planned.text.ends_with("late 0 of 1\n"), "bounds");
  want(plan(network, true).text.find("\n  wire ") != std::string::npos, "their parts");
  want(plan(network + "deadline = 9").late == 1, "a message that is late");
  const Written refused = plan(network + "dlc = 9");
  want(refused.status == Status::bad_network && refused.field == "toml" && refused.text.empty(), "what is no network");
  const Written worst = worst_case(network, "S 100 D");
  want(worst.status == Status::ok && run(worst.text).status == Status::ok, "a worst case that can be simulated");
  want(worst_case(network, "S 101 D").status == Status::no_message, "a message that the network lacks");
  want(worst_case(network, {}).status == Status::no_message, "no message");
  want(worst_case(network + "jitter = -1", "S 100 D").words == "must be a time of 0 to 4294967295", "a wrong field");
  const std::string overload = network + "[[message]]\nframe = \"S 101 D\"\nperiod = 9";
  want(worst_case(overload, "S 101 D").status == Status::too_long, "a worst case without an end");
}

void standings()
{
  Port port = made(1, 0);
  want(port.phase() == Standing{}, "a port that is idle");
  want(port.offer(some) == Status::ok && !port.sample(Level::dominant), "a start of frame");
  want(port.phase() == Standing{Phase::stuffed_part, 1, true, Rule::arbitration}, "a sender");
  auto copy = port.copy();
  want(copy && copy->phase() == port.phase() && copy->offer(some) == Status::queue_full, "a copy of it");
}

void refusals()
{
  Port port = made(1, 1);
  want(port.offer({.identifier = 0x20000000, .extended = true}) == Status::bad_identifier, "a bad identifier");
  want(port.offer({.dlc = 200}) == Status::bad_dlc, "a bad DLC");
  want(port.offer(some) == Status::ok && port.offer(some) == Status::queue_full, "a full queue");
  want(port.hold(3) == Status::bad_count && port.hold(2) == Status::ok, "overload frames");
  want(!port.entry(0) && port.log_length() == 0 && port.missed() == 0, "an empty log");
  want(!Port::idle(std::numeric_limits<std::size_t>::max(), 0), "more memory than there is");
  std::array<Level, 3> drives{};
  std::array<Event, 3> events{};
  const std::array levels{Level::recessive, Level::recessive, Level::recessive};
  want(port.run({}, drives, events) == Status::no_levels, "no levels");
  want(port.run(levels, std::span(drives).first(2), events) == Status::no_room, "too little room");
  want(port.run(levels, drives, events) == Status::ok && drives[0] == Level::dominant, "a start of frame");
  want(events[0] == Event::bit_error, "which is not on the bus");
}

// Ports on a bus with one call: offers, bit errors, and what is refused.
void buses()
{
  std::vector<Port> ports;
  ports.push_back(made(1, 4));
  ports.push_back(made(1, 4));
  std::array<Level, 200> levels{};
  const std::array offers{Offer{5, 0, some}, Offer{5, 0, some}};
  const std::array hits{Hit::in(0, 16), Hit::view(199, 1)};
  want(play({}, {}, {}, levels).status == Status::bad_bus, "a bus of no ports");
  want(play(ports, std::array{Offer{0, 2, some}}, {}, levels).status == Status::no_such_port, "an offer to no port");
  want(play(ports, std::array{Offer{0, 0, {.dlc = 16}}}, {}, levels).status == Status::bad_dlc, "an offer of no frame");
  want(play(ports, {}, std::array{hits[1], hits[0]}, levels).status == Status::bad_order, "hits out of order");
  want(ports[0].phase() == Standing{} && ports[1].phase() == Standing{}, "ports that stay as they are");
  want(play(ports, {}, {}, {}).status == Status::ok, "no bit times");
  const Played played = play(ports, offers, hits, levels);
  want(played.status == Status::ok && played.refused == 1, "a queue that is full");
  want(levels[4] == Level::recessive && levels[5] == Level::dominant, "a frame at its time");
  want(ports[0].counters() == Counters{7, 0} && ports[0].log_length() == 1, "a frame that is sent again");
  want(ports[1].log_length() == 1 && ports[1].entry(0)->frame == some, "and received once");
}

// A bus that is stepped bit time by bit time has the levels and the counters of one call.
void wires()
{
  const std::array offers{Offer{5, 0, some}};
  const std::array hits{Hit::at(90), Hit::in(0, 16), Hit::view(130, 1)};
  const std::array disordered{hits[2], hits[0], hits[1]};
  std::vector<Port> whole;
  whole.push_back(made(1, 4));
  whole.push_back(made(1, 4));
  std::vector<Port> ports;
  ports.push_back(made(1, 4));
  ports.push_back(made(1, 4));
  std::array<Level, 300> levels{};
  want(play(whole, offers, hits, levels).status == Status::ok, "a bus by one call");
  Wire wire;
  for (const Level level : levels) {
    if (wire.time() == offers[0].time)
      want(ports[0].offer(some) == Status::ok, "an offer");
    Level bus{};
    std::array<Level, 2> seen{};
    const std::array drives{ports[0].drive(), ports[1].drive()};
    want(wire.step(drives, disordered, bus, seen) == Status::ok && bus == level, "the level of the wire");
    for (std::size_t place = 0; place < ports.size(); place++)
      ports[place].sample(seen[place]);
  }
  for (std::size_t place = 0; place < ports.size(); place++)
    want(ports[place].counters() == whole[place].counters(), "counters");
  want(wire.attempts() > 1, "attempts");
  Level bus{};
  std::array<Level, 1> few{};
  const std::array drives{Level::dominant, Level::dominant};
  want(wire.step({}, hits, bus) == Status::no_such_port, "a view that nobody has");
  want(wire.step(drives, {}, bus, few) == Status::no_room, "room for less than each");
  want(wire.time() == levels.size() && wire.step(drives, {}, bus) == Status::ok, "no room at all");
}

// A bus that runs to the next event has the events and counters of one that is stepped.
void runs()
{
  std::vector<Port> ports;
  ports.push_back(made(1, 4));
  ports.push_back(made(1, 4));
  want(ports[0].offer(some) == Status::ok, "an offer");
  Wire wire;
  std::array<Reported, 2> reported{};
  want(wire.run({}, {}, 9, {}).status == Status::bad_bus, "a bus of no ports");
  want(wire.run(ports, {}, 9, std::span(reported).first(1)).status == Status::no_room, "room for one event");
  want(wire.run(ports, std::array{Hit::view(0, 2)}, 9, reported).status == Status::no_such_port, "a view of no port");
  want(wire.time() == 0, "a bus that does not change");
  Ran ran = wire.run(ports, std::array{Hit::in(0, 16)}, 200, reported);
  want(ran.status == Status::ok && ran.passed == 17 && wire.time() == 17, "bit times until an event");
  want(reported[0].event == Event::bit_error && !reported[1], "a bit error");
  do
    ran = wire.run(ports, {}, 200, reported);
  while (ran.status == Status::ok && ran.passed < 200 && reported[1].event != Event::received);
  want(reported[1].frame == some && !reported[0] && wire.attempts() == 2, "a frame that is received");
  want(wire.run(ports, {}, 0, reported).passed == 0 && !reported[1], "no bit times");
}

// Counts of rules: those of one port, and a sum.
void coverages()
{
  Port port = made(1, 0);
  Coverage coverage;
  want(port.offer(some) == Status::ok && coverage.counts()[0] == 0, "no count");
  for (int time = 0; time < 60; time++)
    coverage.sample(port, port.drive());
  const auto is_start = [](std::size_t item) { return Coverage::name(item) == "Start of frame, transmitter active"; };
  std::size_t start = 0;
  while (start < Coverage::items && !is_start(start))
    start++;
  want(start < Coverage::items && coverage.counts()[start] == 1, "a start of frame");
  Coverage sum = coverage;
  sum += coverage;
  want(sum.counts()[start] == 2 && sum.line(start) == "coverage 2 Start of frame, transmitter active", "a sum");
  want(Coverage().line(0) == "coverage 0 Joining, receiver active; case joining-frame-after-ten reaches it", "none");
  want(Coverage::case_name(start) == "start-first" && Coverage::name(Coverage::items).empty(), "names");
  want(sum.line(Coverage::items).empty() && Coverage::case_name(Coverage::items).empty(), "an undefined number");
}

// Ports in a container that grows, moved about, replaced and swapped.
void moves()
{
  static_assert(!std::is_copy_constructible_v<Port> && std::is_nothrow_move_constructible_v<Port>);
  std::vector<Port> ports;
  for (int count = 0; count < 40; count++)
    ports.push_back(made(1, 4)); // NOLINT: it is to grow
  want(ports[17].offer(some) == Status::ok, "an offer after the moves");
  std::swap(ports[17], ports[3]);
  ports.erase(ports.begin() + 20, ports.end());
  ports[5] = made(1, 4);
  for (int time = 0; time < 200; time++) {
    auto bus = Level::recessive;
    for (const Port &port : ports)
      bus &= port.drive();
    for (std::size_t place = 0; place < ports.size(); place++)
      if (const Reported reported = ports[place].sample(bus))
        want(reported.event == (place == 3 ? Event::sent : Event::received) && reported.frame == some,
             "one frame for all");
  }
  for (std::size_t place = 0; place < ports.size(); place++)
    want(ports[place].log_length() == 1 && ports[place].entry(0)->sent == (place == 3), "a log of one entry");
  want(ports[3].counters() == Counters{} && ports[3].state() == State::error_active, "no errors");
}

} // namespace

int main()
{
  coding();
  texts();
  networks();
  standings();
  refusals();
  buses();
  wires();
  runs();
  coverages();
  moves();
  return wrong == 0 ? EXIT_SUCCESS : EXIT_FAILURE;
}
