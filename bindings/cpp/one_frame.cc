// The example of bindings/cpp/README.md: one port sends a frame and another receives it, then a bus with one call.
//
//     c++ -std=c++20 -I bindings -I bindings/cpp -o one_frame bindings/cpp/one_frame.cc bindings/out/libriddlesage.a
#include <riddlesage.hpp>

#include <array>
#include <cstdio>
#include <utility>
#include <vector>

using riddlesage::Event, riddlesage::Hit, riddlesage::Level, riddlesage::Offer, riddlesage::Port, riddlesage::Reported,
    riddlesage::Status;

int main()
{
  std::vector<Port> ports;
  while (ports.size() < 2) {
    auto port = Port::idle(16, 64); // capacity: 16 queued frames, 64 log entries; none without memory
    if (!port)
      return 1;
    ports.push_back(std::move(*port));
  }
  if (ports[0].offer({.identifier = 0x123, .dlc = 2, .data = {0xaa, 0x55}}) != Status::ok)
    return 1;
  for (int time = 0; time < 80; time++) {
    const Level bus = ports[0].drive() & ports[1].drive(); // dominant at first: a start of frame
    ports[0].sample(bus);
    if (const Reported reported = ports[1].sample(bus); reported.event == Event::received)
      std::puts(riddlesage::text(*reported.frame).c_str()); // S 123 D 2 aa55
  }

  const std::array offers{Offer{.time = 5, .port = 1, .frame = {.identifier = 0x124}}};
  const std::array hits{Hit::in(0, 16)}; // 16 bit times after the start of attempt 0
  std::array<Level, 200> levels{};
  if (riddlesage::play(ports, offers, hits, levels).status == Status::ok) // a bus with one call
    std::printf("%d\n", ports[1].counters().transmit); // 7
}
