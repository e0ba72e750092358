// Two ports on one bus, each with a frame to send. It prints the levels of the bus, and the state, counters and log of
// each port: the output of `canbit run` for examples/scenarios/two_ports.toml.
//
//     c++ -std=c++20 -I bindings -I bindings/cpp -o two_ports bindings/cpp/two_ports.cc bindings/out/libriddlesage.a
#include "riddlesage.hpp"

#include <cstdio>
#include <cstdlib>
#include <vector>

namespace {

constexpr int bit_times = 103;

// One bit time: the bus is dominant if a port drives dominant, and each port samples it.
riddlesage::Level bit_time(std::vector<riddlesage::Port> &ports)
{
  auto bus = riddlesage::Level::recessive;
  for (const auto &port : ports)
    bus &= port.drive();
  for (auto &port : ports)
    port.sample(bus);
  return bus;
}

const char *text(riddlesage::State state)
{
  switch (state) {
  case riddlesage::State::error_active: return "active";
  case riddlesage::State::error_passive: return "passive";
  case riddlesage::State::bus_off: return "off";
  }
  return "";
}

void print(const riddlesage::Port &port, std::size_t place)
{
  const auto counters = port.counters();
  std::printf("port %zu %s tec %u rec %u missed %u\n", place, text(port.state()), unsigned{counters.transmit},
              unsigned{counters.receive}, port.missed());
  for (std::size_t number = 0; const auto entry = port.entry(number); number++)
    std::printf("  %s %s\n", entry->sent ? "sent" : "took", riddlesage::text(entry->frame).c_str());
}

} // namespace

int main()
{
  std::vector<riddlesage::Port> ports;
  for (const std::uint32_t identifier : {0x001U, 0x000U}) {
    auto port = riddlesage::Port::idle(1, 64);
    if (!port || port->offer({.identifier = identifier}) != riddlesage::Status::ok)
      return EXIT_FAILURE;
    ports.push_back(std::move(*port));
  }

  std::printf("bits %d\n", bit_times);
  for (int time = 0; time < bit_times; time++)
    std::putchar(bit_time(ports) == riddlesage::Level::dominant ? '0' : '1');
  std::putchar('\n');
  for (std::size_t place = 0; place < ports.size(); place++)
    print(ports[place], place);
  return EXIT_SUCCESS;
}
