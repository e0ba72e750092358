// Like door.c, but with riddlesage.hpp.
#include "riddlesage.hpp"

#include <cstdio>
#include <cstdlib>

int main(int count, char **words)
{
  using namespace riddlesage;
  const Frame frame{.identifier = 0x123, .dlc = 8, .data = {0x01, 0x23, 0x45, 0x67, 0x89, 0xab, 0xcd, 0xef}};
  const long bits = count == 2 ? std::atol(words[1]) : 0;
  auto one = Port::idle(1, 0), other = Port::idle(0, 0);
  long sent = 0;
  if (!one || !other || one->offer(frame) != Status::ok)
    return EXIT_FAILURE;
  for (long time = 0; time < bits; time++) {
    const Level bus = one->drive() & other->drive();
    other->sample(bus);
    if (one->sample(bus).event == Event::sent) {
      sent++;
      if (one->offer(frame) != Status::ok)
        return EXIT_FAILURE;
    }
  }
  std::printf("%ld\n", sent);
  return EXIT_SUCCESS;
}
