/* The fuzz target, for libFuzzer and AFL++: README.md has the commands. */
#include "traffic.h"

int LLVMFuzzerTestOneInput(const uint8_t *bytes, size_t size);

int LLVMFuzzerTestOneInput(const uint8_t *bytes, size_t size)
{
  play_traffic(bytes, size);
  return 0;
}
