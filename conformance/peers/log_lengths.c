/*
 * Prints the number of frames in a log of candump, and of the bit times that they take, according to can-utils: to its
 * parser of such lines, and to can_frame_length(.., CFL_EXACT, ..), which canbusload -e uses.
 *
 *     cc -I CAN-UTILS log_lengths.c CAN-UTILS/canframelen.c CAN-UTILS/lib.c
 */
#include <linux/can.h>
#include <stdio.h>
#include <stdlib.h>
#include <string.h>

#include "canframelen.h"
#include "lib.h"

int main(void)
{
  unsigned long frames = 0, bits = 0;
  char line[256], text[256];
  struct canfd_frame frame;

  while (fgets(line, sizeof line, stdin) != NULL) {
    if (sscanf(line, "(%*u.%*u) %*s %255s", text) != 1 || parse_canframe(text, &frame) != CAN_MTU)
      return EXIT_FAILURE;
    frames++;
    bits += can_frame_length(&frame, CFL_EXACT, CAN_MTU);
  }
  printf("frames %lu bits %lu\n", frames, bits);
  return EXIT_SUCCESS;
}
