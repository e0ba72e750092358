/* The controller under test with a port of the library beside it, the model. Both get the same frames and levels. At
 * the first difference a verdict is printed on standard error, and the program aborts, as fuzzers expect it. */
#ifndef BESIDE_H
#define BESIDE_H

#include "riddlesage.h"

/* The most bit times from one reset to the next, and the most frames that are queued in them. */
enum { MOST_BITS = 16384, MOST_OFFERS = 256 };

void both_reset(bool integrating);
void both_offer(const riddlesage_frame *frame);
void both_hold(uint8_t overloads);

/* One bit time, in which a tester drives '0' or '1'. With 'f' the controller samples a recessive level, whatever it
 * drives. After MOST_BITS bit times this does nothing. */
void both_bit(char tester);

/* Whether MOST_BITS bit times have passed. */
bool both_ended(void);

/* The model's state before the next bit time, and the level that it drives then. */
const riddlesage_standing *model_standing(void);
uint8_t model_drives(void);

#endif
