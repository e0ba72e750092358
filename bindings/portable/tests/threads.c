/* Ports in several threads at once: each thread's ports do what they do alone. */
#include "riddlesage.h"

#include <pthread.h>
#include <stdio.h>
#include <stdlib.h>

enum { THREADS = 4, TIMES = 20000 };

struct run {
  uint64_t seed;
  uint64_t sum; /* of all levels and events */
};

static uint32_t chance(uint64_t *state, uint32_t count)
{
  *state = *state * 6364136223846793005u + 1442695040888963407u;
  return (uint32_t)(*state >> 33) % count;
}

/* Two ports on a bus with random frames, and one bit error in 200 bit times. */
static void *play(void *argument)
{
  struct run *run = argument;
  riddlesage_port ports[2] = { RIDDLESAGE_PORT_INIT, RIDDLESAGE_PORT_INIT };
  uint64_t state = run->seed;
  unsigned time, place;

  run->sum = 0;
  for (place = 0; place < 2; place++)
    if (riddlesage_port_idle(&ports[place], 4, 4) != RIDDLESAGE_OK)
      exit(EXIT_FAILURE);
  for (time = 0; time < TIMES; time++) {
    riddlesage_frame frame = { chance(&state, 0x800), 0, 0, (uint8_t)chance(&state, 9), { 1, 2, 3, 4, 5, 6, 7, 8 } };
    uint8_t levels[2], event;
    if (time % 64 == 0)
      riddlesage_port_offer(&ports[chance(&state, 2)], &frame);
    for (place = 0; place < 2; place++)
      riddlesage_port_drive(&ports[place], &levels[place]);
    levels[0] &= levels[1];
    for (place = 0; place < 2; place++) {
      uint8_t seen = chance(&state, 200) == 0 ? !levels[0] : levels[0];
      riddlesage_port_sample(&ports[place], seen, &event, NULL);
      run->sum = run->sum * 31 + seen * 16u + event;
    }
  }
  for (place = 0; place < 2; place++)
    riddlesage_port_free(&ports[place]);
  return NULL;
}

int main(void)
{
  struct run together[THREADS], alone[THREADS];
  pthread_t threads[THREADS];
  unsigned place, differ = 0;

  for (place = 0; place < THREADS; place++) {
    together[place].seed = alone[place].seed = place + 1;
    if (pthread_create(&threads[place], NULL, play, &together[place]) != 0)
      return EXIT_FAILURE;
  }
  for (place = 0; place < THREADS; place++) {
    pthread_join(threads[place], NULL);
    play(&alone[place]);
    differ += alone[place].sum != together[place].sum;
  }
  printf("%u of %d threads differ\n", differ, THREADS);
  return differ == 0 ? EXIT_SUCCESS : EXIT_FAILURE;
}
