/* Mends a damaged frame next to a control loop that can spare only some steps in each tick: locates it in slices.
 *
 * From the repository's root:
 *
 *   (cd crates/capi && rt lib)
 *   mkdir -p target && gcc -std=c11 -Wall -Wextra -O2 -Iinclude examples/c/slices.c crates/capi/out/libcapi.a -o target/slices
 *   target/slices
 *
 * What it prints stands in slices.stdout.
 */
#include <stdio.h>

#include "tomkhadi.h"

enum { ROWS = 3, COLUMNS = 20, SIZE = ROWS * COLUMNS, EXPONENT = 1 };

/* The longest sequence has eight symbols, so that a locate takes 8 x 3 steps. */
static const uint16_t checks[ROWS] = {8, 6, 6};

/* What a tick of the control loop can spare. */
enum { STEPS_IN_TICK = 5 };

static int refused(const char *call, uint32_t number) {
  if (number != 0) printf("%s: refusal %u\n", call, (unsigned)number);
  return number != 0;
}

/* Makes the steps of a tick. Each answers that the locate is unfinished, but the last one, which answers what locate would; only that no step sees a cell, so
 * that a dead line is refused by the repair. */
static tomkhadi_answer tick(tomkhadi_job *job) {
  tomkhadi_answer answer = tomkhadi_step(job);
  for (int made = 1; made < STEPS_IN_TICK && answer.unfinished; made++) answer = tomkhadi_step(job);
  return answer;
}

int main(void) {
  tomkhadi_job job;
  tomkhadi_empty(&job);
  if (refused("shape", tomkhadi_shape(&job, COLUMNS, checks, ROWS, EXPONENT))) return 1;

  uint16_t sent[SIZE];
  for (unsigned i = 0; i < SIZE; i++) sent[i] = (uint16_t)(i * i % 257);
  if (refused("encode", tomkhadi_encode(&job, sent, SIZE))) return 1;

  /* The link damages columns 3, 11 and 17, not all of them in every row. */
  uint16_t frame[SIZE];
  memcpy(frame, sent, sizeof frame);
  frame[3] = (uint16_t)((frame[3] + 1) % 257);
  frame[11] = (uint16_t)((frame[11] + 5) % 257);
  frame[COLUMNS + 3] = (uint16_t)((frame[COLUMNS + 3] + 200) % 257);
  frame[2 * COLUMNS + 17] = (uint16_t)((frame[2 * COLUMNS + 17] + 9) % 257);

  /* The start copies the check sums. No step reads the frame. */
  static const uint64_t nothing[32] = {0};
  tomkhadi_answer answer = tomkhadi_start(&job, nothing, frame, SIZE);
  for (unsigned ticks = 1; answer.unfinished; ticks++) {
    answer = tick(&job);
    if (!answer.unfinished) break;

    /* A length near what the rows can mend warns before the end. */
    tomkhadi_peek_answer peeked = tomkhadi_peek(&job);
    if (refused("peek", peeked.refusal)) return 1;
    printf("tick %u: unfinished, length %u so far\n", ticks, (unsigned)peeked.length);
  }
  if (refused("locate in slices", answer.refusal)) return 1;
  printf("%u column(s):", (unsigned)answer.count);
  for (unsigned i = 0; i < COLUMNS; i++) {
    if (answer.marks[i / 64] >> (i % 64) & 1) printf(" %u", i);
  }
  printf("\n");

  /* Nothing is left to step, and the same frame is mended as after a locate. */
  if (!refused("one step more", tomkhadi_step(&job).refusal)) return 1;
  if (refused("repair", tomkhadi_repair(&job, frame, SIZE).refusal)) return 1;
  printf("%s\n", memcmp(frame, sent, sizeof frame) == 0 ? "mended" : "not what was sent");
  return 0;
}
