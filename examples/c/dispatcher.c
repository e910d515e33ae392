/* Mends what eight heads receive, next to one control loop: eight locates in slices take turns, and each frame is mended as soon as it is located.
 *
 * From the repository's root:
 *
 *   (cd crates/capi && rt lib)
 *   mkdir -p target && gcc -std=c11 -Wall -Wextra -O2 -Iinclude examples/c/dispatcher.c crates/capi/out/libcapi.a -o target/dispatcher
 *   target/dispatcher
 *
 * What it prints stands in dispatcher.stdout.
 */
#include <stdio.h>

#include "tomkhadi.h"

enum { HEADS = 8, ROWS = 2, COLUMNS = 40, SIZE = ROWS * COLUMNS, EXPONENT = 1 };

/* Job k is that of head k. */
static tomkhadi_dispatcher dispatcher;
static uint16_t sent[HEADS][SIZE];
static uint16_t frames[HEADS][SIZE];

static int refused(const char *call, uint32_t number) {
  if (number != 0) printf("%s: refusal %u\n", call, (unsigned)number);
  return number != 0;
}

/* Head k has 2k + 2 checks in each row, so that its locate takes 4k + 4 steps, and its link damages k columns, each in one row. */
static int receive(unsigned k) {
  const uint16_t count = (uint16_t)(2 * k + 2);
  const uint16_t checks[ROWS] = {count, count};
  if (refused("shape", tomkhadi_dispatcher_shape(&dispatcher, k, COLUMNS, checks, ROWS, EXPONENT))) return 0;
  for (unsigned i = 0; i < SIZE; i++) sent[k][i] = (uint16_t)((i * i + k) % 257);
  if (refused("encode", tomkhadi_dispatcher_encode(&dispatcher, k, sent[k], SIZE))) return 0;

  memcpy(frames[k], sent[k], sizeof sent[k]);
  for (unsigned i = 0; i < k; i++) {
    uint16_t *cell = &frames[k][i % ROWS * COLUMNS + 5 * i + k];
    *cell = (uint16_t)((*cell + 100 + i) % 257);
  }
  static const uint64_t nothing[32] = {0};
  return !refused("start", tomkhadi_dispatcher_start(&dispatcher, k, nothing, frames[k], SIZE).refusal);
}

/* The frame of head k is located: mends it. What is unfinished of the other heads is not touched. */
static int mend(unsigned k, tomkhadi_answer located) {
  if (refused("locate in slices", located.refusal)) return 0;
  if (refused("repair", tomkhadi_dispatcher_repair(&dispatcher, k, frames[k], SIZE).refusal)) return 0;
  printf("head %u %s, %u column(s):", k, memcmp(frames[k], sent[k], sizeof sent[k]) == 0 ? "mended" : "not what was sent", (unsigned)located.count);
  for (unsigned i = 0; i < COLUMNS; i++) {
    if (located.marks[i / 64] >> (i % 64) & 1) printf(" %u", i);
  }
  printf("\n");
  return 1;
}

int main(void) {
  tomkhadi_dispatcher_empty(&dispatcher);
  for (unsigned k = 0; k < HEADS; k++) {
    if (!receive(k)) return 1;
  }

  /* Each turn makes one step of one locate. With nothing left to step it is refused, and names no head. */
  tomkhadi_turned turned = tomkhadi_dispatcher_turn(&dispatcher);
  for (unsigned turns = 1; turned.job < HEADS; turns++) {
    if (!turned.answer.unfinished) {
      printf("turn %u: ", turns);
      if (!mend((unsigned)turned.job, turned.answer)) return 1;
    }
    turned = tomkhadi_dispatcher_turn(&dispatcher);
  }
  return !refused("one turn more", turned.answer.refusal);
}
