/* Sends a small frame over a link that damages one of its columns and loses a cell of another, and mends it.
 *
 * From the repository's root:
 *
 *   (cd crates/capi && rt lib)
 *   mkdir -p target && gcc -std=c11 -Wall -Wextra -O2 -Iinclude examples/c/repair.c crates/capi/out/libcapi.a -o target/repair
 *   target/repair
 *
 * What it prints stands in repair.stdout.
 */
#include <stdio.h>

#include "tomkhadi.h"

enum { ROWS = 2, COLUMNS = 8, SIZE = ROWS * COLUMNS };

/* Row 1 has four checks and row 2 has two. A damaged column takes two of each row, a declared cell one of its own row: one column is always mended, and up to
 * two declared cells of row 1 with it. */
static const uint16_t checks[ROWS] = {4, 2};

/* The check sums begin at the first power of the locators. Both sides of the link must have the same. */
enum { EXPONENT = 1 };

static void print_frame(const char *title, const uint16_t *frame) {
  printf("%s\n", title);
  for (size_t row = 0; row < ROWS; row++) {
    for (size_t column = 0; column < COLUMNS; column++) printf(" %3u", (unsigned)frame[row * COLUMNS + column]);
    printf("\n");
  }
}

static void print_columns(const tomkhadi_answer *answer) {
  printf("%u column(s):", (unsigned)answer->count);
  for (unsigned i = 0; i < COLUMNS; i++) {
    if (answer->marks[i / 64] >> (i % 64) & 1) printf(" %u", i);
  }
  printf("\n");
}

/* Every call that can refuse says so by a number, which the header explains. */
static int refused(const char *call, uint32_t number) {
  if (number != 0) printf("%s: refusal %u\n", call, (unsigned)number);
  return number != 0;
}

int main(void) {
  /* The job keeps what the calls know of each other. */
  tomkhadi_job job;
  tomkhadi_empty(&job);
  if (refused("shape", tomkhadi_shape(&job, COLUMNS, checks, ROWS, EXPONENT))) return 1;

  /* The sender's side: data in the columns after the checks, whose cells may hold anything. */
  uint16_t frame[SIZE] = {
      0, 0, 0, 0, 10, 20, 30, 40, /* row 1: four checks, four data cells */
      0, 0, 1, 2, 3,  4,  5,  6,  /* row 2: two checks, six data cells */
  };
  if (refused("encode", tomkhadi_encode(&job, frame, SIZE))) return 1;
  print_frame("sent", frame);

  /* The link: column 5 is hit in both rows, and the cell of row 1 in column 2 does not arrive. It holds no symbol, and is declared. */
  frame[5] = 256;
  frame[COLUMNS + 5] = 0;
  frame[2] = 999;
  const uint64_t declared[32] = {1 << 2};
  print_frame("received", frame);

  /* A job that has not located has nothing to mend by, and a refusal leaves job and frame alone. */
  if (!refused("repair before locate", tomkhadi_repair(&job, frame, SIZE).refusal)) return 1;

  /* The receiver's side: locate names the column, and repair of the same frame mends it and fills the declared cell. */
  tomkhadi_answer located = tomkhadi_locate(&job, declared, frame, SIZE);
  if (refused("locate", located.refusal)) return 1;
  print_columns(&located);
  if (refused("repair", tomkhadi_repair(&job, frame, SIZE).refusal)) return 1;
  print_frame("mended", frame);
  return 0;
}
