/* Calls every function of the header through a pointer of the type that is promised, so that a prototype with another type does not compile. No two arguments
 * of a call can change places without another answer. The frame is that of examples/c/repair.c with another cell lost; its check sums and taps were worked out
 * apart from the library. tests/run builds and runs it. */
#include <stdio.h>

#include "tomkhadi.h"

/* Those of the archive. */
static tomkhadi_register (*const find)(uint32_t, const uint16_t *, size_t, const uint16_t *, size_t, uint16_t *, size_t) = tomkhadi_find;
static tomkhadi_columns (*const search)(size_t, const uint16_t *, size_t) = tomkhadi_search;
static tomkhadi_head (*const head_empty)(void) = tomkhadi_head_empty;
static tomkhadi_head_shaped (*const head_shape)(tomkhadi_head, size_t, const uint16_t *, size_t, uint32_t) = tomkhadi_head_shape;
static uint32_t (*const head_encode)(tomkhadi_head, uint16_t *, size_t) = tomkhadi_head_encode;
static tomkhadi_head_answered (*const head_locate)(tomkhadi_head, uint16_t *, uint16_t *, uint64_t *, const uint64_t *, const uint16_t *,
                                                   size_t) = tomkhadi_head_locate;
static tomkhadi_head_answered (*const head_repair)(tomkhadi_head, const uint16_t *, const uint64_t *, uint16_t *, size_t) = tomkhadi_head_repair;
static tomkhadi_head_answered (*const head_start)(tomkhadi_head, uint16_t *, uint16_t *, uint64_t *, uint16_t *, uint16_t *, uint16_t *, uint16_t *,
                                                  uint16_t *, uint16_t *, uint16_t *, uint16_t *, uint16_t *, const uint64_t *, const uint16_t *,
                                                  size_t) = tomkhadi_head_start;
static tomkhadi_head_answered (*const head_step)(tomkhadi_head, const uint16_t *, uint16_t *, const uint64_t *, uint16_t *, const uint16_t *,
                                                 const uint16_t *, uint16_t *, uint16_t *, uint16_t *, uint16_t *, uint16_t *,
                                                 uint16_t *) = tomkhadi_head_step;
static tomkhadi_peek_answer (*const head_peek)(tomkhadi_head, const uint16_t *, const uint64_t *, const uint16_t *, const uint16_t *, const uint16_t *,
                                               const uint16_t *, const uint16_t *, const uint16_t *, const uint16_t *, const uint16_t *,
                                               const uint16_t *) = tomkhadi_head_peek;
static void (*const jobs_empty)(uint64_t *, uint32_t *, uint64_t *, uint16_t *, uint64_t *) = tomkhadi_jobs_empty;
static uint32_t (*const jobs_shape)(size_t, uint32_t *, uint64_t *, uint16_t *, uint64_t *, size_t, const uint16_t *, size_t,
                                    uint32_t) = tomkhadi_jobs_shape;
static uint32_t (*const jobs_encode)(size_t, const uint32_t *, const uint64_t *, const uint16_t *, const uint64_t *, uint16_t *,
                                     size_t) = tomkhadi_jobs_encode;
static tomkhadi_answer (*const jobs_locate)(size_t, uint32_t *, uint64_t *, uint16_t *, uint64_t *, uint16_t *, uint16_t *, uint64_t *, const uint64_t *,
                                            const uint16_t *, size_t) = tomkhadi_jobs_locate;
static tomkhadi_answer (*const jobs_repair)(size_t, uint32_t *, uint64_t *, uint16_t *, uint64_t *, const uint16_t *, const uint64_t *, uint16_t *,
                                            size_t) = tomkhadi_jobs_repair;
static tomkhadi_answer (*const jobs_start)(size_t, uint32_t *, uint64_t *, uint16_t *, uint64_t *, uint16_t *, uint16_t *, uint64_t *, uint16_t *,
                                           uint16_t *, uint16_t *, uint16_t *, uint16_t *, uint16_t *, uint16_t *, uint16_t *, uint16_t *,
                                           const uint64_t *, const uint16_t *, size_t) = tomkhadi_jobs_start;
static tomkhadi_answer (*const jobs_step)(size_t, uint32_t *, uint64_t *, uint16_t *, uint64_t *, const uint16_t *, uint16_t *, const uint64_t *, uint16_t *,
                                          const uint16_t *, const uint16_t *, uint16_t *, uint16_t *, uint16_t *, uint16_t *, uint16_t *,
                                          uint16_t *) = tomkhadi_jobs_step;
static tomkhadi_peek_answer (*const jobs_peek)(size_t, const uint32_t *, const uint64_t *, const uint16_t *, const uint64_t *, const uint16_t *,
                                               const uint64_t *, const uint16_t *, const uint16_t *, const uint16_t *, const uint16_t *, const uint16_t *,
                                               const uint16_t *, const uint16_t *, const uint16_t *, const uint16_t *) = tomkhadi_jobs_peek;
static tomkhadi_turned (*const jobs_turn)(uint64_t *, uint32_t *, uint64_t *, uint16_t *, uint64_t *, const uint16_t *, uint16_t *, const uint64_t *,
                                          uint16_t *, const uint16_t *, const uint16_t *, uint16_t *, uint16_t *, uint16_t *, uint16_t *, uint16_t *,
                                          uint16_t *) = tomkhadi_jobs_turn;

/* Those of the header. */
static void (*const empty)(tomkhadi_job *) = tomkhadi_empty;
static uint32_t (*const shape)(tomkhadi_job *, size_t, const uint16_t *, size_t, uint32_t) = tomkhadi_shape;
static uint32_t (*const encode)(const tomkhadi_job *, uint16_t *, size_t) = tomkhadi_encode;
static tomkhadi_answer (*const locate)(tomkhadi_job *, const uint64_t *, const uint16_t *, size_t) = tomkhadi_locate;
static tomkhadi_answer (*const repair)(tomkhadi_job *, uint16_t *, size_t) = tomkhadi_repair;
static tomkhadi_answer (*const start)(tomkhadi_job *, const uint64_t *, const uint16_t *, size_t) = tomkhadi_start;
static tomkhadi_answer (*const step)(tomkhadi_job *) = tomkhadi_step;
static tomkhadi_peek_answer (*const peek)(const tomkhadi_job *) = tomkhadi_peek;
static void (*const dispatcher_empty)(tomkhadi_dispatcher *) = tomkhadi_dispatcher_empty;
static uint32_t (*const dispatcher_shape)(tomkhadi_dispatcher *, size_t, size_t, const uint16_t *, size_t, uint32_t) = tomkhadi_dispatcher_shape;
static uint32_t (*const dispatcher_encode)(const tomkhadi_dispatcher *, size_t, uint16_t *, size_t) = tomkhadi_dispatcher_encode;
static tomkhadi_answer (*const dispatcher_locate)(tomkhadi_dispatcher *, size_t, const uint64_t *, const uint16_t *, size_t) = tomkhadi_dispatcher_locate;
static tomkhadi_answer (*const dispatcher_repair)(tomkhadi_dispatcher *, size_t, uint16_t *, size_t) = tomkhadi_dispatcher_repair;
static tomkhadi_answer (*const dispatcher_start)(tomkhadi_dispatcher *, size_t, const uint64_t *, const uint16_t *, size_t) = tomkhadi_dispatcher_start;
static tomkhadi_answer (*const dispatcher_step)(tomkhadi_dispatcher *, size_t) = tomkhadi_dispatcher_step;
static tomkhadi_peek_answer (*const dispatcher_peek)(const tomkhadi_dispatcher *, size_t) = tomkhadi_dispatcher_peek;
static tomkhadi_turned (*const dispatcher_turn)(tomkhadi_dispatcher *) = tomkhadi_dispatcher_turn;

enum { ROWS = 2, COLUMNS = 8, SIZE = ROWS * COLUMNS };

static const uint16_t checks[ROWS] = {4, 2};
static const uint16_t data[SIZE] = {0, 0, 0, 0, 10, 20, 30, 40, 0, 0, 1, 2, 3, 4, 5, 6};
static const uint16_t sent[SIZE] = {119, 79, 107, 241, 10, 20, 30, 40, 122, 198, 1, 2, 3, 4, 5, 6};
static const uint16_t received[SIZE] = {119, 65535, 107, 241, 10, 256, 30, 40, 122, 198, 1, 2, 3, 0, 5, 6};

/* Column 1 of row 1 is declared, and read as 0. Column 5 is damaged by 236 and by -4, and its locator 3^5 is 243: four sums of row 1 and two of row 2, and the
 * taps 1 and -243. */
static const uint64_t declared[32] = {1 << 1};
static const uint64_t other[32] = {1 << 1, 0, 0, 0, 1 << 5};
static const uint64_t past[32] = {1 << 8};
static const uint64_t nothing[32];
static const uint16_t sums[512] = {57, 56, 236, 13, 56, 244};
static const uint16_t taps[65] = {1, 14};

static const tomkhadi_head zeros;
static const tomkhadi_head shaped = {.phase = 1, .rows = ROWS, .columns = COLUMNS, .checks = {4, 2}, .exponent = 1};
static const tomkhadi_head unfinished = {.phase = 3, .rows = ROWS, .columns = COLUMNS, .checks = {4, 2}, .exponent = 1};
static const tomkhadi_head located = {
    .phase = 2, .alone = 1, .length = 1, .rows = ROWS, .columns = COLUMNS, .marks = {1 << 5}, .checks = {4, 2}, .exponent = 1};

static int checked;
static int failed;

static void check(int holds, int line) {
  checked++;
  if (holds) return;
  failed++;
  printf("tests/src/prototypes.c:%d: does not hold\n", line);
}

#define CHECK(holds) check(holds, __LINE__)
#define SAME(a, b) CHECK(memcmp(a, b, sizeof(b)) == 0)

/* The exponent comes last, and nothing but padding after it. */
static int is_head(tomkhadi_head head, tomkhadi_head other) {
  return memcmp(&head, &other, offsetof(tomkhadi_head, exponent)) == 0 && head.exponent == other.exponent;
}

static int is_marked(const uint64_t marks[4], uint64_t first) {
  return marks[0] == first && !marks[1] && !marks[2] && !marks[3];
}

/* The refusal, or one column, which is column 5, and the number of columns tried. */
static int is_answer(tomkhadi_answer answer, uint32_t refusal, uint64_t tried) {
  uint64_t count = refusal == 0;
  return answer.refusal == refusal && !answer.unfinished && answer.count == count && answer.tried == tried && is_marked(answer.marks, count << 5);
}

static int is_unfinished(tomkhadi_answer answer) {
  return answer.refusal == 0 && answer.unfinished == 1 && answer.count == 0 && answer.tried == 0 && is_marked(answer.marks, 0);
}

static int is_length(tomkhadi_peek_answer peeked, uint32_t refusal, uint64_t length) {
  return peeked.refusal == refusal && peeked.length == length;
}

static int is_columns(tomkhadi_columns found, uint32_t refusal, uint64_t tried, uint64_t marks) {
  return found.refusal == refusal && found.tried == tried && is_marked(found.marks, marks);
}

static int is_register(tomkhadi_register found, uint32_t refusal, uint32_t alone, uint64_t length) {
  return found.refusal == refusal && found.alone == alone && found.length == length;
}

static void registers(void) {
  const uint16_t lengths[2] = {4, 2};
  const uint16_t symbols[6] = {1, 2, 4, 3, 1, 1};
  uint16_t buffer[8] = {9, 9, 9, 9, 9, 9, 9, 9};
  const uint16_t kept[8] = {9, 9, 9, 9, 9, 9, 9, 9};
  CHECK(is_register(find(4, lengths, 2, symbols, 6, buffer, 7), 1, 0, 0));
  CHECK(is_register(find(5, lengths, 0, symbols, 6, buffer, 7), 2, 0, 0));
  CHECK(is_register(find(5, lengths, 2, symbols, 5, buffer, 7), 3, 0, 0));
  CHECK(is_register(find(5, lengths, 2, symbols, 6, buffer, 4), 8, 0, 0));
  CHECK(is_register(find(3, lengths, 2, symbols, 6, buffer, 7), 4, 0, 0));
  SAME(buffer, kept);
  CHECK(is_register(find(5, lengths, 2, symbols, 6, buffer, 7), 0, 0, 2));
  const uint16_t several[8] = {1, 3, 0, 9, 9, 9, 9, 9};
  SAME(buffer, several);
  CHECK(is_register(find(5, lengths, 1, symbols, 4, buffer + 3, 5), 0, 1, 1));
  const uint16_t single[8] = {1, 3, 0, 1, 3, 9, 9, 9};
  SAME(buffer, single);
}

/* The taps above name column 5. With a count of one tap the next is not read. */
static void searches(void) {
  const uint16_t bad[2] = {1, 257};
  const uint16_t zero[2] = {0, 0};
  CHECK(is_columns(search(1, bad, 2), 5, 0, 0));
  CHECK(is_columns(search(257, taps, 2), 5, 0, 0));
  CHECK(is_columns(search(COLUMNS, bad, 2), 4, 0, 0));
  CHECK(is_columns(search(COLUMNS, bad, 1), 0, 0, 0));
  CHECK(is_columns(search(COLUMNS, taps, 0), 0, 0, 0));
  CHECK(is_columns(search(5, taps, 2), 0, 5, 0));
  CHECK(is_columns(search(6, taps, 2), 0, 6, 1 << 5));
  CHECK(is_columns(search(256, taps, 2), 0, 6, 1 << 5));
  CHECK(is_columns(search(COLUMNS, taps, 3), 0, COLUMNS, 1 << 5));
  CHECK(is_columns(search(COLUMNS, zero, 2), 0, 1, 1));
}

static void heads(void) {
  CHECK(is_head(head_empty(), zeros));
  tomkhadi_head_shaped made = head_shape(zeros, COLUMNS, checks, ROWS, 1);
  CHECK(made.refusal == 0 && is_head(made.head, shaped));
  made = head_shape(shaped, 4, checks, ROWS, 256);
  CHECK(made.refusal == 6 && is_head(made.head, shaped));
  made = head_shape(shaped, COLUMNS, checks, ROWS, 256);
  CHECK(made.refusal == 32 && is_head(made.head, shaped));

  uint16_t frame[SIZE];
  memcpy(frame, data, sizeof frame);
  CHECK(head_encode(zeros, frame, SIZE) == 21);
  SAME(frame, data);
  CHECK(head_encode(shaped, frame, SIZE) == 0);
  SAME(frame, sent);

  uint16_t held_sums[512] = {0};
  uint16_t held_taps[65] = {0};
  uint64_t held[32] = {0};
  tomkhadi_head_answered answered = head_locate(shaped, held_sums, held_taps, held, past, received, SIZE);
  CHECK(is_answer(answered.answer, 31, 0) && is_head(answered.head, shaped));
  SAME(held, nothing);
  answered = head_locate(shaped, held_sums, held_taps, held, declared, received, SIZE);
  CHECK(is_answer(answered.answer, 0, 6) && is_head(answered.head, located));
  SAME(held_sums, sums);
  SAME(held_taps, taps);
  SAME(held, declared);

  memcpy(frame, received, sizeof frame);
  answered = head_repair(shaped, sums, held, frame, SIZE);
  CHECK(is_answer(answered.answer, 22, 0) && is_head(answered.head, shaped));
  answered = head_repair(located, sums, past, frame, SIZE);
  CHECK(is_answer(answered.answer, 22, 0) && is_head(answered.head, located));
  answered = head_repair(located, sums, nothing, frame, SIZE);
  CHECK(is_answer(answered.answer, 4, 0) && is_head(answered.head, located));
  SAME(frame, received);
  answered = head_repair(located, sums, held, frame, SIZE);
  CHECK(is_answer(answered.answer, 0, 0) && is_head(answered.head, shaped));
  SAME(frame, sent);
}

/* The job has the head and, where the last locate that was not refused left them, the arrays. */
static int is_job(const tomkhadi_job *job, tomkhadi_head head, int held) {
  static const tomkhadi_job none;
  return is_head(job->head, head) && memcmp(job->sums, held ? sums : none.sums, sizeof sums) == 0 &&
         memcmp(job->taps, held ? taps : none.taps, sizeof taps) == 0 && memcmp(job->declared, held ? declared : none.declared, sizeof declared) == 0;
}

static void jobs(void) {
  tomkhadi_job job;
  memset(&job, 0xa5, sizeof job);
  empty(&job);
  CHECK(is_job(&job, zeros, 0));
  CHECK(shape(&job, COLUMNS, checks, ROWS, 1) == 0);
  CHECK(is_job(&job, shaped, 0));

  uint16_t frame[SIZE];
  memcpy(frame, data, sizeof frame);
  CHECK(encode(&job, frame, SIZE) == 0);
  SAME(frame, sent);
  CHECK(is_job(&job, shaped, 0));
  CHECK(is_answer(repair(&job, frame, SIZE), 22, 0));
  CHECK(is_job(&job, shaped, 0));

  memcpy(frame, received, sizeof frame);
  CHECK(is_answer(locate(&job, nothing, frame, SIZE), 4, 0));
  CHECK(is_job(&job, shaped, 0));
  CHECK(is_answer(locate(&job, declared, frame, SIZE), 0, 6));
  SAME(frame, received);
  CHECK(is_job(&job, located, 1));
  CHECK(is_answer(locate(&job, past, frame, SIZE), 31, 0));
  CHECK(shape(&job, 4, checks, ROWS, 1) == 6);
  CHECK(shape(&job, COLUMNS, checks, ROWS, 65536) == 32);
  CHECK(is_job(&job, located, 1));
  frame[0]++;
  CHECK(is_answer(repair(&job, frame, SIZE), 23, 0));
  CHECK(is_job(&job, located, 1));
  frame[0]--;
  CHECK(is_answer(repair(&job, frame, SIZE), 0, 0));
  SAME(frame, sent);
  CHECK(is_job(&job, shaped, 1));

  /* Three columns of row 1: the only shortest register of its four sums has length 2, and no root. */
  CHECK(is_answer(locate(&job, declared, received, SIZE), 0, 6));
  frame[1]++, frame[2]++, frame[3]++;
  CHECK(is_answer(locate(&job, nothing, frame, SIZE), 26, 0));
  CHECK(is_job(&job, shaped, 1));

  /* Column 5 declared in row 2 too leaves it one check, and one symbol that says nothing of column 4, where row 2 is altered besides. */
  memcpy(frame, received, sizeof frame);
  CHECK(is_answer(locate(&job, other, frame, SIZE), 0, 6));
  frame[COLUMNS + 4]++;
  CHECK(is_answer(locate(&job, other, frame, SIZE), 26, 0));
}

/* The same data, damage and declared cell with the exponent 200: other checks and sums, and the same column and taps. */
static void exponents(void) {
  const uint16_t legal[SIZE] = {213, 203, 84, 226, 10, 20, 30, 40, 32, 8, 1, 2, 3, 4, 5, 6};
  const uint16_t altered[SIZE] = {213, 65535, 84, 226, 10, 256, 30, 40, 32, 8, 1, 2, 3, 0, 5, 6};
  const uint16_t altered_sums[512] = {171, 83, 101, 62, 120, 119};
  tomkhadi_head at_200 = shaped;
  at_200.exponent = 200;
  tomkhadi_head_shaped made = head_shape(shaped, COLUMNS, checks, ROWS, 200);
  CHECK(made.refusal == 0 && is_head(made.head, at_200));

  tomkhadi_job job;
  empty(&job);
  CHECK(shape(&job, COLUMNS, checks, ROWS, 200) == 0);
  CHECK(is_job(&job, at_200, 0));
  uint16_t frame[SIZE];
  memcpy(frame, data, sizeof frame);
  CHECK(encode(&job, frame, SIZE) == 0);
  SAME(frame, legal);

  memcpy(frame, altered, sizeof frame);
  CHECK(is_answer(locate(&job, declared, frame, SIZE), 0, 6));
  tomkhadi_head located_at_200 = located;
  located_at_200.exponent = 200;
  CHECK(is_head(job.head, located_at_200));
  SAME(job.sums, altered_sums);
  SAME(job.taps, taps);
  CHECK(is_answer(repair(&job, frame, SIZE), 0, 0));
  SAME(frame, legal);
  CHECK(is_head(job.head, at_200));

  /* Shaped anew with another exponent, nothing is located any more. */
  CHECK(is_answer(locate(&job, declared, altered, SIZE), 0, 6));
  CHECK(shape(&job, COLUMNS, checks, ROWS, 1) == 0);
  CHECK(is_answer(repair(&job, frame, SIZE), 22, 0));
}

/* Row 1 has three checks left and row 2 has two: six steps in three rounds, two of them on a sequence each. Row 1 leaves 142, 68, 76, and row 2 its sums. Of
 * no symbol the shortest register has length 0, and of those that column 5 leaves it has length 1. */
enum { STEPS = 6 };

/* What stands in the arrays before the first step, and after the second, in the order of the sequences, which is that of the rows here. */
static int is_begun(const tomkhadi_job *job) {
  static const uint16_t counts[5] = {3}, lengths[8] = {3, 2}, places[8] = {0, 1, 3, 3, 3, 3, 3, 3}, sizes[8], ones[8] = {1, 1, 1, 1, 1, 1, 1, 1};
  static const uint16_t current[144] = {1}, backwards[3] = {76, 68, 142}, others[2] = {244, 56}, cleared[16];
  return memcmp(job->counts, counts, sizeof counts) == 0 && memcmp(job->lengths, lengths, sizeof lengths) == 0 &&
         memcmp(job->places, places, sizeof places) == 0 && memcmp(job->sizes, sizes, sizeof sizes) == 0 &&
         memcmp(job->discs, ones, sizeof ones) == 0 && memcmp(job->quotients, ones, sizeof ones) == 0 &&
         memcmp(job->current, current, sizeof current) == 0 && memcmp(job->symbols, backwards, sizeof backwards) == 0 &&
         memcmp(job->symbols + 144, others, sizeof others) == 0 && memcmp(job->saved + 144, cleared, sizeof cleared) == 0;
}

/* The first step has saved round 1, the discrepancy 142, its inverse and the register of length 0 for row 1; the second changed nothing. */
static int is_second(const tomkhadi_job *job) {
  return job->counts[1] == 1 && job->counts[2] == 0 && job->counts[3] == 1 && job->counts[4] == 1 && job->places[0] == 1 && job->sizes[0] == 0 &&
         job->discs[0] == 142 && job->quotients[0] * 142 % 257 == 1 && job->saved[0] == 1;
}

static void slices(void) {
  tomkhadi_job job;
  empty(&job);
  CHECK(is_answer(start(&job, declared, received, SIZE), 21, 0) && is_answer(step(&job), 21, 0) && is_length(peek(&job), 21, 0));
  CHECK(shape(&job, COLUMNS, checks, ROWS, 1) == 0);
  CHECK(is_answer(step(&job), 33, 0) && is_length(peek(&job), 33, 0));
  CHECK(is_answer(start(&job, declared, received, SIZE - 1), 7, 0));
  CHECK(is_answer(start(&job, past, received, SIZE), 31, 0));
  CHECK(is_answer(start(&job, nothing, received, SIZE), 4, 0));
  CHECK(is_job(&job, shaped, 0));

  uint16_t frame[SIZE];
  for (int made = 0; made < STEPS; made++) {
    if (made == 0) {
      CHECK(is_unfinished(start(&job, declared, received, SIZE)));
      CHECK(is_begun(&job));
    } else {
      CHECK(is_unfinished(step(&job)));
    }
    if (made == 2) CHECK(is_second(&job));
    CHECK(is_head(job.head, unfinished));
    CHECK(is_length(peek(&job), 0, made >= ROWS));
    memcpy(frame, data, sizeof frame);
    CHECK(encode(&job, frame, SIZE) == 0);
    CHECK(is_answer(repair(&job, frame, SIZE), 22, 0));
    SAME(frame, sent);
  }
  tomkhadi_job forged;
  CHECK(is_unfinished(start(&job, declared, received, SIZE)));
  forged = job;
  forged.head.marks[3] = 1;
  CHECK(is_unfinished(step(&forged)) && is_head(forged.head, unfinished));
  for (int made = 1; made < STEPS; made++) CHECK(is_unfinished(step(&job)));
  forged = job;
  forged.sums[511] = 257;
  CHECK(is_answer(step(&forged), 33, 0) && is_length(peek(&forged), 33, 0));
  forged = job;
  forged.declared[31] = 1;
  CHECK(is_answer(step(&forged), 33, 0));
  forged = job;
  forged.current[0] = 0;
  CHECK(is_answer(step(&forged), 33, 0) && is_head(forged.head, unfinished));
  CHECK(is_answer(step(&job), 0, 6));
  CHECK(is_job(&job, located, 1));
  CHECK(is_answer(step(&job), 33, 0) && is_length(peek(&job), 33, 0));
  memcpy(frame, received, sizeof frame);
  CHECK(is_answer(repair(&job, frame, SIZE), 0, 0));
  SAME(frame, sent);

  /* Each call drops what is unfinished. */
  CHECK(is_unfinished(start(&job, nothing, sent, SIZE)) && is_unfinished(start(&job, declared, received, SIZE)));
  CHECK(is_begun(&job));
  CHECK(is_answer(locate(&job, declared, received, SIZE), 0, 6) && is_answer(step(&job), 33, 0));
  CHECK(is_unfinished(start(&job, declared, received, SIZE)) && shape(&job, COLUMNS, checks, ROWS, 1) == 0 && is_answer(step(&job), 33, 0));

  /* Every check is spent on a declared cell: there is no step to make. */
  const uint64_t all[32] = {15, 0, 0, 0, 3};
  tomkhadi_answer answer = start(&job, all, sent, SIZE);
  CHECK(answer.refusal == 0 && answer.unfinished == 0 && answer.count == 0 && job.head.phase == 2);

  /* Three columns of row 1, as above: the last step is refused, and leaves the job shaped. */
  frame[1]++, frame[2]++, frame[3]++;
  CHECK(is_unfinished(start(&job, nothing, frame, SIZE)));
  for (int made = 1; made < 4 * ROWS; made++) CHECK(is_unfinished(step(&job)));
  CHECK(is_answer(step(&job), 26, 0) && is_head(job.head, shaped));
}

/* The archive's functions alone, on the parts of a job. */
static void sliced_heads(void) {
  static tomkhadi_job job;
  tomkhadi_head_answered answered =
      head_start(shaped, job.sums, job.taps, job.declared, job.counts, job.lengths, job.symbols, job.places, job.sizes, job.discs, job.quotients,
                 job.current, job.saved, declared, received, SIZE);
  CHECK(is_unfinished(answered.answer) && is_head(answered.head, unfinished) && is_begun(&job));
  SAME(job.sums, sums);
  SAME(job.declared, declared);
  for (int made = 0; made < STEPS; made++) {
    tomkhadi_peek_answer peeked = head_peek(unfinished, job.sums, job.declared, job.counts, job.lengths, job.symbols, job.places, job.sizes, job.discs,
                                            job.quotients, job.current, job.saved);
    CHECK(is_length(peeked, 0, made >= ROWS));
    answered = head_step(unfinished, job.sums, job.taps, job.declared, job.counts, job.lengths, job.symbols, job.places, job.sizes, job.discs,
                         job.quotients, job.current, job.saved);
    if (made == 1) CHECK(is_second(&job));
    if (made + 1 < STEPS) CHECK(is_unfinished(answered.answer) && is_head(answered.head, unfinished));
  }
  CHECK(is_answer(answered.answer, 0, 6) && is_head(answered.head, located));
  SAME(job.taps, taps);
}

/* Job k of eight. */
#define PART(array) memcpy(job.array, d->array + k * (sizeof job.array / sizeof job.array[0]), sizeof job.array)

static tomkhadi_job part(const tomkhadi_dispatcher *d, size_t k) {
  static tomkhadi_job job;
  const uint32_t *state = d->states + 3 * k;
  const uint64_t *extent = d->extents + 3 * k;
  job.head = (tomkhadi_head){.phase = state[0], .alone = state[1], .length = extent[2], .rows = extent[0], .columns = extent[1], .exponent = state[2]};
  memcpy(job.head.checks, d->checks + 8 * k, sizeof job.head.checks);
  memcpy(job.head.marks, d->marks + 4 * k, sizeof job.head.marks);
  PART(declared), PART(sums), PART(taps), PART(counts), PART(lengths), PART(places);
  PART(sizes), PART(discs), PART(quotients), PART(current), PART(symbols), PART(saved);
  return job;
}

static int is_part(const tomkhadi_dispatcher *d, size_t k, tomkhadi_head head, int held) {
  tomkhadi_job job = part(d, k);
  return is_job(&job, head, held);
}

/* What stands in the arrays of job k before a step of this number. */
static int is_at(const tomkhadi_dispatcher *d, size_t k, int made) {
  tomkhadi_job job = part(d, k);
  return made == 0 ? is_begun(&job) : made != 2 || is_second(&job);
}

static const tomkhadi_dispatcher eight_empty = {.last = 7};

/* Jobs 5 and 2 of eight, the same frame with both. */
static void dispatchers(void) {
  static tomkhadi_dispatcher d;
  memset(&d, 0xa5, sizeof d);
  dispatcher_empty(&d);
  uint16_t frame[SIZE];
  memcpy(frame, data, sizeof frame);
  CHECK(dispatcher_shape(&d, 8, COLUMNS, checks, ROWS, 1) == 33 && dispatcher_encode(&d, 8, frame, SIZE) == 33);
  CHECK(is_answer(dispatcher_locate(&d, 8, declared, received, SIZE), 33, 0) && is_answer(dispatcher_repair(&d, 8, frame, SIZE), 33, 0));
  CHECK(is_answer(dispatcher_start(&d, 8, declared, received, SIZE), 33, 0) && is_answer(dispatcher_step(&d, 8), 33, 0));
  CHECK(is_length(dispatcher_peek(&d, 8), 33, 0));
  tomkhadi_turned turned = dispatcher_turn(&d);
  CHECK(turned.job == 8 && is_answer(turned.answer, 33, 0));
  CHECK(memcmp(&d, &eight_empty, sizeof d) == 0);
  SAME(frame, data);

  CHECK(dispatcher_shape(&d, 5, COLUMNS, checks, ROWS, 1) == 0);
  CHECK(dispatcher_shape(&d, 5, 4, checks, ROWS, 1) == 6 && dispatcher_shape(&d, 5, COLUMNS, checks, ROWS, 256) == 32);
  CHECK(is_part(&d, 5, shaped, 0) && is_part(&d, 2, zeros, 0));
  CHECK(dispatcher_encode(&d, 2, frame, SIZE) == 21 && dispatcher_encode(&d, 5, frame, SIZE) == 0);
  SAME(frame, sent);
  memcpy(frame, received, sizeof frame);
  CHECK(is_answer(dispatcher_locate(&d, 2, declared, frame, SIZE), 21, 0) && is_answer(dispatcher_locate(&d, 5, past, frame, SIZE), 31, 0));
  CHECK(is_answer(dispatcher_locate(&d, 5, declared, frame, SIZE), 0, 6));
  CHECK(is_part(&d, 5, located, 1) && is_part(&d, 2, zeros, 0));
  CHECK(is_answer(dispatcher_repair(&d, 2, frame, SIZE), 21, 0) && is_answer(dispatcher_repair(&d, 5, frame, SIZE), 0, 0));
  SAME(frame, sent);
  CHECK(is_part(&d, 5, shaped, 1));

  /* Job 2 comes before job 5, and both take turns: but the last step of job 2 is made by call. */
  CHECK(dispatcher_shape(&d, 2, COLUMNS, checks, ROWS, 1) == 0);
  CHECK(is_unfinished(dispatcher_start(&d, 5, declared, received, SIZE)) && is_unfinished(dispatcher_start(&d, 2, declared, received, SIZE)));
  for (int made = 0; made + 1 < STEPS; made++) {
    for (size_t k = 2; k <= 5; k += 3) {
      CHECK(is_at(&d, k, made) && is_length(dispatcher_peek(&d, k), 0, made >= ROWS));
      turned = dispatcher_turn(&d);
      CHECK(turned.job == k && d.last == k && is_unfinished(turned.answer));
    }
  }
  CHECK(is_answer(dispatcher_step(&d, 2), 0, 6) && d.last == 5 && is_answer(dispatcher_step(&d, 2), 33, 0));
  CHECK(is_part(&d, 2, located, 1));
  turned = dispatcher_turn(&d);
  CHECK(turned.job == 5 && is_answer(turned.answer, 0, 6) && is_part(&d, 5, located, 1));
  turned = dispatcher_turn(&d);
  CHECK(turned.job == 8 && d.last == 5 && is_answer(turned.answer, 33, 0));
}

/* The archive's functions alone, on the parts of a dispatcher. */
static void eight_heads(void) {
  static tomkhadi_dispatcher d;
  d.last = 3, d.states[3 * 4] = 1, d.extents[3 * 4] = 1, d.checks[8 * 4] = 1, d.marks[4 * 4] = 1;
  jobs_empty(&d.last, d.states, d.extents, d.checks, d.marks);
  CHECK(memcmp(&d, &eight_empty, sizeof d) == 0);
  CHECK(jobs_shape(5, d.states, d.extents, d.checks, d.marks, COLUMNS, checks, ROWS, 1) == 0);
  CHECK(is_part(&d, 5, shaped, 0));

  uint16_t frame[SIZE];
  memcpy(frame, data, sizeof frame);
  CHECK(jobs_encode(5, d.states, d.extents, d.checks, d.marks, frame, SIZE) == 0);
  SAME(frame, sent);
  memcpy(frame, received, sizeof frame);
  CHECK(is_answer(jobs_locate(5, d.states, d.extents, d.checks, d.marks, d.sums, d.taps, d.declared, declared, frame, SIZE), 0, 6));
  CHECK(is_part(&d, 5, located, 1));
  CHECK(is_answer(jobs_repair(5, d.states, d.extents, d.checks, d.marks, d.sums, d.declared, frame, SIZE), 0, 0));
  SAME(frame, sent);

  /* Every other step is made by a turn. */
  CHECK(is_unfinished(jobs_start(5, d.states, d.extents, d.checks, d.marks, d.sums, d.taps, d.declared, d.counts, d.lengths, d.symbols, d.places, d.sizes,
                                 d.discs, d.quotients, d.current, d.saved, declared, received, SIZE)));
  for (int made = 0; made < STEPS; made++) {
    tomkhadi_peek_answer peeked = jobs_peek(5, d.states, d.extents, d.checks, d.marks, d.sums, d.declared, d.counts, d.lengths, d.symbols, d.places, d.sizes,
                                            d.discs, d.quotients, d.current, d.saved);
    CHECK(is_at(&d, 5, made) && is_length(peeked, 0, made >= ROWS));
    if (made % 2 == 0) {
      CHECK(is_unfinished(jobs_step(5, d.states, d.extents, d.checks, d.marks, d.sums, d.taps, d.declared, d.counts, d.lengths, d.symbols, d.places, d.sizes,
                                    d.discs, d.quotients, d.current, d.saved)));
      continue;
    }
    tomkhadi_turned turned = jobs_turn(&d.last, d.states, d.extents, d.checks, d.marks, d.sums, d.taps, d.declared, d.counts, d.lengths, d.symbols, d.places,
                                       d.sizes, d.discs, d.quotients, d.current, d.saved);
    CHECK(turned.job == 5 && d.last == 5);
    CHECK(made + 1 < STEPS ? is_unfinished(turned.answer) : is_answer(turned.answer, 0, 6));
  }
  CHECK(is_part(&d, 5, located, 1));
}

/* A dead line: zeros, and column 5 of them damaged as above. Encode and locate refuse it; steps, which have only sums to go by, answer the column, and then
 * repair refuses it and lets the job go. No frame is written. */
static void dead_lines(void) {
  static tomkhadi_job job;
  static tomkhadi_dispatcher d;
  static const uint16_t spoiled[SIZE] = {65535}, dead[SIZE] = {[5] = 236, [COLUMNS + 5] = 253};
  uint16_t frame[SIZE];
  empty(&job);
  dispatcher_empty(&d);
  CHECK(shape(&job, COLUMNS, checks, ROWS, 1) == 0 && dispatcher_shape(&d, 5, COLUMNS, checks, ROWS, 1) == 0);
  memcpy(frame, spoiled, sizeof frame);
  CHECK(encode(&job, frame, SIZE) == 34 && head_encode(shaped, frame, SIZE) == 34 && dispatcher_encode(&d, 5, frame, SIZE) == 34);
  SAME(frame, spoiled);

  CHECK(is_answer(locate(&job, nothing, dead, SIZE), 26, 0) && is_job(&job, shaped, 0));
  CHECK(is_answer(dispatcher_locate(&d, 5, nothing, dead, SIZE), 26, 0) && is_part(&d, 5, shaped, 0));
  tomkhadi_head_answered answered = head_locate(shaped, job.sums, job.taps, job.declared, nothing, dead, SIZE);
  CHECK(is_answer(answered.answer, 26, 0) && is_head(answered.head, shaped) && is_job(&job, shaped, 0));

  CHECK(is_unfinished(start(&job, nothing, dead, SIZE)) && is_unfinished(dispatcher_start(&d, 5, nothing, dead, SIZE)));
  for (int made = 1; made < 4 * ROWS; made++) CHECK(is_unfinished(step(&job)) && is_unfinished(dispatcher_turn(&d).answer));
  CHECK(is_answer(step(&job), 0, 6) && is_answer(dispatcher_turn(&d).answer, 0, 6) && is_head(job.head, located));
  memcpy(frame, dead, sizeof frame);
  answered = head_repair(job.head, job.sums, job.declared, frame, SIZE);
  CHECK(is_answer(answered.answer, 26, 0) && is_head(answered.head, shaped));
  CHECK(is_answer(repair(&job, frame, SIZE), 26, 0) && is_head(job.head, shaped) && is_answer(repair(&job, frame, SIZE), 22, 0));
  CHECK(is_answer(dispatcher_repair(&d, 5, frame, SIZE), 26, 0) && is_head(part(&d, 5).head, shaped));
  CHECK(is_answer(dispatcher_repair(&d, 5, frame, SIZE), 22, 0));
  SAME(frame, dead);
}

int main(void) {
  registers();
  searches();
  heads();
  jobs();
  exponents();
  slices();
  sliced_heads();
  dispatchers();
  eight_heads();
  dead_lines();
  printf("tests/src/prototypes.c: %d checks, %d failed\n", checked, failed);
  return failed != 0;
}
