/* Tomkhadi: register synthesis and column repair for frames over the field of 257.
 *
 * Link with crates/capi/out/libcapi.a, which 'rt lib' in crates/capi builds. Every call is total: it answers for every argument, and a refusal is the number
 * that the documentation gives it; 0 means that nothing is refused. Nothing here allocates, blocks or keeps state: what a call knows stands in the job
 * and in what is lent. A pointer must be valid for the count of 16-bit numbers that follows it, `declared` for 32 64-bit numbers, and what is written must
 * not overlap the job or anything else lent. Lend no null pointer, not even with the count 0. The job itself is written: do not lend the `declared` of a job
 * to its own locate or start, and no part of a dispatcher to one of its own calls, that of another job or the check counts lent to shape not either.
 *
 * The calls on a job, which is empty, shaped, unfinished or located: what each wants, and how it leaves the job
 *   tomkhadi_empty    wants nothing; the job is empty, whatever it was
 *   tomkhadi_shape    wants nothing; the job is shaped, whatever it was, and nothing is located or unfinished any more
 *   tomkhadi_encode   wants a job that is not empty, and makes a frame legal; the job is as it was
 *   tomkhadi_locate   wants a job that is not empty, and finds the damaged columns of a frame, some of whose cells may be declared lost; the job is
 *                     located by this frame, with these cells
 *   tomkhadi_start    wants a job that is not empty, and begins the same in slices; the job is unfinished, or located where there is no step to make
 *   tomkhadi_step     wants a job that is unfinished, and makes one slice; the job is still unfinished, or located after the last step
 *   tomkhadi_peek     wants a job that is unfinished, and tells how long the register is so far; the job is as it was
 *   tomkhadi_repair   wants a job that is located, and a frame with the check sums of the frame that it is located by, and mends it; the job is shaped
 * A refused call writes nothing to what is lent and leaves the job as it was, but that locate and step refused by 24, 25 or 26, and repair refused by 26,
 * leave it shaped. So between a locate and its repair there may be encodes, and calls that are refused by other numbers.
 *
 * Locating in slices is for a caller that can spare little at a time. The start copies the check sums, and the frame is not read again before the repair. It
 * takes exactly N x rows steps, N being the longest sequence: the largest number of checks that a row has, less its declared cells. All steps but the last
 * answer that the locate is unfinished, and the last one answers and leaves what a locate of the copied sums would have: what locate of the frame would have,
 * but that sums do not show cells. Where the only codeword at the distance found is uniform, locate is refused by 26 and the last step is not; there, and
 * nowhere else, a repair of the frame started is refused, by 26. A peek after n finished rounds, which is n x rows steps and up to the next, tells the length
 * of the shortest register for the sequences without their last N - n symbols, empty where they have no more. An unfinished job counts as shaped: encode takes
 * it, repair is refused by 22, and shape, locate or another start drops what is unfinished, unless a refusal leaves the job as it was.
 *
 * A dispatcher is for one processor with eight heads. It has eight jobs, 0 to 7, each with all the calls above but the first (tomkhadi_dispatcher_shape and so
 * on, with the number of the job; tomkhadi_dispatcher_empty makes all eight empty), and the turn: tomkhadi_dispatcher_turn makes one step of the next
 * unfinished job after the one that was served last, in circular order, and answers its number and what the step said. Only turns serve: a step by call counts
 * as no service. An unfinished job is served within any eight turns, and a locate that was started, and is not dropped, is done within 4,096 turns, and within
 * eight times as many turns as it has steps, whatever is done to the other jobs meanwhile. What each job answers is what it would answer by itself to the
 * calls on it and the steps by turns.
 *
 * Two calls take no job: tomkhadi_find finds the shortest register of any sequences, and tomkhadi_search the columns that the taps of a register name.
 *
 * A shape has an exponent, 0 to 255, that of the locators in the first check sum: column i has the locator 3^i, and check sum j of a row, j = 1 up to its
 * check count, is the sum over i of its symbol at column i times 3^(i*(exponent + j - 1)), modulo 257. A frame is a codeword where all of them are 0. Exponent
 * 1 is what shapes meant before there was a choice. A codeword for one exponent seldom is one for another, so both ends of a link need the same.
 *
 * A frame is uniform where all its symbols are one and the same, as a broken cable delivers them, and legal where it is a codeword and not uniform: a frame of
 * zeros is not legal. Encode is refused by 34 where the only codeword with the data is uniform. Locate is refused by 26 where the frame that repair would
 * leave, the declared cells filled, is uniform, also where no column is damaged; and so is repair, which may follow slices, or be lent a frame that shares only
 * its check sums with the one located. A repair of the very frame that was lent to locate is never refused so.
 *
 * Declared cells are known to be lost: locate and repair read them as 0 whatever they hold, and repair fills them too. Each row has 256 marks, in the form of
 * an answer's: bit b of word 4*h + w declares column 64*w + b of the row at place h. Places count from 0, like those of the check counts lent to shape; the
 * documents number rows from 1, so words 0 to 3 are row 1's and words 28 to 31 row 8's. Zeros declare nothing. A declared cell costs its row one check, and
 * a damaged column two: where 2*w plus a row's declared cells is within its checks for each row, w being the columns damaged in other cells, repair gives back
 * what was sent.
 *
 * The search for the columns that a register names goes up from column 0, and ends as soon as it has found as many as the register is long. Locate, the last
 * step and search tell how many columns it tried: none where the length is 0, else those up to and with the last one found, or all where fewer are named.
 *
 * What is proved: the functions of the archive do what is said here, whatever they are given (crates/capi/src). The calls on a job are inline functions of one
 * to four statements over them, and C is not proved: that such statements, in a list of any length, do what is said here is proved of their description
 * (crates/capi/specs/Runs.antt, of a dispatcher DispatcherRuns.antt), and that they are as described is tested (tests/src/prototypes.c, and all of
 * tests/src/trials).
 *
 * Refusals because of the input
 *    1  p is below 2, above 65521 or not prime
 *    2  the count of sequences or rows is outside 1 to 8
 *    3  a length is above 128, or the lengths do not add up to the number of symbols
 *    4  a symbol is not below p (for frames, 257); encode looks at data cells only, locate and repair at cells that are not declared; search: a tap is not
 *       below 257
 *    5  columns outside 2 to 256
 *    6  a check count outside 1 to 64 or not below the columns
 *    7  the frame does not have rows x columns symbols
 *    8  the tap buffer has fewer entries than the longest length plus 1
 *   31  more declared cells than checks in a row, or a mark past the last column or row
 *   32  the exponent is above 255
 *   34  encode: the only codeword with the data is uniform
 * Refusals because of the state of the job
 *   21  the job is empty
 *   22  repair of a job that is not located
 *   23  repair of a frame whose check sums differ from those located
 *   24  locate, and the last step of one in slices, as in 25 and 26: the shortest register is not alone
 *   25  locate: it is alone, and some row has fewer checks, less its declared cells, than its length
 *   26  locate: neither of these, and no legal frame lies at a distance of that length, counted in columns that differ in cells not declared; the last step:
 *       no codeword lies there; repair: the check sums are those located, and the frame that it would leave is uniform
 *   33  step or peek of a job that is not unfinished; a dispatcher: the number of the job is above 7, or, of a turn, no job is unfinished
 */
#ifndef TOMKHADI_H
#define TOMKHADI_H

#include <stddef.h>
#include <stdint.h>
#include <string.h>

#ifdef __cplusplus
extern "C" {
#endif

/* The shortest register: its length, and 1 where no other taps of that length generate all sequences, else 0. Both are 0 where it is refused. */
typedef struct {
  uint32_t refusal;
  uint32_t alone;
  uint64_t length;
} tomkhadi_register;

/* Finds the shortest register modulo p of `count` sequences, symbols lent one sequence after the other. The taps go to entries 0 .. length of `taps`;
 * later entries keep their contents. Refusals in this order: 1, 2, 3, 8, 4. */
tomkhadi_register tomkhadi_find(uint32_t p, const uint16_t *lengths, size_t count, const uint16_t *symbols, size_t symbol_count, uint16_t *taps,
                                size_t tap_count);

/* What search answers: the refusal or 0, how many columns it tried, and those of them that are named, as 256 marks (column i is bit i mod 64 of word i / 64).
 * Where it is refused nothing is tried and no column is marked. */
typedef struct {
  uint32_t refusal;
  uint64_t tried;
  uint64_t marks[4];
} tomkhadi_columns;

/* Searches `columns` columns for those that the taps name: column i is named where the sum over k of taps[k]*y^k is 0 modulo 257, y being the inverse of 3^i.
 * The length c of the register is tap_count - 1, and 0 where there are no taps. The columns are tried from 0 upwards until c are found or all are tried; where
 * c is 0, none is. There may be any number of taps, and the first need not be 1: unless all are 0, at most c columns are named, and those that are named are
 * marked. Where all are 0 every column is named, and the first c are marked, or all where there are fewer. Refusals in this order: 5, 4. */
tomkhadi_columns tomkhadi_search(size_t columns, const uint16_t *taps, size_t tap_count);

/* The head of a job. phase: 0 empty, 1 shaped, 2 located, 3 unfinished; any other number counts as empty. */
typedef struct {
  uint32_t phase;
  uint32_t alone;
  uint64_t length;
  uint64_t rows;
  uint64_t columns;
  uint64_t marks[4];
  uint16_t checks[8];
  uint32_t exponent;
} tomkhadi_head;

/* A job. Treat it as opaque: make it empty, then hand it from call to call. One of zeros is empty. Any other value is safe too: it counts as empty, and
 * may be left as another that does, unless the numbers of its head are in their ranges (a shape that is not refused, its exponent 255 at most; where it is
 * located, alone is 1, `length` columns are marked, all below `columns`, and no row has fewer checks than `length`). The arrays up to the taps hold what the
 * last locate or start found that was not refused, and the cells declared to it; those after them are of a locate in slices. They play a part only where the
 * job is located or unfinished. A located job counts as shaped where its cells would be refused by 31, or leave some row fewer checks than `length`. An
 * unfinished one counts as shaped, and step and peek are refused by 33, where the next step would read what no start and no step leaves, such as a count out
 * of its range or a symbol that is not below 257, or where it is the last step and a sum is not below 257 or the cells would be refused by 31. Other values
 * are not told from those that calls leave, and give any answer. */
typedef struct {
  tomkhadi_head head;
  uint64_t declared[32];
  uint16_t sums[512];
  uint16_t taps[65];
  uint16_t counts[5];
  uint16_t lengths[8];
  uint16_t places[8];
  uint16_t sizes[8];
  uint16_t discs[8];
  uint16_t quotients[8];
  uint16_t current[144];
  uint16_t symbols[1152];
  uint16_t saved[1152];
} tomkhadi_job;

/* What locate, start, step and repair answer: the refusal or 0, 1 where a start or a step leaves the job unfinished, else 0, the number of columns, how many
 * columns were tried in the search for them, and the columns as 256 marks (column i is bit i mod 64 of word i / 64). All that are counted are marked, so locate
 * tries one more than the number of the last, and none where the count is 0. Repair searches nothing, and tries 0. Where it is refused or unfinished the count
 * and the columns tried are 0, and no column is marked. */
typedef struct {
  uint32_t refusal;
  uint32_t unfinished;
  uint64_t count;
  uint64_t tried;
  uint64_t marks[4];
} tomkhadi_answer;

/* What peek answers: the refusal or 0, and the length, 0 where it is refused. */
typedef struct {
  uint32_t refusal;
  uint64_t length;
} tomkhadi_peek_answer;

/* The archive's functions take the head of a job by value and return it, and are lent the arrays. The calls below are made of them. */
typedef struct {
  uint32_t refusal;
  tomkhadi_head head;
} tomkhadi_head_shaped;

typedef struct {
  tomkhadi_answer answer;
  tomkhadi_head head;
} tomkhadi_head_answered;

tomkhadi_head tomkhadi_head_empty(void);
tomkhadi_head_shaped tomkhadi_head_shape(tomkhadi_head head, size_t columns, const uint16_t *checks, size_t rows, uint32_t exponent);
uint32_t tomkhadi_head_encode(tomkhadi_head head, uint16_t *frame, size_t size);
tomkhadi_head_answered tomkhadi_head_locate(tomkhadi_head head, uint16_t sums[512], uint16_t taps[65], uint64_t held[32], const uint64_t declared[32],
                                            const uint16_t *frame, size_t size);
tomkhadi_head_answered tomkhadi_head_repair(tomkhadi_head head, const uint16_t sums[512], const uint64_t held[32], uint16_t *frame, size_t size);
tomkhadi_head_answered tomkhadi_head_start(tomkhadi_head head, uint16_t sums[512], uint16_t taps[65], uint64_t held[32], uint16_t counts[5],
                                           uint16_t lengths[8], uint16_t symbols[1152], uint16_t places[8], uint16_t sizes[8], uint16_t discs[8],
                                           uint16_t quotients[8], uint16_t current[144], uint16_t saved[1152], const uint64_t declared[32],
                                           const uint16_t *frame, size_t size);
tomkhadi_head_answered tomkhadi_head_step(tomkhadi_head head, const uint16_t sums[512], uint16_t taps[65], const uint64_t held[32], uint16_t counts[5],
                                          const uint16_t lengths[8], const uint16_t symbols[1152], uint16_t places[8], uint16_t sizes[8], uint16_t discs[8],
                                          uint16_t quotients[8], uint16_t current[144], uint16_t saved[1152]);
tomkhadi_peek_answer tomkhadi_head_peek(tomkhadi_head head, const uint16_t sums[512], const uint64_t held[32], const uint16_t counts[5],
                                        const uint16_t lengths[8], const uint16_t symbols[1152], const uint16_t places[8], const uint16_t sizes[8],
                                        const uint16_t discs[8], const uint16_t quotients[8], const uint16_t current[144], const uint16_t saved[1152]);

/* Makes the job empty, and its arrays zeros. Refuses nothing. */
static inline void tomkhadi_empty(tomkhadi_job *job) {
  memset(job, 0, sizeof *job);
  job->head = tomkhadi_head_empty();
}

/* Gives the job its shape: `columns` columns, one row for each of the check counts, and the exponent, 1 where nothing else is agreed on. Leaves it shaped.
 * Answers the refusal or 0. Refusals: 2, 5, 6, 32. */
static inline uint32_t tomkhadi_shape(tomkhadi_job *job, size_t columns, const uint16_t *checks, size_t rows, uint32_t exponent) {
  tomkhadi_head_shaped shaped = tomkhadi_head_shape(job->head, columns, checks, rows, exponent);
  job->head = shaped.head;
  return shaped.refusal;
}

/* Fills the check cells of a frame from its data cells, unless that would make it uniform. Leaves the job as it is. Answers the refusal or 0. Refusals: 21, 7,
 * 4, 34. */
static inline uint32_t tomkhadi_encode(const tomkhadi_job *job, uint16_t *frame, size_t size) {
  return tomkhadi_head_encode(job->head, frame, size);
}

/* Finds the damaged columns of a frame, whose declared cells do not count. It only reads both; `declared` is not the job's own. Leaves the job located; refused
 * by 24, 25 or 26, shaped. Answers the number of columns to mend, how many were tried, and the columns. Refusals: 21, 7, 31, 4, 24, 25, 26. */
static inline tomkhadi_answer tomkhadi_locate(tomkhadi_job *job, const uint64_t declared[32], const uint16_t *frame, size_t size) {
  tomkhadi_head_answered located = tomkhadi_head_locate(job->head, job->sums, job->taps, job->declared, declared, frame, size);
  job->head = located.head;
  return located.answer;
}

/* Mends the located columns of a frame, and the cells declared to locate. The frame must have the check sums of the frame located, both read with these cells
 * as 0. Leaves the job shaped, refused by 26 too; refused by another number, as it was. Answers the number of columns mended, and the columns, those of
 * declared cells not among them where no other cell of theirs is mended. Refusals: 21, 22, 7, 4, 23, 26. */
static inline tomkhadi_answer tomkhadi_repair(tomkhadi_job *job, uint16_t *frame, size_t size) {
  tomkhadi_head_answered repaired = tomkhadi_head_repair(job->head, job->sums, job->declared, frame, size);
  job->head = repaired.head;
  return repaired.answer;
}

/* Begins to find the damaged columns of a frame in slices. It only reads frame and declared cells, as locate does, and neither is read again by a step. Leaves
 * the job unfinished; where no sequence has a symbol, which is where each row has as many declared cells as checks, it does what a locate of the sums does.
 * Answers that it is unfinished, or what that locate answers. Refusals: 21, 7, 31, 4. */
static inline tomkhadi_answer tomkhadi_start(tomkhadi_job *job, const uint64_t declared[32], const uint16_t *frame, size_t size) {
  tomkhadi_head_answered started =
      tomkhadi_head_start(job->head, job->sums, job->taps, job->declared, job->counts, job->lengths, job->symbols, job->places, job->sizes, job->discs,
                          job->quotients, job->current, job->saved, declared, frame, size);
  job->head = started.head;
  return started.answer;
}

/* Makes the next step of what is unfinished. Leaves the job unfinished; the last step, located; refused by 24, 25 or 26, shaped. Answers that it is unfinished;
 * the last step, what a locate of the sums answers. Refusals: 21, 33, 24, 25, 26. The head of a job that stays unfinished is as it was, unless it has marks
 * that no call left, and need not be stored. */
static inline tomkhadi_answer tomkhadi_step(tomkhadi_job *job) {
  tomkhadi_head_answered stepped =
      tomkhadi_head_step(job->head, job->sums, job->taps, job->declared, job->counts, job->lengths, job->symbols, job->places, job->sizes, job->discs,
                         job->quotients, job->current, job->saved);
  const uint64_t *marks = job->head.marks;
  if (!stepped.answer.unfinished || (marks[0] | marks[1] | marks[2] | marks[3])) job->head = stepped.head;
  return stepped.answer;
}

/* Tells the length of the shortest register after the rounds that are finished. Leaves the job as it is. Refusals: 21, 33. */
static inline tomkhadi_peek_answer tomkhadi_peek(const tomkhadi_job *job) {
  return tomkhadi_head_peek(job->head, job->sums, job->declared, job->counts, job->lengths, job->symbols, job->places, job->sizes, job->discs,
                            job->quotients, job->current, job->saved);
}

/* ---- eight jobs */

/* Eight jobs and the number of the one that was served last. Treat it as opaque: make it empty, then hand it from call to call. One of zeros has eight
 * empty jobs, but job 0 served last. Each array has eight parts of one size, part k for job k: in states its phase, alone mark and exponent, in extents its
 * rows, columns and length, in the others what they are called in a job. Any value is safe, as of a job. Whom a turn serves goes by the phases alone: a job
 * whose phase is 3 and which counts as empty or shaped, as no call leaves one, is served too; its step is refused by 21 or 33, and it stays. Of `last` what
 * counts is the remainder by 8. */
typedef struct {
  uint64_t last;
  uint32_t states[8 * 3];
  uint64_t extents[8 * 3];
  uint16_t checks[8 * 8];
  uint64_t marks[8 * 4];
  uint64_t declared[8 * 32];
  uint16_t sums[8 * 512];
  uint16_t taps[8 * 65];
  uint16_t counts[8 * 5];
  uint16_t lengths[8 * 8];
  uint16_t places[8 * 8];
  uint16_t sizes[8 * 8];
  uint16_t discs[8 * 8];
  uint16_t quotients[8 * 8];
  uint16_t current[8 * 144];
  uint16_t symbols[8 * 1152];
  uint16_t saved[8 * 1152];
} tomkhadi_dispatcher;

/* What a turn answers: the number of the job that it served, and what its step answered. Where no job is unfinished the number is 8, which is no job's, and the
 * refusal 33. */
typedef struct {
  uint64_t job;
  tomkhadi_answer answer;
} tomkhadi_turned;

/* The archive's functions are lent the arrays. The calls below are made of them. */
void tomkhadi_jobs_empty(uint64_t *last, uint32_t states[8 * 3], uint64_t extents[8 * 3], uint16_t checks[8 * 8], uint64_t marks[8 * 4]);
uint32_t tomkhadi_jobs_shape(size_t job, uint32_t states[8 * 3], uint64_t extents[8 * 3], uint16_t checks[8 * 8], uint64_t marks[8 * 4], size_t columns,
                             const uint16_t *given, size_t rows, uint32_t exponent);
uint32_t tomkhadi_jobs_encode(size_t job, const uint32_t states[8 * 3], const uint64_t extents[8 * 3], const uint16_t checks[8 * 8],
                              const uint64_t marks[8 * 4], uint16_t *frame, size_t size);
tomkhadi_answer tomkhadi_jobs_locate(size_t job, uint32_t states[8 * 3], uint64_t extents[8 * 3], uint16_t checks[8 * 8], uint64_t marks[8 * 4],
                                     uint16_t sums[8 * 512], uint16_t taps[8 * 65], uint64_t held[8 * 32], const uint64_t declared[32], const uint16_t *frame,
                                     size_t size);
tomkhadi_answer tomkhadi_jobs_repair(size_t job, uint32_t states[8 * 3], uint64_t extents[8 * 3], uint16_t checks[8 * 8], uint64_t marks[8 * 4],
                                     const uint16_t sums[8 * 512], const uint64_t held[8 * 32], uint16_t *frame, size_t size);
tomkhadi_answer tomkhadi_jobs_start(size_t job, uint32_t states[8 * 3], uint64_t extents[8 * 3], uint16_t checks[8 * 8], uint64_t marks[8 * 4],
                                    uint16_t sums[8 * 512], uint16_t taps[8 * 65], uint64_t held[8 * 32], uint16_t counts[8 * 5], uint16_t lengths[8 * 8],
                                    uint16_t symbols[8 * 1152], uint16_t places[8 * 8], uint16_t sizes[8 * 8], uint16_t discs[8 * 8], uint16_t quotients[8 * 8],
                                    uint16_t current[8 * 144], uint16_t saved[8 * 1152], const uint64_t declared[32], const uint16_t *frame, size_t size);
tomkhadi_answer tomkhadi_jobs_step(size_t job, uint32_t states[8 * 3], uint64_t extents[8 * 3], uint16_t checks[8 * 8], uint64_t marks[8 * 4],
                                   const uint16_t sums[8 * 512], uint16_t taps[8 * 65], const uint64_t held[8 * 32], uint16_t counts[8 * 5],
                                   const uint16_t lengths[8 * 8], const uint16_t symbols[8 * 1152], uint16_t places[8 * 8], uint16_t sizes[8 * 8],
                                   uint16_t discs[8 * 8], uint16_t quotients[8 * 8], uint16_t current[8 * 144], uint16_t saved[8 * 1152]);
tomkhadi_peek_answer tomkhadi_jobs_peek(size_t job, const uint32_t states[8 * 3], const uint64_t extents[8 * 3], const uint16_t checks[8 * 8],
                                        const uint64_t marks[8 * 4], const uint16_t sums[8 * 512], const uint64_t held[8 * 32], const uint16_t counts[8 * 5],
                                        const uint16_t lengths[8 * 8], const uint16_t symbols[8 * 1152], const uint16_t places[8 * 8],
                                        const uint16_t sizes[8 * 8], const uint16_t discs[8 * 8], const uint16_t quotients[8 * 8],
                                        const uint16_t current[8 * 144], const uint16_t saved[8 * 1152]);
tomkhadi_turned tomkhadi_jobs_turn(uint64_t *last, uint32_t states[8 * 3], uint64_t extents[8 * 3], uint16_t checks[8 * 8], uint64_t marks[8 * 4],
                                   const uint16_t sums[8 * 512], uint16_t taps[8 * 65], const uint64_t held[8 * 32], uint16_t counts[8 * 5],
                                   const uint16_t lengths[8 * 8], const uint16_t symbols[8 * 1152], uint16_t places[8 * 8], uint16_t sizes[8 * 8],
                                   uint16_t discs[8 * 8], uint16_t quotients[8 * 8], uint16_t current[8 * 144], uint16_t saved[8 * 1152]);

/* Makes all eight jobs empty, and the arrays zeros. Job 7 counts as served last. Refuses nothing. */
static inline void tomkhadi_dispatcher_empty(tomkhadi_dispatcher *d) {
  memset(d, 0, sizeof *d);
  tomkhadi_jobs_empty(&d->last, d->states, d->extents, d->checks, d->marks);
}

/* Each of the following does with job number `job` what the call of its name does with a job, and touches no other. A number above 7 is refused by 33 before
 * all else, and nothing is changed. */
static inline uint32_t tomkhadi_dispatcher_shape(tomkhadi_dispatcher *d, size_t job, size_t columns, const uint16_t *checks, size_t rows, uint32_t exponent) {
  return tomkhadi_jobs_shape(job, d->states, d->extents, d->checks, d->marks, columns, checks, rows, exponent);
}

static inline uint32_t tomkhadi_dispatcher_encode(const tomkhadi_dispatcher *d, size_t job, uint16_t *frame, size_t size) {
  return tomkhadi_jobs_encode(job, d->states, d->extents, d->checks, d->marks, frame, size);
}

static inline tomkhadi_answer tomkhadi_dispatcher_locate(tomkhadi_dispatcher *d, size_t job, const uint64_t declared[32], const uint16_t *frame, size_t size) {
  return tomkhadi_jobs_locate(job, d->states, d->extents, d->checks, d->marks, d->sums, d->taps, d->declared, declared, frame, size);
}

static inline tomkhadi_answer tomkhadi_dispatcher_repair(tomkhadi_dispatcher *d, size_t job, uint16_t *frame, size_t size) {
  return tomkhadi_jobs_repair(job, d->states, d->extents, d->checks, d->marks, d->sums, d->declared, frame, size);
}

static inline tomkhadi_answer tomkhadi_dispatcher_start(tomkhadi_dispatcher *d, size_t job, const uint64_t declared[32], const uint16_t *frame, size_t size) {
  return tomkhadi_jobs_start(job, d->states, d->extents, d->checks, d->marks, d->sums, d->taps, d->declared, d->counts, d->lengths, d->symbols, d->places,
                             d->sizes, d->discs, d->quotients, d->current, d->saved, declared, frame, size);
}

static inline tomkhadi_answer tomkhadi_dispatcher_step(tomkhadi_dispatcher *d, size_t job) {
  return tomkhadi_jobs_step(job, d->states, d->extents, d->checks, d->marks, d->sums, d->taps, d->declared, d->counts, d->lengths, d->symbols, d->places,
                            d->sizes, d->discs, d->quotients, d->current, d->saved);
}

static inline tomkhadi_peek_answer tomkhadi_dispatcher_peek(const tomkhadi_dispatcher *d, size_t job) {
  return tomkhadi_jobs_peek(job, d->states, d->extents, d->checks, d->marks, d->sums, d->declared, d->counts, d->lengths, d->symbols, d->places, d->sizes,
                            d->discs, d->quotients, d->current, d->saved);
}

/* One step of the next unfinished job after the one that was served last. With none unfinished it is refused by 33, and nothing is changed. */
static inline tomkhadi_turned tomkhadi_dispatcher_turn(tomkhadi_dispatcher *d) {
  return tomkhadi_jobs_turn(&d->last, d->states, d->extents, d->checks, d->marks, d->sums, d->taps, d->declared, d->counts, d->lengths, d->symbols, d->places,
                            d->sizes, d->discs, d->quotients, d->current, d->saved);
}

#ifdef __cplusplus
}
#endif

#endif
