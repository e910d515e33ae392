/* The header's calls on a job and on eight jobs are inline; here they are functions that interface.rs can name. */
#include "tomkhadi.h"

void header_empty(tomkhadi_job *job) {
  tomkhadi_empty(job);
}

uint32_t header_shape(tomkhadi_job *job, size_t columns, const uint16_t *checks, size_t rows, uint32_t exponent) {
  return tomkhadi_shape(job, columns, checks, rows, exponent);
}

uint32_t header_encode(const tomkhadi_job *job, uint16_t *frame, size_t size) {
  return tomkhadi_encode(job, frame, size);
}

tomkhadi_answer header_locate(tomkhadi_job *job, const uint64_t declared[32], const uint16_t *frame, size_t size) {
  return tomkhadi_locate(job, declared, frame, size);
}

tomkhadi_answer header_repair(tomkhadi_job *job, uint16_t *frame, size_t size) {
  return tomkhadi_repair(job, frame, size);
}

tomkhadi_answer header_start(tomkhadi_job *job, const uint64_t declared[32], const uint16_t *frame, size_t size) {
  return tomkhadi_start(job, declared, frame, size);
}

tomkhadi_answer header_step(tomkhadi_job *job) {
  return tomkhadi_step(job);
}

tomkhadi_peek_answer header_peek(const tomkhadi_job *job) {
  return tomkhadi_peek(job);
}

void header_dispatcher_empty(tomkhadi_dispatcher *d) {
  tomkhadi_dispatcher_empty(d);
}

uint32_t header_dispatcher_shape(tomkhadi_dispatcher *d, size_t job, size_t columns, const uint16_t *checks, size_t rows, uint32_t exponent) {
  return tomkhadi_dispatcher_shape(d, job, columns, checks, rows, exponent);
}

uint32_t header_dispatcher_encode(const tomkhadi_dispatcher *d, size_t job, uint16_t *frame, size_t size) {
  return tomkhadi_dispatcher_encode(d, job, frame, size);
}

tomkhadi_answer header_dispatcher_locate(tomkhadi_dispatcher *d, size_t job, const uint64_t declared[32], const uint16_t *frame, size_t size) {
  return tomkhadi_dispatcher_locate(d, job, declared, frame, size);
}

tomkhadi_answer header_dispatcher_repair(tomkhadi_dispatcher *d, size_t job, uint16_t *frame, size_t size) {
  return tomkhadi_dispatcher_repair(d, job, frame, size);
}

tomkhadi_answer header_dispatcher_start(tomkhadi_dispatcher *d, size_t job, const uint64_t declared[32], const uint16_t *frame, size_t size) {
  return tomkhadi_dispatcher_start(d, job, declared, frame, size);
}

tomkhadi_answer header_dispatcher_step(tomkhadi_dispatcher *d, size_t job) {
  return tomkhadi_dispatcher_step(d, job);
}

tomkhadi_peek_answer header_dispatcher_peek(const tomkhadi_dispatcher *d, size_t job) {
  return tomkhadi_dispatcher_peek(d, job);
}

tomkhadi_turned header_dispatcher_turn(tomkhadi_dispatcher *d) {
  return tomkhadi_dispatcher_turn(d);
}
