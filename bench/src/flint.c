/* The shortest register of one sequence by FLINT's Berlekamp-Massey, in the library's terms. */
#include <flint/nmod_poly.h>
#include <stdint.h>

enum { most_symbols = 128 };

static nmod_berlekamp_massey_t state;

void flint_start(uint32_t p) {
  nmod_berlekamp_massey_init(state, p);
}

void flint_end(void) {
  nmod_berlekamp_massey_clear(state);
}

/* Writes the taps and answers the length. FLINT's polynomial has them from the last to the first, up to a factor. */
size_t flint_find(const uint16_t *symbols, size_t count, uint16_t *taps) {
  mp_limb_t points[most_symbols];
  for (size_t i = 0; i < count; i++) points[i] = symbols[i];
  nmod_berlekamp_massey_start_over(state);
  nmod_berlekamp_massey_add_points(state, points, (slong)count);
  nmod_berlekamp_massey_reduce(state);
  const nmod_poly_struct *v = nmod_berlekamp_massey_V_poly(state);
  size_t length = (size_t)nmod_poly_degree(v);
  mp_limb_t scale = nmod_inv(v->coeffs[length], v->mod);
  for (size_t i = 0; i <= length; i++) taps[i] = (uint16_t)nmod_mul(v->coeffs[length - i], scale, v->mod);
  return length;
}
