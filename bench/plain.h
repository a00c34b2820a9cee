/* What the library does, as one writes it in plain C without proofs. */
#ifndef PLAIN_H
#define PLAIN_H

#include <stddef.h>
#include <stdint.h>

/* The filter of a form, in the shape of the proved loop: 1 where the form and the scan are sound, and
   out then holds the cleaned scan. */
int plain_clean(const uint16_t *terms, size_t m, const uint16_t *scan, size_t samples, uint16_t *out);

/* The same, as one writes it first: a test for each position of each term. */
int plain_clean_by_bits(const uint16_t *terms, size_t m, const uint16_t *scan, size_t samples, uint16_t *out);

/* The steps of a sound recipe on the widened scan, row by row. */
void plain_run_recipe(const uint8_t *recipe, size_t steps, const uint16_t *scan, size_t samples, uint16_t *out);

#endif
