/* Containment of one draft file in another, for C. */
#ifndef COLVAJE_H
#define COLVAJE_H

#include <stddef.h>
#include <stdint.h>

#ifdef __cplusplus
extern "C" {
#endif

/*
 * Whether every repeating word that the draft in the first file accepts from first_state is one that the draft in the second
 * file accepts from second_state. Both files are read with the same number of letters. Neither pointer may be null, not even
 * with a length of 0. The call needs no set-up and keeps nothing between calls. Its local arrays and its recursion took less than
 * 128 kB of stack where that was measured; no proof says so.
 *
 * It answers
 *   0  not shown, which does not say that it is not contained
 *   1  contained
 *   1000 * draft + 100 + number  for a refusal, with the draft, 1 or 2, that was being loaded or to which the question was
 *      put, and draft 0 for the numbers 14 and 15
 *   1199 or 2199  where there is no memory for that draft
 */
uint32_t colvaje_contain(uint32_t letters, const uint8_t *first, size_t first_len, const uint8_t *second, size_t second_len,
                         uint32_t first_state, uint32_t second_state);

#ifdef __cplusplus
}
#endif

#endif
