// What each call of include/relations.h must answer, worked out by plain linear algebra and not by the engine's algorithm.
// The functions have the calls' arguments. On status 0 they write the whole result; otherwise they write nothing.
#ifndef ALGEBRA_H
#define ALGEBRA_H

#include <stddef.h>
#include <stdint.h>

enum { LARGEST = 2147483647, WIDEST = 8, HIGHEST = 255, MOST_SETS = 16, FILE_BYTES = 8704 };

int algebra_is_prime(uint32_t p);

uint32_t algebra_modulus(uint32_t p);
uint32_t algebra_add(uint32_t p, uint32_t a, uint32_t b, uint32_t *sum);
uint32_t algebra_multiply(uint32_t p, uint32_t a, uint32_t b, uint32_t *product);
// 256 for the inverse of zero.
uint32_t algebra_invert(uint32_t p, uint32_t a, uint32_t *inverse);

// answer: least row and count.
uint32_t algebra_basis(uint32_t p, uint32_t n, uint32_t s, const uint32_t *type, size_t type_len,
                       const uint32_t *series, size_t series_len, uint32_t *basis, size_t basis_len, uint32_t *answer);
uint32_t algebra_approximant(uint32_t p, uint32_t n, const uint32_t *type, size_t type_len,
                             const uint32_t *series, size_t series_len, uint32_t *basis, size_t basis_len, uint32_t *answer);
// answers: a refusal or 0, least row and count for each set. A refused set's part of the bases is not written.
uint32_t algebra_bases(uint32_t p, uint32_t n, uint32_t s, uint32_t sets, const uint32_t *type, size_t type_len,
                       const uint32_t *series, size_t series_len, uint32_t *bases, size_t bases_len, uint32_t *answers, size_t answers_len);
uint32_t algebra_pair(uint32_t p, uint32_t k, const uint32_t *g, size_t g_len, uint32_t *r, size_t r_len, uint32_t *t, size_t t_len);
// answer: start and length of the part.
void algebra_row(uint32_t n, uint32_t s, uint32_t i, size_t basis_len, uint32_t *answer);

// answer: p, n and s.
uint32_t algebra_read(const uint8_t *file, size_t file_len, uint32_t *type, size_t type_len, uint32_t *series, size_t series_len, uint32_t *answer);
// answer: the number of blocks.
uint32_t algebra_write(uint32_t p, uint32_t n, uint32_t s, const uint32_t *type, size_t type_len,
                       const uint32_t *series, size_t series_len, uint8_t *file, size_t file_len, uint32_t *answer);
// The text of any words as a basis, and that of a refusal; the length is answered. text has room for 180809 bytes.
size_t algebra_text(uint32_t p, uint32_t n, uint32_t s, const uint32_t *type, const uint32_t *basis, uint32_t least, char *text);
size_t algebra_refused(uint32_t number, char *text);
// The text for a job file.
size_t algebra_print(const uint8_t *file, size_t file_len, char *text);

// answer: p, n and s; line: that of what is wrong, and 0 where nothing is.
uint32_t algebra_parse(const uint8_t *text, size_t text_len, uint32_t *type, uint32_t *series, uint32_t *answer, size_t *line);

uint32_t algebra_word(const uint8_t *bytes);
void algebra_put_word(uint8_t *bytes, uint32_t word);
// Writes checks A and B at the end of a block of 512 bytes.
void algebra_seal(uint8_t *block);

#endif
