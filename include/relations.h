// The relation engine for C: polynomial relations between power series modulo a prime.
//
// Every function takes numbers and lent buffers (a pointer and the number of its elements), keeps nothing between
// calls, allocates nothing and never reads or writes outside what is lent. It answers a status word: 0, or the number
// of the first test in its order that holds. On any status but 0 every buffer stays as lent. A pointer to a buffer of
// length 0 is not used, but must not be null. Lent buffers must not overlap. The number of elements of x is x_len.
//
//    1  p below 2, above 2147483647 or composite       8  file length zero, not a multiple of 512, or over 8704 bytes
//    2  n outside 1 to 8                               9  block number wrong
//    3  order above 255                               10  check A or B wrong
//    4  a lent buffer has another length than stated  11  block count differs from the header's
//    5  a type entry above 255                        12  a spare payload word is not zero
//    6  a coefficient not below p                     13  no fraction exists
//    7  k outside 1 to N                              14  more than 16 sets
//
// An answer buffer of another length than stated gives 4 before every other test; only relations_bases tests it in its turn. Statuses
// above 255 have no number in that table and are defined below.
#ifndef RELATIONS_H
#define RELATIONS_H

#include <stddef.h>
#include <stdint.h>

#ifdef __cplusplus
extern "C" {
#endif

#define RELATIONS_LARGEST 2147483647u // the largest modulus
#define RELATIONS_TYPE 8u             // words that the reader is lent for the type
#define RELATIONS_SERIES 2040u        // words that the reader is lent for the series
#define RELATIONS_BASIS 16384u        // words of the largest basis, n = 8 and s = 255
#define RELATIONS_SETS 16u            // the largest number of sets of series in one call
#define RELATIONS_FILE 8704u          // bytes of the largest job file, 17 blocks of 512
#define RELATIONS_TEXT 180809u        // bytes that the text calls are lent
#define RELATIONS_NO_INVERSE 256u     // status of the inverse of zero, which has no number

// Statuses of a text job that have no number: a word that is no decimal number; a number of more than 32 bits; an end before the last
// number; a word after it.
#define RELATIONS_NOT_NUMBER 257u
#define RELATIONS_TOO_LARGE 258u
#define RELATIONS_ENDS_EARLY 259u
#define RELATIONS_TOO_MANY 260u

// Field calls. Order: 1, then 6 for a and for b. The result is answer[0] of 1 word.
// relations_modulus tests p alone; relations_invert ends with RELATIONS_NO_INVERSE for a = 0.
uint32_t relations_modulus(uint32_t p);
uint32_t relations_add(uint32_t p, uint32_t a, uint32_t b, uint32_t *answer, size_t answer_len);
uint32_t relations_multiply(uint32_t p, uint32_t a, uint32_t b, uint32_t *answer, size_t answer_len);
uint32_t relations_invert(uint32_t p, uint32_t a, uint32_t *answer, size_t answer_len);

// The reduced minimal basis of the relations to order s between n series.
// d: the type, n words. series: n * s words, series by series, low coefficient first. basis: n * n * (s + 1) words, row by
// row, entry by entry, s + 1 coefficients each, low first, unused places zero. answer: 2 words, the number (from 1) of the row
// of least shifted degree and how many of the orders 0 to s - 1 made the set of relations smaller.
// Order: 1, 2, 3, 4, 5, 6.
uint32_t relations_basis(uint32_t p, uint32_t n, uint32_t s,
                         const uint32_t *d, size_t d_len,
                         const uint32_t *series, size_t series_len,
                         uint32_t *basis, size_t basis_len,
                         uint32_t *answer, size_t answer_len);

// The same at the order of the type, s = (d[0] + 1) + .. + (d[n - 1] + 1) - 1. The row answer[0] is an approximant:
// its entry i has degree at most d[i - 1].
// Order: 1, 2, 4 for the type, 5, 3 for that order, 4 for the rest, 6.
uint32_t relations_approximant(uint32_t p, uint32_t n,
                               const uint32_t *d, size_t d_len,
                               const uint32_t *series, size_t series_len,
                               uint32_t *basis, size_t basis_len,
                               uint32_t *answer, size_t answer_len);

// The bases of many sets of n series that share p, n, s and the type, each as relations_basis gives it. 0 to RELATIONS_SETS sets are
// admitted. d: the type, n words. series: sets * n * s words, set after set. bases: sets * n * n * (s + 1) words, set after set.
// answers: 3 words a set: 0 and the two words of its answer; or 6, 0, 0 where a coefficient of the set is not below p. Such a set's part
// of the bases stays as lent, the other sets are answered, and the status is 0.
// Order: 1, 2, 3, 14, 4 for type, series, bases and answers, 5.
uint32_t relations_bases(uint32_t p, uint32_t n, uint32_t s, uint32_t sets,
                         const uint32_t *d, size_t d_len,
                         const uint32_t *series, size_t series_len,
                         uint32_t *bases, size_t bases_len,
                         uint32_t *answers, size_t answers_len);

// The fraction r / t in lowest terms whose series is g to order N = g_len: r = t * g to order N, deg r below k, deg t at most N - k,
// t[0] = 1, and only constants divide both r and t modulo p. There is at most one such pair; for g = 0 it is r = 0, t = 1.
// r: k words. t: N - k + 1 words. Unused places zero. Where no r and t of these degrees have t[0] not zero and r = t * g to order N,
// and nowhere else, the status is 13, and both stay as lent.
// Order: 1, 3 for N, 7, 4, 6, 13.
uint32_t relations_pair(uint32_t p, uint32_t k,
                        const uint32_t *g, size_t g_len,
                        uint32_t *r, size_t r_len,
                        uint32_t *t, size_t t_len);

// Where row i (from 1) lies in a basis buffer: answer[0] is the index of its first word, answer[1] the number of its words.
// Both are 0 if n is outside 1 to 8, s above 255, i outside 1 to n or basis_len not n * n * (s + 1). answer: 2 words.
uint32_t relations_row(uint32_t n, uint32_t s, uint32_t i,
                       const uint32_t *basis, size_t basis_len,
                       uint32_t *answer, size_t answer_len);

// Reads a job file. d: RELATIONS_TYPE words, of which the first n are written, the type. series: RELATIONS_SERIES words, of
// which the first n * s are written. answer: 3 words, p, n and s.
// Order: 4; 8; block by block 9, 10; 1, 2, 3, 11, 12, 5, 6.
uint32_t relations_read(const uint8_t *file, size_t file_len,
                        uint32_t *d, size_t d_len,
                        uint32_t *series, size_t series_len,
                        uint32_t *answer, size_t answer_len);

// Writes a job file. file: RELATIONS_FILE bytes, of which only the file's own are written. answer: 1 word, the number of blocks
// of 512 bytes. Order: 1, 2, 3, 4, 5, 6.
uint32_t relations_write(uint32_t p, uint32_t n, uint32_t s,
                         const uint32_t *d, size_t d_len,
                         const uint32_t *series, size_t series_len,
                         uint8_t *file, size_t file_len,
                         uint32_t *answer, size_t answer_len);

// The text of a basis as the program `relations` prints it: a line with p, n, s and the type, a line for each row, and the line of the
// least row. The words are taken as they are. d: the type, n words. basis: n * n * (s + 1) words. text: RELATIONS_TEXT bytes, of which
// only the text's own are written, with no zero byte at the end. answer: 1 word, the number of bytes. Order: 2, 3, 4.
uint32_t relations_text(uint32_t p, uint32_t n, uint32_t s,
                        const uint32_t *d, size_t d_len,
                        const uint32_t *basis, size_t basis_len,
                        uint32_t least,
                        uint8_t *text, size_t text_len,
                        uint32_t *answer, size_t answer_len);

// The text of a refusal: `refused`, the number and the end of the line. text and answer are as above. Order: 4.
uint32_t relations_refused(uint32_t number,
                           uint8_t *text, size_t text_len,
                           uint32_t *answer, size_t answer_len);

// The text that the program `relations` prints for a job file: that of its basis, or that of the reader's refusal. text and answer are as
// above. Order: 4.
uint32_t relations_print(const uint8_t *file, size_t file_len,
                         uint8_t *text, size_t text_len,
                         uint32_t *answer, size_t answer_len);

// Reads a text job: the numbers p, n, s, the n type entries, then n * s coefficients and nothing more, separated by spaces, tabs and
// ends of line; `#` begins a comment that ends with its line. d: RELATIONS_TYPE words, of which the first n are written, the type.
// series: RELATIONS_SERIES words, of which the first n * s are written. Their lengths are not passed. answer: 3 words, p, n and s.
// The status is that of the first number, from the front, at which something is wrong: 1, 2, 3, 5, 6 or RELATIONS_NOT_NUMBER to
// RELATIONS_TOO_MANY.
uint32_t relations_parse(const uint8_t *text, size_t text_len,
                         uint32_t d[RELATIONS_TYPE], uint32_t series[RELATIONS_SERIES],
                         uint32_t *answer, size_t answer_len);

// The line, counted from 1, of what is wrong with a text job; 0 where nothing is.
size_t relations_parse_line(const uint8_t *text, size_t text_len);

#ifdef __cplusplus
}
#endif

#endif
