// The plain C program that the engine is measured against. Buffers, refusals and answer are those of
// relations_basis in include/relations.h.
#ifndef PLAIN_H
#define PLAIN_H

#include <stddef.h>
#include <stdint.h>

uint32_t plain_basis(uint32_t p, uint32_t n, uint32_t s,
                     const uint32_t *type, size_t type_len,
                     const uint32_t *series, size_t series_len,
                     uint32_t *basis, size_t basis_len,
                     uint32_t *answer, size_t answer_len);

// The products of coefficients formed since the program began, and those among them that a sum took; counted only if built with -DCOUNT_PRODUCTS.
extern uint64_t plain_products, plain_summed;

#endif
