// Case C1 of the scope paper from C: the relations to order 3 between -1 and 1 + X + 2X^2 modulo 7, of type (0, 2).
#include "relations.h"

#include <stdio.h>

int main(void)
{
    enum { P = 7, N = 2, S = 3 };
    const uint32_t type[N] = {0, 2};
    const uint32_t series[N * S] = {6, 0, 0, /* f_1 */ 1, 1, 2 /* f_2 */};
    uint32_t basis[N * N * (S + 1)], answer[2], row[2];

    uint32_t status = relations_basis(P, N, S, type, N, series, N * S, basis, N * N * (S + 1), answer, 2);
    if (status != 0) {
        printf("refused %u\n", status);
        return 1;
    }
    for (uint32_t i = 1; i <= N; i++) {
        relations_row(N, S, i, basis, N * N * (S + 1), row, 2);
        printf("row %u:", i);
        for (uint32_t t = 0; t < row[1]; t++)
            printf("%s%u", t % (S + 1) == 0 ? " | " : " ", basis[row[0] + t]);
        printf("\n");
    }
    printf("least %u, %u orders made the set of relations smaller\n", answer[0], answer[1]);
    return 0;
}
