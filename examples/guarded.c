#include <inttypes.h>
#include <stdint.h>
#include <stdio.h>
uint64_t A[8];
uint64_t n;
void kernel(void)
{
    n = n ? n : 2; // a guard
    if (n > 1) {
#pragma omp parallel for schedule(dynamic, 3)
        for (uint64_t i = 0; i < 8; i++) { A[i] = A[i] + i; }
    } else A[0] = 9;
    for (uint64_t i = 0; i < 4; i++) { A[i] = A[i] * 3ull; }
    printf("%" PRIu64 "\n", A[7]); /* 7 */
}
