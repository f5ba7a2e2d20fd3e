#include <inttypes.h>
#include <stdint.h>
#include <stdio.h>

uint64_t A[8];
uint64_t sum;

void kernel(void)
{
    #pragma omp parallel for ordered schedule(dynamic) reduction(+: sum)
    for (uint64_t i = 0; i < 8; i++) {
        A[i] = i * i;
        sum += A[i];
        #pragma omp ordered
        printf("%" PRIu64 " squared is %" PRIu64 "\n", i, A[i]);
    }
}
