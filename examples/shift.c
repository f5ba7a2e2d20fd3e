#include <stdint.h>

uint64_t A[8];

void kernel(void)
{
    #pragma omp parallel for
    for (uint64_t i = 1; i < 8; i++) {
        A[i] = A[i - 1] + 1;
    }
}
