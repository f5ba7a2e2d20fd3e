#include <stdint.h>

uint64_t A[8];

void kernel(void)
{
    #pragma omp parallel for schedule(dynamic, 3)
    for (uint64_t i = 0; i < 8; i++) {
        A[i] = A[i] + i;
    }
}
