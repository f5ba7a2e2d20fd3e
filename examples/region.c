#include <stdint.h>

uint64_t squares[8];
uint64_t sums[8];

void kernel(void)
{
    #pragma omp parallel
    {
        #pragma omp for schedule(guided, 2)
        for (uint64_t i = 0; i < 8; i++) {
            squares[i] = i * i;
        }
        #pragma omp for nowait
        for (uint64_t i = 0; i < 8; i++) {
            sums[i] = squares[i] + squares[7 - i];
        }
    }
}
