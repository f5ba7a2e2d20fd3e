#include <stdint.h>

uint64_t A[10];
uint64_t before[10];
uint64_t most[10];
uint64_t sum;
uint64_t greatest;

void kernel(void)
{
    #pragma omp parallel for reduction(inscan, +: sum)
    for (uint64_t i = 0; i < 10; i++) {
        before[i] = sum;
        #pragma omp scan exclusive(sum)
        sum += A[i];
    }
    #pragma omp parallel for reduction(inscan, max: greatest)
    for (uint64_t i = 0; i < 10; i++) {
        if (A[i] > greatest) {
            greatest = A[i];
        }
        #pragma omp scan inclusive(greatest)
        most[i] = greatest;
    }
}
