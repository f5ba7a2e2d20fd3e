#include <stdint.h>

uint64_t A[12];
uint64_t sum;
uint64_t least;
uint64_t last;

void kernel(void)
{
    least = 18446744073709551615ull;
    #pragma omp parallel for reduction(+: sum) reduction(min: least) lastprivate(last)
    for (uint64_t i = 0; i < 12; i++) {
        sum += A[i];
        if (A[i] < least) {
            least = A[i];
        }
        last = A[i];
    }
}
