#include <stdint.h>

enum { N = 8 };

uint64_t heights[N];
uint64_t slopes[N];

void kernel(void)
{
    uint64_t t;
    #pragma omp parallel private(t)
    {
        #pragma omp for schedule(dynamic, 2)
        for (uint64_t i = 0; i < N; i++) {
            t = i * i + 3;
            heights[i] = t * t;
        }
        #pragma omp for
        for (uint64_t i = 0; i < N - 1; i++) {
            t = heights[i + 1] - heights[i];
            slopes[i] = t / 2ull;
        }
    }
}
