#include <inttypes.h>
#include <stdio.h>

enum { N = 4 };
uint64_t A[N][N];
uint64_t B[N][N];
uint64_t C[N][N];

// The product of two matrices, and its trace.
void kernel(void)
{
    for (uint64_t i = 0; i < N; i++) {
        for (uint64_t j = 0; j < N; j++) {
            uint64_t sum = 0;
            for (uint64_t k = 0; k < N; k++) {
                sum += A[i][k] * B[k][j];
            }
            C[i][j] = sum;
        }
    }
    uint64_t trace = 0;
    for (uint64_t i = N; i > 0; i--) {
        trace += C[i - 1][i - 1];
    }
    printf("trace %" PRIu64 "\n", trace);
}
