#include <inttypes.h>
#include <stdint.h>
#include <stdio.h>

enum { N = 6 };
uint64_t A[N][N];
uint64_t B[N][N];
uint64_t trace;

// The powers of a matrix, each row by a team.
void kernel(void)
{
    #pragma omp parallel for collapse(2)
    for (uint64_t i = 0; i < N; i++) {
        for (uint64_t j = 0; j < N; j++) {
            A[i][j] = i + 2 * j;
            B[i][j] = i + 2 * j;
        }
    }
    for (uint64_t power = 2; power <= 4; power++) {
        #pragma omp parallel for schedule(dynamic, 1)
        for (uint64_t i = 0; i < N; i++) {
            uint64_t x0 = B[i][0];
            uint64_t x1 = B[i][1];
            uint64_t x2 = B[i][2];
            uint64_t x3 = B[i][3];
            uint64_t x4 = B[i][4];
            uint64_t x5 = B[i][5];
            for (uint64_t j = 0; j < N; j++) {
                B[i][j] = x0 * A[0][j] + x1 * A[1][j] + x2 * A[2][j] + x3 * A[3][j] + x4 * A[4][j] + x5 * A[5][j];
            }
        }
        trace = 0;
        for (uint64_t i = 0; i < N; i++) {
            trace += B[i][i];
        }
        printf("%" PRIu64 ": %" PRIu64 "\n", power, trace);
    }
}
