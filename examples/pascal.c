#include <stdint.h>

enum { ROWS = 8 };
uint64_t P[ROWS][ROWS];

// The binomial coefficients, row by row.
void kernel(void)
{
    P[0][0] = 1;
    for (uint64_t n = 1; n < ROWS; n++) {
        P[n][0] = 1;
        for (uint64_t k = 1; k <= n; k++) {
            P[n][k] = P[n - 1][k - 1] + P[n - 1][k];
        }
    }
}
