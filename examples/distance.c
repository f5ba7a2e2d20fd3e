#include <stdint.h>

uint64_t one[6];
uint64_t other[7];
uint64_t D[7][8];
uint64_t distance;

/* The edit distance of two words: how many letters are changed, put in or left out. */
void kernel(void)
{
    uint64_t best;

    #pragma omp parallel for
    for (uint64_t i = 0; i < 7; i++) {
        D[i][0] = i;
    }
    #pragma omp parallel for
    for (uint64_t j = 0; j < 8; j++) {
        D[0][j] = j;
    }
    #pragma omp parallel for ordered(2) private(best)
    for (uint64_t i = 1; i < 7; i++) {
        for (uint64_t j = 1; j < 8; j++) {
            #pragma omp ordered doacross(sink: i-1, j-1)
            #pragma omp ordered doacross(sink: i-1, j)
            #pragma omp ordered doacross(sink: i, j-1)
            best = D[i-1][j-1] + (one[i-1] != other[j-1] ? 1 : 0);
            best = D[i-1][j] + 1 < best ? D[i-1][j] + 1 : best;
            best = D[i][j-1] + 1 < best ? D[i][j-1] + 1 : best;
            D[i][j] = best;
            #pragma omp ordered doacross(source:)
        }
    }
    distance = D[6][7];
}
