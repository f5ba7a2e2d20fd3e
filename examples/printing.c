// What printf writes, and which arm counts.
#include <inttypes.h>
#include <stdint.h>
#include <stdio.h>
enum { LAST = 2, ALL = LAST + 1 };
uint64_t s; /* a scalar */
uint64_t d[ALL][2];
void kernel(void)
{
    d[LAST][1] = s ? d[0][0] : 7;
    if (s < 5 && !(d[LAST][1] == 3)) { s += d[2][1ull] * LAST; } else s = ~s;
    printf("s is %" PRIu64 ", 100%%\n", s > 13 ? s : s + 1);
}
