#include <inttypes.h>
#include <stdint.h>
#include <stdio.h>
uint64_t a;
uint64_t b[4];
void kernel(void)
{
    uint64_t x;
    /* assigned in both branches */
    if (a == 0) x = 3; else x = b[3];
    { uint64_t y = x > 2 ? x - 1 : x; b[0] = y; b[1] ^= y << 3; }
    if (b[1] != 16) printf("no\n"); else printf("%" PRIu64 "\n", x);
    a = x; // the end
}
