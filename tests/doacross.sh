#!/usr/bin/env bash
# Runs larger doacross nests by teams of 1, 2, 3 and 64 workers under each schedule, and compares what they write with what the C program
# writes. Silent where all holds.
set -u
cd "$(dirname "$0")/.." || exit 1
work=$(mktemp -d) || exit 1
trap 'rm -rf "$work"' EXIT
./ompk --help >/dev/null || { echo 'the program is not built'; exit 1; }
program=$PWD/crates/ompk_cli/out/ompk_cli

# compare NAME VARIABLES KERNEL: SCHEDULE in the kernel stands for a clause; each variable is named with how many elements it has.
compare() {
    local name=$1 variables=$2 kernel=$3 print='' it clause workers
    for it in $variables; do
        print+="printf(\"${it%:*} =\"); for (int at = 0; at < ${it#*:}; at++) printf(\" %\" PRIu64, ((uint64_t *)${it%:*})[at]); printf(\"\\n\");"
    done
    { printf '#include <inttypes.h>\n#include <stdio.h>\n%s\nint main(void) { kernel(); %s }\n' "${kernel//SCHEDULE/}" "$print"; } >"$work/$name.c"
    cc -w -O1 -o "$work/$name" "$work/$name.c" && "$work/$name" >"$work/wanted" || { echo "$name: no C program"; return; }
    for clause in '' 'schedule(static)' 'schedule(static, 1)' 'schedule(static, 3)' 'schedule(dynamic)' 'schedule(dynamic, 7)' 'schedule(guided)' 'schedule(guided, 2)' 'schedule(auto)' 'schedule(runtime)'; do
        printf '%s\n' "${kernel//SCHEDULE/$clause}" >"$work/text.c"
        for workers in 1 2 3 64; do
            "$program" run "$work/text.c" --workers "$workers" --schedule dynamic,5 >"$work/out" 2>&1
            cmp -s "$work/out" "$work/wanted" || echo "$name: $clause, $workers workers: $(head -c 200 "$work/out")"
        done
    done
}

compare edit 'D:90601' 'uint64_t D[301][301];
void kernel(void)
{
    uint64_t best;
    #pragma omp parallel for
    for (uint64_t i = 0; i < 301; i++) { D[i][0] = i; D[0][i] = i; }
    #pragma omp parallel for ordered(2) private(best) SCHEDULE
    for (uint64_t i = 1; i < 301; i++) for (uint64_t j = 1; j < 301; j++) {
        #pragma omp ordered doacross(sink: i-1, j-1)
        #pragma omp ordered doacross(sink: i-1, j)
        #pragma omp ordered doacross(sink: i, j-1)
        best = D[i-1][j-1] + (i * 7 % 4 != j * 5 % 4 ? 1 : 0);
        if (D[i-1][j] + 1 < best) best = D[i-1][j] + 1;
        if (D[i][j-1] + 1 < best) best = D[i][j-1] + 1;
        D[i][j] = best;
        #pragma omp ordered doacross(source:)
    }
}'
compare pascal 'P:4096' 'uint64_t P[64][64];
void kernel(void)
{
    for (uint64_t i = 0; i < 64; i++) { P[i][0] = 1; P[0][i] = 1; }
    #pragma omp parallel
    {
        #pragma omp for ordered(2) SCHEDULE
        for (uint64_t i = 1; i < 64; i++) for (uint64_t j = 1; j < 64; j++) {
            #pragma omp ordered doacross(sink: i-1, j)
            #pragma omp ordered doacross(sink: i, j-1)
            P[i][j] = P[i-1][j] + P[i][j-1];
            #pragma omp ordered doacross(source:)
        }
    }
}'
# iterations with a loop in them, which are run in waves where those above are run by one thread
compare sums 'P:4096' 'uint64_t P[64][64];
void kernel(void)
{
    for (uint64_t i = 0; i < 64; i++) { P[i][0] = 1; P[0][i] = 1; }
    #pragma omp parallel
    {
        #pragma omp for ordered(2) SCHEDULE
        for (uint64_t i = 1; i < 64; i++) for (uint64_t j = 1; j < 64; j++) {
            #pragma omp ordered doacross(sink: i-1, j)
            #pragma omp ordered doacross(sink: i, j-1)
            for (uint64_t k = 0; k < j; k++) P[i][j] += (P[i-1][j] ^ k) * 3 + (P[i][j-1] >> 1);
            #pragma omp ordered doacross(source:)
        }
    }
}'
compare rounds 'G:2704' 'uint64_t G[52][52];
void kernel(void)
{
    uint64_t x;
    #pragma omp parallel for collapse(2)
    for (uint64_t i = 0; i < 52; i++) for (uint64_t j = 0; j < 52; j++) { G[i][j] = i * 31 + j * 17 & 255; }
    for (uint64_t t = 0; t < 4; t++) {
        #pragma omp parallel for ordered(2) private(x) SCHEDULE
        for (uint64_t i = 1; i < 51; i++) for (uint64_t j = 1; j < 51; j++) {
            #pragma omp ordered doacross(sink: i-1, j)
            #pragma omp ordered doacross(sink: i, j-1)
            x = G[i-1][j] + G[i][j-1] + G[i+1][j] + G[i][j+1];
            for (uint64_t k = t; k < 8 + t; k++) { x ^= x << 13; x ^= x >> 7; x += k; }
            G[i][j] = x / 4;
            #pragma omp ordered doacross(source:)
        }
    }
}'
compare sweep 'G:10404' 'uint64_t G[102][102];
void kernel(void)
{
    #pragma omp parallel for collapse(2)
    for (uint64_t i = 0; i < 102; i++) for (uint64_t j = 0; j < 102; j++) { G[i][j] = i * 31 + j * 17 & 255; }
    for (uint64_t t = 0; t < 4; t++) {
        #pragma omp parallel for ordered(2) SCHEDULE
        for (uint64_t i = 1; i < 101; i++) for (uint64_t j = 1; j < 101; j++) {
            #pragma omp ordered doacross(sink: i-1, j)
            #pragma omp ordered doacross(sink: i, j-1)
            G[i][j] = (G[i-1][j] + G[i][j-1] + G[i+1][j] + G[i][j+1]) / 4;
            #pragma omp ordered doacross(source:)
        }
    }
}'
compare subsequence 'L:40401 length:1' 'uint64_t L[201][201];
uint64_t length[1];
void kernel(void)
{
    #pragma omp parallel for ordered(2) SCHEDULE
    for (uint64_t i = 1; i < 201; i++) for (uint64_t j = 1; j < 201; j++) {
        #pragma omp ordered doacross(sink: i-1, j-1)
        #pragma omp ordered doacross(sink: i-1, j)
        #pragma omp ordered doacross(sink: i, j-1)
        if (i * i % 11 == j * 3 % 11) L[i][j] = L[i-1][j-1] + 1;
        else if (L[i-1][j] < L[i][j-1]) L[i][j] = L[i][j-1];
        else L[i][j] = L[i-1][j];
        #pragma omp ordered doacross(source:)
    }
    length[0] = L[200][200];
}'
compare cube 'C:4096' 'uint64_t C[16][16][16];
void kernel(void)
{
    #pragma omp parallel for ordered(3) SCHEDULE
    for (uint64_t i = 1; i < 16; i++) for (uint64_t j = 1; j < 15; j++) for (uint64_t k = 1; k < 16; k++) {
        #pragma omp ordered doacross(sink: i-1, j+1, k)
        #pragma omp ordered doacross(sink: i, j, k-1)
        C[i][j][k] = C[i-1][j+1][k] * 3 + C[i][j][k-1] + i + j + k;
        #pragma omp ordered doacross(source:)
    }
}'
