#!/usr/bin/env bash
# Runs the program, and compares what it writes and its exit status. Silent where all holds.
set -u
cd "$(dirname "$0")/.." || exit 1
work=$(mktemp -d) || exit 1
trap 'rm -rf "$work"' EXIT
./ompk --help >/dev/null || { echo 'the program is not built'; exit 1; }
program=$PWD/crates/ompk_cli/out/ompk_cli
faults=0

# What the last run did, beside the exit status, output and errors that it must have.
judge() {
    local name=$1 status=$2 output=$3 errors=$4
    if [ "$last" -ne "$status" ] || [ "$(cat "$work/out"; echo .)" != "$output." ] || [ "$(cat "$work/err"; echo .)" != "$errors." ]; then
        printf '%s: status %s for %s, output:\n%s\nerrors:\n%s\n' "$name" "$last" "$status" "$(cat "$work/out")" "$(cat "$work/err")"
        faults=1
    fi
}

# expect STATUS OUTPUT ERRORS WORD..
expect() {
    local status=$1 output=$2 errors=$3
    shift 3
    "$program" "$@" >"$work/out" 2>"$work/err"
    last=$?
    judge "ompk $*" "$status" "$output" "$errors"
}

# refuse LINE TEXT: a text that is refused.
refuse() {
    printf '%s' "$2" >"$work/text.c"
    expect 3 '' "$1"$'\n' check "$work/text.c"
}

# fault CAUSE INPUT: an input of the example that is refused.
fault() {
    printf '%s' "$2" >"$work/input"
    expect 1 '' "K22 $1"$'\n' run examples/increment.c --input "$work/input"
}

# misuse WORD..: what is no use of the program.
misuse() {
    "$program" "$@" >"$work/out" 2>"$work/err"
    last=$?
    if [ "$last" -ne 2 ] || [ -s "$work/out" ] || [ ! -s "$work/err" ]; then
        printf 'ompk %s: status %s, no fault of use\n' "$*" "$last"
        faults=1
    fi
}

all=$(cat examples/increment.out)$'\n'
expect 0 $'accepted\n' '' check examples/increment.c
for workers in 1 2 3 9 10 64; do
    expect 0 "$all" '' run examples/increment.c --input examples/increment.in --workers "$workers"
done
expect 0 "$all" '' seq examples/increment.c --input examples/increment.in
expect 0 "$all" '' run examples/increment.c --input examples/increment.in
expect 0 $'A = 0 1 2 3 4 5 6 7\n' '' run examples/increment.c
for workers in 1 2 3 4 64; do
    expect 0 $'A = 3 1 4 1 5 9 2 6 5 3\nbefore = 0 3 4 8 9 14 23 25 31 36\nmost = 3 3 4 4 5 9 9 9 9 9\nsum = 39\ngreatest = 9\n' '' run examples/prefix.c --input examples/prefix.in --workers "$workers"
    expect 0 $'one = 107 105 116 116 101 110\nother = 115 105 116 116 105 110 103\nD = 0 1 2 3 4 5 6 7 1 1 2 3 4 5 6 7 2 2 1 2 3 4 5 6 3 3 2 1 2 3 4 5 4 4 3 2 1 2 3 4 5 5 4 3 2 2 3 4 6 6 5 4 3 3 2 3\ndistance = 3\n' '' run examples/distance.c --input examples/distance.in --workers "$workers"
done
expect 0 $'1.0 __kmpc_fork_call\n1.1 __kmpc_dispatch_init_8u dynamic,3\n1.1 __kmpc_dispatch_next_8u\n1.1 __kmpc_barrier\n' '' lower examples/increment.c
expect 3 '' $'K19 9:9 conflict: A at 9:9 and 9:16, iterations 0 and 1, element A[1]\n' lower examples/shift.c
printf 'uint64_t x;\nuint64_t B[2][2];\nvoid kernel(void)\n{\n}\n' >"$work/empty.c"
printf 'B 1 2 3 18446744073709551615\n' >"$work/input"
expect 0 $'x = 0\nB = 1 2 3 18446744073709551615\n' '' run "$work/empty.c" --input "$work/input"

# loops of many turns, run in place and in chunks, under schedules of each kind
cat >"$work/long.c" <<'END'
uint64_t n;
uint64_t A[300000];
uint64_t B[300002];
uint64_t C[300000][2];
uint64_t D[900001];
uint64_t E[300000];
uint64_t F[300000];
uint64_t last;
void kernel(void)
{
    #pragma omp parallel for
    for (uint64_t i = 0; i < 300002; i++) { B[i] = i * i; }
    #pragma omp parallel for
    for (uint64_t i = 3; i < 300000; i += 2) { F[i - 3] = (3 * i ^ i + 5) - (i - 9) * 7; F[i - 2] = i * 18446744073709551615ull; }
    #pragma omp parallel for schedule(static)
    for (uint64_t i = 0; i < 300000; i++) { A[i] = B[i] + B[i + 1] * 3 + B[i + 2]; }
    #pragma omp parallel for lastprivate(last) schedule(static, 1000)
    for (uint64_t i = 1; i < 299999; i++) { C[i][1] = A[i]; last = A[i] + i; C[i][0] = last + n; }
    #pragma omp parallel for schedule(dynamic, 1)
    for (uint64_t i = 0; i < 300000; i += 1) { D[3 * i + 1] += C[i][1] - i; }
    #pragma omp parallel for
    for (uint64_t i = 0; i < 300000; i++) { E[i] = A[299999 - i]; }
    #pragma omp parallel for schedule(guided)
    for (uint64_t i = 0; i < 300000; i++) { if (E[i] % 3 == 1) { E[i] = E[i] / 3; } }
}
END
python3 - >"$work/long.out" <<'END'
n = 300000
word = 1 << 64
B = [i * i for i in range(n + 2)]
A = [B[i] + B[i + 1] * 3 + B[i + 2] for i in range(n)]
C = [0] * (2 * n)
D = [0] * (3 * n + 1)
for i in range(1, n - 1):
    C[2 * i], C[2 * i + 1] = A[i] + i, A[i]
for i in range(n):
    D[3 * i + 1] = (C[2 * i + 1] - i) % word
E = [A[n - 1 - i] // 3 if A[n - 1 - i] % 3 == 1 else A[n - 1 - i] for i in range(n)]
F = [0] * n
for i in range(3, n, 2):
    F[i - 3], F[i - 2] = ((3 * i ^ i + 5) - (i - 9) * 7) % word, -i % word
print("n = 0")
for name, values in (("A", A), ("B", B), ("C", C), ("D", D), ("E", E), ("F", F)):
    print(name, "=", *values)
print("last =", A[n - 2] + n - 2)
END
for workers in 1 2 3 64; do
    "$program" run "$work/long.c" --workers "$workers" >"$work/out" 2>"$work/err"
    last=$?
    if [ "$last" -ne 0 ] || [ -s "$work/err" ] || ! cmp -s "$work/out" "$work/long.out"; then
        printf 'long loops by %s workers: status %s\n' "$workers" "$last"
        faults=1
    fi
done

# loops over rows, of which each turn has one or a part of one to itself, and some that have not
cat >"$work/rows.c" <<'END'
uint64_t scale;
uint64_t A[500][600];
uint64_t B[500][600];
uint64_t S[600];
uint64_t T[500][600][2];
void kernel(void)
{
    #pragma omp parallel for
    for (uint64_t i = 0; i < 500; i++) { for (uint64_t j = 0; j < 600; j++) { A[i][j] = i * 31 + j * j + scale; } }
    for (uint64_t t = 0; t < 2; t++) {
        #pragma omp parallel for schedule(static)
        for (uint64_t i = 1; i < 499; i++) {
            for (uint64_t j = 1; j < 599; j++) { B[i][j] = A[i][j] + A[i - 1][j] * 3 + A[i + 1][j] + A[i][j - 1] + A[i][j + 1]; }
        }
        #pragma omp parallel for schedule(static)
        for (uint64_t i = 1; i < 499; i++) { for (uint64_t j = 1; j < 599; j++) { A[i][j] = B[i][j] + t; } }
    }
    #pragma omp parallel for schedule(dynamic, 7)
    for (uint64_t i = 0; i < 500; i++) { for (uint64_t j = 1; j < 600; j++) { B[i][j] += B[i][j - 1] + i; } }
    #pragma omp parallel for
    for (uint64_t i = 0; i < 500; i++) { for (uint64_t j = 0; j < 600; j++) { uint64_t x = A[i][j]; T[i][j][1] = x; T[i][j][0] = x ^ j; } }
    #pragma omp parallel for
    for (uint64_t j = 0; j < 600; j++) { for (uint64_t i = 0; i < 500; i++) { S[j] += A[i][j]; } }
    #pragma omp parallel for
    for (uint64_t i = 0; i < 499; i += 2) { for (uint64_t j = 0; j < 599; j += 3) { A[i][j] = A[i + 1][j] + j; } }
}
END
python3 - >"$work/rows.out" <<'END'
word = (1 << 64) - 1
rows, width = 500, 600
A = [[(i * 31 + j * j) & word for j in range(width)] for i in range(rows)]
B = [[0] * width for _ in range(rows)]
for t in range(2):
    for i in range(1, rows - 1):
        for j in range(1, width - 1):
            B[i][j] = (A[i][j] + A[i - 1][j] * 3 + A[i + 1][j] + A[i][j - 1] + A[i][j + 1]) & word
    for i in range(1, rows - 1):
        for j in range(1, width - 1):
            A[i][j] = (B[i][j] + t) & word
for i in range(rows):
    for j in range(1, width):
        B[i][j] = (B[i][j] + B[i][j - 1] + i) & word
T = [n for i in range(rows) for j in range(width) for n in (A[i][j] ^ j, A[i][j])]
S = [sum(A[i][j] for i in range(rows)) & word for j in range(width)]
for i in range(0, rows - 1, 2):
    for j in range(0, width - 1, 3):
        A[i][j] = (A[i + 1][j] + j) & word
print("scale = 0")
for name, values in (("A", sum(A, [])), ("B", sum(B, [])), ("S", S), ("T", T)):
    print(name, "=", *values)
END
for workers in 1 2 3 64; do
    "$program" run "$work/rows.c" --workers "$workers" >"$work/out" 2>"$work/err"
    last=$?
    if [ "$last" -ne 0 ] || [ -s "$work/err" ] || ! cmp -s "$work/out" "$work/rows.out"; then
        printf 'loops over rows by %s workers: status %s\n' "$workers" "$last"
        faults=1
    fi
done

# loops with a long inner loop that waits for itself, run for many turns at once, and one that writes two arrays
cat >"$work/abreast.c" <<'END'
uint64_t A[3000];
uint64_t C[300];
uint64_t B[2000];
uint64_t P[2000];
uint64_t Q[2000];
uint64_t M[300][2000];
uint64_t S[2000];
void kernel(void)
{
    for (uint64_t i = 0; i < 3000; i++) { A[i] = i * i + 3 * i; }
    for (uint64_t k = 0; k < 300; k++) { C[k] = 3 * k + 1; }
    for (uint64_t i = 0; i < 300; i++) { for (uint64_t j = 0; j < 2000; j++) { M[i][j] = i * j + 7; } }
    #pragma omp parallel for
    for (uint64_t i = 0; i < 2000; i++) { uint64_t s = i; for (uint64_t k = 0; k < 300; k++) { s += A[i + k] * C[k]; } B[i] = s; }
    #pragma omp parallel for schedule(dynamic)
    for (uint64_t i = 0; i < 2000; i++) { uint64_t y = 0; for (uint64_t k = 0; k < 300; k++) { y = y * A[i] + C[299 - k]; } P[i] = y; }
    #pragma omp parallel for
    for (uint64_t i = 1; i < 2000; i++) { uint64_t s = 0; for (uint64_t k = 0; k < 900; k += 3) { s = s * 5 ^ A[i + k - 1]; s = s * 3 + k; } Q[i] = s + B[i]; }
    #pragma omp parallel for
    for (uint64_t j = 0; j < 2000; j++) { uint64_t s = j; for (uint64_t i = 0; i < 300; i++) { s += M[i][j] ^ i; } S[j] = s; }
    #pragma omp parallel for schedule(static)
    for (uint64_t i = 0; i < 2000; i++) { P[i] += 2; uint64_t h = P[i]; for (uint64_t k = 0; k < 400; k++) { h = h * 31 + k; P[i] ^= h; } P[i] += h; }
    #pragma omp parallel for
    for (uint64_t i = 0; i < 2000; i++) { uint64_t h = A[i]; for (uint64_t k = 0; k < 300; k++) { h = h * 31 + k; } P[i] += h; Q[i] ^= h; }
}
END
python3 - >"$work/abreast.out" <<'END'
word = (1 << 64) - 1
A = [i * i + 3 * i for i in range(3000)]
C = [3 * k + 1 for k in range(300)]
M = [[i * j + 7 for j in range(2000)] for i in range(300)]
B = [i + sum(A[i + k] * C[k] for k in range(300)) & word for i in range(2000)]
P, Q = [], [0] * 2000
for i in range(2000):
    y = 0
    for k in range(300):
        y = y * A[i] + C[299 - k] & word
    P.append(y)
for i in range(1, 2000):
    s = 0
    for k in range(0, 900, 3):
        s = (s * 5 & word ^ A[i + k - 1]) * 3 + k & word
    Q[i] = s + B[i] & word
S = [j + sum(M[i][j] ^ i for i in range(300)) & word for j in range(2000)]
for i in range(2000):
    h = P[i] = P[i] + 2 & word
    for k in range(400):
        h = h * 31 + k & word
        P[i] ^= h
    P[i] = P[i] + h & word
for i in range(2000):
    h = A[i]
    for k in range(300):
        h = h * 31 + k & word
    P[i], Q[i] = P[i] + h & word, Q[i] ^ h
for name, values in (("A", A), ("C", C), ("B", B), ("P", P), ("Q", Q), ("M", sum(M, [])), ("S", S)):
    print(name, "=", *values)
END
for workers in 1 2 3 64; do
    "$program" run "$work/abreast.c" --workers "$workers" >"$work/out" 2>"$work/err"
    last=$?
    if [ "$last" -ne 0 ] || [ -s "$work/err" ] || ! cmp -s "$work/out" "$work/abreast.out"; then
        printf 'loops with an inner loop that waits for itself by %s workers: status %s\n' "$workers" "$last"
        faults=1
    fi
done

# prefix sums, inclusive and exclusive, of a variable at file scope and of a local, by a directive and without one; a variable at file scope that each
# turn writes before it reads it
cat >"$work/sums.c" <<'END'
uint64_t first;
uint64_t A[330000];
uint64_t B[660000];
uint64_t C[330000];
uint64_t D[330000];
uint64_t E[330000];
uint64_t last;
void kernel(void)
{
    uint64_t x;
    for (uint64_t i = 0; i < 330000; i++) { A[i] = i * i + 3 * i; C[i] = i; E[i] = i % 7; }
    first = 5;
    #pragma omp parallel for reduction(inscan, +: first)
    for (uint64_t i = 0; i < 330000; i++) {
        first += A[i];
    #pragma omp scan inclusive(first)
        B[2 * i + 1] = first;
    }
    x = 18446744073709551615ull;
    #pragma omp parallel for reduction(inscan, +: x)
    for (uint64_t i = 1; i < 329999; i++) {
        C[i] = x;
    #pragma omp scan exclusive(x)
        x += i * 3 ^ 5;
    }
    last = x;
    for (uint64_t i = 0; i < 330000; i++) { last += C[i]; D[i] = last * 3; }
    #pragma omp parallel for reduction(inscan, *: last)
    for (uint64_t i = 0; i < 330000; i++) {
        last *= A[i] | 1;
    #pragma omp scan inclusive(last)
        C[i] = last + i;
    }
    #pragma omp parallel for reduction(inscan, +: first)
    for (uint64_t i = 0; i < 330000; i++) {
        E[i] = first;
    #pragma omp scan exclusive(first)
        first += D[i] / 3;
    }
    for (uint64_t i = 3; i < 329000; i++) { first = E[i] ^ i; A[i] = first * 5; }
}
END
python3 - >"$work/sums.out" <<'END'
word = (1 << 64) - 1
A, B = [i * i + 3 * i for i in range(330000)], [0] * 660000
C, D, E = list(range(330000)), [], []
first, x = 5, word
for i in range(330000):
    first = first + A[i] & word
    B[2 * i + 1] = first
for i in range(1, 329999):
    C[i] = x
    x = x + (i * 3 ^ 5) & word
last = x
for i in range(330000):
    last = last + C[i] & word
    D.append(last * 3 & word)
for i in range(330000):
    last = last * (A[i] | 1) & word
    C[i] = last + i & word
for i in range(330000):
    E.append(first)
    first = first + D[i] // 3 & word
for i in range(3, 329000):
    first = E[i] ^ i
    A[i] = first * 5 & word
for name, values in (("first", [first]), ("A", A), ("B", B), ("C", C), ("D", D), ("E", E), ("last", [last])):
    print(name, "=", *values)
END
for workers in 1 2 3 64; do
    "$program" run "$work/sums.c" --workers "$workers" >"$work/out" 2>"$work/err"
    last=$?
    if [ "$last" -ne 0 ] || [ -s "$work/err" ] || ! cmp -s "$work/out" "$work/sums.out"; then
        printf 'prefix sums by %s workers: status %s\n' "$workers" "$last"
        faults=1
    fi
done

# texts
loop() { printf 'uint64_t A[8];\nvoid kernel(void)\n{\n#pragma omp %s\nfor (uint64_t i = 0; i < %s; i++) { A[i] = i; }\n}\n' "$1" "$2"; }
refuse 'K01 3:2 syntax' $'void kernel(void)\n{\n}'
refuse 'K02 1:12 number out of range' $'uint64_t A[2147483648];\nvoid kernel(void)\n{\n}\n'
refuse 'K03 5:43 unknown name' $'uint64_t A[8];\nvoid kernel(void)\n{\n#pragma omp parallel for schedule(dynamic, 1)\nfor (uint64_t i = 0; i < 8; i++) { A[i] = B; }\n}\n'
refuse 'K04 2:10 name twice' $'uint64_t A;\nuint64_t A;\nvoid kernel(void)\n{\n}\n'
refuse 'K09 5:38 subscript out of range' "$(loop 'parallel for schedule(dynamic, 3)' 9)"$'\n'
refuse 'K11 4:1 directive' "$(loop 'parallel for schedule(dynamic, 0)' 8)"$'\n'
refuse 'K21 4:1 limit' "$(loop 'parallel for schedule(dynamic, 16777217)' 8)"$'\n'

refuse 'K19 4:36 conflict: A at 4:36 and 4:43, iterations 0 and 1, element A[1]' $'uint64_t A[8];\nvoid kernel(void) {\n#pragma omp parallel for\nfor (uint64_t i = 1; i < 8; i++) { A[i] = A[i-1]; }\n}\n'
# the inner of two serial loops has no first turn at the outer's, and then it has
serial() { printf 'uint64_t A[8];\nvoid kernel(void)\n{\nfor (uint64_t t = %s; t < 2; t++) { for (uint64_t s = 0; s < t; s++) {\n#pragma omp parallel for\nfor (uint64_t i = 1; i < 8; i++) { A[i] = A[i-1]; } } }\n}\n' "$1"; }
refuse 'K20 6:36 not shown: A at 6:36 and 6:43' "$(serial 0)"$'\n'
refuse 'K19 6:36 conflict: A at 6:36 and 6:43, iterations 0 and 1, element A[1]' "$(serial 1)"$'\n'

# pair LINE ELEMENTS COUNT STATEMENT: a parallel loop of so many iterations that is refused, over an array of so many elements.
pair() { refuse "$1" "$(printf 'uint64_t A[%s];\nvoid kernel(void)\n{\n#pragma omp parallel for\nfor (uint64_t i = 0; i < %s; i++) { %s }\n}' "$2" "$3" "$4")"$'\n'; }
pair 'K19 5:37 conflict: A at 5:37 and 5:44, iterations 7 and 8, element A[7]' 16 16 'A[i] = A[15-i];'
pair 'K20 5:36 not shown: A at 5:36 and 5:43' 16 8 'A[i] = A[15-i];'
pair 'K20 5:38 not shown: A at 5:38 and 5:45' 300 200 'A[i] = A[i+100];'
pair 'K09 5:47 subscript out of range' 300 200 'A[i] = A[i+200];'

refuse 'K01 1:20 syntax' 'void kernel(void) {'
refuse 'K01 1:4 syntax' $'/* ?? */\nvoid kernel(void)\n{\n}\n'
refuse 'K21 2:10 limit' $'uint64_t A[4096][4096];\nuint64_t s;\nvoid kernel(void)\n{\n}\n'

# body LINE TEXT: a body that is refused, over a scalar and an array.
body() { refuse "$1" "$(printf 'uint64_t s;\nuint64_t d[3];\nvoid kernel(void)\n{\n%s\n}' "$2")"$'\n'; }
body 'K01 5:5 syntax' 's = ;'
body 'K02 5:5 number out of range' 's = 2147483648;'
body 'K02 5:16 number out of range' 's = 2147483647 + 1;'
body 'K02 5:9 number out of range' 's = s / 0ull;'
body 'K04 5:22 name twice' 'uint64_t x; uint64_t x;'
body 'K05 5:7 operands' 's = 1 << 3;'
body 'K05 5:7 operands' 's = 1 < 2;'
body 'K05 5:16 operands' 's = (0ull < 2) + 1ull;'
body 'K05 5:5 operands' 's = ~0;'
body 'K05 5:1 operands' 'd[1][2] = 3;'
body 'K05 5:26 operands' 'if (d[0]) { d[1] = s < 2 < 3; }'
body 'K05 5:1 operands' 'printf("%" PRIu64 "\n", s + 7ull);'
body 'K06 5:1 loop not canonical' 'for (uint64_t i = 9; i > 0; i -= 0) { d[0] = i; }'
body 'K06 5:1 loop not canonical' 'for (uint64_t i = 0; i < 3; i++) { i = s; }'
body 'K07 5:1 loop may wrap' 'for (uint64_t i = 9; i >= 0; i--) { d[0] = i; }'
body 'K07 5:43 loop may wrap' 'for (uint64_t i = 0; i < 3; i++) { s = i; for (uint64_t j = 0; j < i - 1; j++) { s = j; } }'
body 'K08 5:26 not affine' 'for (uint64_t i = 0; i < s; i++) { d[0] = i; }'
body 'K21 5:26 limit' 'for (uint64_t i = 0; i < 4294967297ull; i++) { d[0] = i; }'
body 'K08 5:3 not affine' 'd[s] = 1;'
body 'K09 5:7 subscript out of range' 's = d[3];'
body 'K09 5:38 subscript out of range' 'for (uint64_t i = 0; i < 4; i++) { d[i] = i; }'
body 'K10 5:35 may be unassigned' 'uint64_t x; if (s > 3) x = 1; s = x;'
body 'K11 6:1 directive' $'\n#pragma omp simd\nfor (uint64_t i = 0; i < 3; i++) { d[i] = i; }'
body 'K11 8:1 directive' $'\n#pragma omp parallel for\nfor (uint64_t i = 0; i < 3; i++) {\n#pragma omp parallel for\nfor (uint64_t j = 0; j < 3; j++) { d[j] = i; } }'
body 'K12 7:1 nest not perfect' $'\n#pragma omp parallel for collapse(2)\nfor (uint64_t i = 0; i < 3; i++) { d[i] = i; }'
body 'K21 7:1 limit' $'\n#pragma omp parallel for\nfor (uint64_t i = 0; i < 16777217; i++) { d[0] = 1; }'
body 'K21 7:1 limit' $'\n#pragma omp parallel for ordered(1)\nfor (uint64_t i = 0; i < 1048577; i++) {\n#pragma omp ordered doacross(sink: i-1)\nd[0] = 1;\n#pragma omp ordered doacross(source:)\n}'
body 'K14 7:36 shared scalar written' $'\n#pragma omp parallel for\nfor (uint64_t i = 0; i < 3; i++) { s = i; }'
body 'K18 8:1 ordered' $'\n#pragma omp parallel for ordered(1)\nfor (uint64_t i = 0; i < 3; i++) {\n#pragma omp ordered doacross(sink: i+1)\nd[i] = 1;\n#pragma omp ordered doacross(source:)\n}'
body 'K18 8:36 ordered' $'\n#pragma omp parallel for ordered(1)\nfor (uint64_t i = 0; i < 3; i++) {\n#pragma omp ordered doacross(sink: j-1)\nd[i] = 1;\n#pragma omp ordered doacross(source:)\n}'
body 'K11 6:1 directive' $'\n#pragma omp parallel for schedule(auto, 2)\nfor (uint64_t i = 0; i < 3; i++) { d[i] = i; }'
body 'K11 6:1 directive' $'\n#pragma omp parallel for schedule(dynamic, 2)\ns = 1;'
body 'K11 6:1 directive' $'\n#pragma omp parallel for schedule(dynamic, 2)\n'
body 'K09 5:3 subscript out of range' 'd[3] = 1; s = 1;'
body 'K10 5:24 may be unassigned' 'd[3] = 1; uint64_t x = x;'

# take OUTPUT TEXT: a body that is run, over the same variables, by the team and by one thread.
take() {
    printf 'uint64_t s;\nuint64_t d[3];\nvoid kernel(void)\n{\n%s\n}\n' "$2" >"$work/text.c"
    expect 0 "$1"$'\n' '' run "$work/text.c"
    expect 0 "$1"$'\n' '' seq "$work/text.c"
}
take $'s = 3\nd = 0 0 0' 's = 1 + 2;'
take $'s = 2\nd = 0 0 0' 'uint64_t x; if (s > 3) x = 1; else x = 2; s = x;'
take $'7, 100%\ns = 0\nd = 0 0 0' 'printf("%" PRIu64 ", 100%%\n", s + 7);'
take $'s = 1\nd = 0 1 2' 'for (uint64_t i = 0; i < 3; i++) { d[i] = i; } s = d[1];'
take $'s = 0\nd = 1 0 0' 'for (uint64_t i = 9; i > 0; i--) { d[0] = i; }'
take $'s = 0\nd = 1 3 6' 'for (uint64_t i = 0; i < 3; i++) { for (uint64_t j = i; j < 3; j++) { d[j] += i + 1; } }'
deep() { printf 's = %s s %s;' "$(printf '(%.0s' $(seq "$1"))" "$(printf ')%.0s' $(seq "$1"))"; }
take $'s = 0\nd = 0 0 0' "$(deep 63)"
body 'K21 5:68 limit' "$(deep 64)"
take $'s = 0\nd = 0 0 0' "$(printf 's = s;\n%.0s' $(seq 4096))"
body 'K21 4101:1 limit' "$(printf 's = s;\n%.0s' $(seq 4097))"
body 'K01 6:1 syntax' $'\n#pragma once'
body 'K01 6:1 syntax' $'\n#pragma ompparallel for'
body 'K01 5:10 syntax' 'uint64_t _x;'
refuse 'K01 1:1 syntax' ''

# rows
printf 'uint64_t A[5];\nvoid kernel(void)\n{\n#pragma omp parallel for schedule(dynamic, 2)\nfor (uint64_t i = 0; i < 5; i++) { A[i] = i - 1ull; }\n}\n' >"$work/minus.c"
for workers in 1 3 64; do
    expect 0 $'A = 18446744073709551615 0 1 2 3\n' '' run "$work/minus.c" --workers "$workers"
done
# every schedule, and each word for `runtime`
plain='A = 0 1 2 3 4 5 6 7'
for clause in '' 'schedule(static)' 'schedule(static, 3)' 'schedule(dynamic)' 'schedule(guided)' 'schedule(guided, 2)' 'schedule(auto)' 'schedule(runtime)'; do
    loop "parallel for $clause" 8 >"$work/cut.c"
    expect 0 "$plain"$'\n' '' seq "$work/cut.c"
    for workers in 1 3 64; do
        expect 0 "$plain"$'\n' '' run "$work/cut.c" --workers "$workers"
    done
done
for word in static static,3 dynamic dynamic,1 guided guided,16777216 auto; do
    expect 0 "$plain"$'\n' '' run "$work/cut.c" --schedule "$word"
done
for word in '' Static static, static,0 static,03 static,16777217 dynamic,x guided,1,2 auto,4 runtime; do
    misuse run "$work/cut.c" --schedule "$word"
done
loop 'parallel for schedule(dynamic, 3)' 0 >"$work/none.c"
expect 0 $'A = 0 0 0 0 0 0 0 0\n' '' run "$work/none.c"
printf 'void kernel(void) { }\n' >"$work/nothing.c"
expect 0 '' '' run "$work/nothing.c"
printf 'uint64_t A[4096][4096];\nvoid kernel(void)\n{\n}\n' >"$work/most.c"
expect 0 $'accepted\n' '' check "$work/most.c"
{
    printf 'uint64_t s;\nvoid kernel(void)\n{\ns = '
    printf 's+%.0s' $(seq 520000)
    printf 's;\n}\n'
} >"$work/long.c"
expect 0 $'s = 0\n' '' seq "$work/long.c"
expect 0 $'s = 0\n' '' run "$work/long.c"
{
    printf 'void kernel(void) { }\n'
    head -c 1048555 /dev/zero | tr '\0' ' '
} >"$work/large.c"
refuse 'K21 2:1048555 limit' "$(cat "$work/large.c")"

# inputs
fault 'line 1: form' $'A 1 1 1 1 1 1 1  1\n'
fault 'line 1: form' $'A 1 1 1 1 1 1 1 1'
fault 'line 1: name' $'B 1\n'
fault 'line 2: twice' $'A 1 1 1 1 1 1 1 1\nA 1 1 1 1 1 1 1 1\n'
fault 'line 1: count' $'A 1 1 1\n'
fault 'line 1: number' $'A 1 1 1 1 1 1 1 18446744073709551616\n'

# files: the kernel's comes first
expect 1 '' $'cannot read nothing.c\n' check nothing.c
expect 1 '' $'cannot read nothing.in\n' run examples/increment.c --input nothing.in
printf 'void kernel(void)\n{\n}' >"$work/text.c"
expect 3 '' $'K01 3:2 syntax\n' run "$work/text.c" --input nothing.in

# an output that is not taken
for words in 'check examples/increment.c' 'lower examples/increment.c' 'run examples/increment.c' 'seq examples/increment.c'; do
    # shellcheck disable=SC2086
    "$program" $words >&- 2>"$work/err"
    last=$?
    : >"$work/out"
    judge "ompk $words >&-" 1 '' $'K24 output failed\n'
    # shellcheck disable=SC2086
    "$program" $words >/dev/full 2>"$work/err"
    last=$?
    judge "ompk $words >/dev/full" 1 '' $'K24 output failed\n'
done

# memory that is refused
gcc -O1 -shared -fPIC -o "$work/refuse.so" tests/fail_nth_allocation.c -ldl || { echo 'no library that refuses memory'; exit 1; }
FAIL_REQUEST=1 LD_PRELOAD=$work/refuse.so "$program" check examples/increment.c >"$work/out" 2>"$work/err"
last=$?
judge 'ompk check without memory' 4 '' $'K23 out of memory\n'

# use
misuse
misuse run
misuse check
misuse check a b
misuse check --workers 2 examples/increment.c
misuse seq
misuse seq --workers 2 examples/increment.c
misuse lower
misuse lower --workers 2 examples/increment.c
misuse run examples/increment.c --workers
for workers in 0 65 04 +4 4x '' ' 4' -1 18446744073709551617; do
    misuse run examples/increment.c --workers "$workers"
done
for words in --help 'run --help' 'check -h' 'lower -h' 'seq -h'; do
    # shellcheck disable=SC2086
    "$program" $words >"$work/out" 2>"$work/err"
    if [ $? -ne 0 ] || [ ! -s "$work/out" ] || [ -s "$work/err" ]; then
        printf 'ompk %s: no help\n' "$words"
        faults=1
    fi
done
exit "$faults"
