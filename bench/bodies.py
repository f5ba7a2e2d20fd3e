#!/usr/bin/env python3
"""Times the bodies of serial loops: `ompk run --workers 1` and `ompk seq` beside gcc -O2 and -O0, Lua 5.4 where there is one, and Python.

    python3 bench/bodies.py [PROGRAM [KERNEL..]]     the program as it is proved here, or another one

Each program has a kernel many times and a few times; the difference of the two runs is its time, so that starting, reading and
writing count for neither. Times are those of the processor, of one core; all programs of a kernel run in turn, round by round. A line for
each kernel: the median of nanoseconds an innermost statement, and of the ratios to gcc -O2 in the same round; the geometric
mean of the ratios at the end. Python and `seq` run in one round. Every program has to leave the same digest of all variables. The status is 1 where a target is
missed: `run` faster than Lua on each kernel; of the ten everyday ones no ratio above 4, each below that of gcc -O0, and the mean of them at most 2.
"""
import math
import os
import pathlib
import shutil
import statistics
import subprocess
import sys
import tempfile

TOP = pathlib.Path(__file__).resolve().parent.parent
PROGRAM = TOP / "crates/ompk_cli/out/ompk_cli"
ROUNDS = 7
LONGER = 8
MASK = (1 << 64) - 1
WORST = 4
MEAN = 2
WAYS = [way for way in ("gcc -O2", "run", "gcc -O0", "lua", "seq", "python") if way != "lua" or shutil.which("lua5.4")]
EVERYDAY = ("map", "triad", "product ikj", "xorshift", "collatz", "prefix", "stencil / 5", "triangle", "three folds", "distance")

C_MAIN = """
#include <stdio.h>
static uint64_t digest_of(const uint64_t *p, uint64_t n, uint64_t d)
{
    for (uint64_t i = 0; i < n; i++) { d = d * 31 + p[i]; }
    return d;
}
int main(void)
{
    uint64_t d = 0;
    kernel();
    CALLS
    printf("%llu\\n", (unsigned long long)d);
    return 0;
}
"""
LUA_END = """
local d = 0
local function add(v) if type(v) == "table" then for i = 0, #v do add(v[i]) end else d = d * 31 + v end end
"""
PYTHON_END = """
def add(d, v):
    if isinstance(v, list):
        for it in v:
            d = add(d, it)
        return d
    return (d * 31 + v) & M
d = 0
"""


class Kernel:
    """A kernel in three languages. `many` and `few` are its rounds, `statements` the innermost statements of one."""

    def __init__(self, name, variables, statements, many, few, slow, c, lua, python):
        self.name, self.variables, self.statements = name, variables, statements
        self.many, self.few, self.slow = many, few, slow
        self.c, self.lua, self.python = c, lua, python


MAP = Kernel(
    "map", ["A"], 65536, 96, 32, (3, 1),
    """uint64_t A[65536];
void kernel(void)
{
    for (uint64_t t = 0; t < ROUNDS; t++) {
        for (uint64_t i = 0; i < 65536; i++) { A[i] = A[i] * 3 + i; }
    }
}
""",
    """local A = {} for i = 0, 65535 do A[i] = 0 end
for t = 1, ROUNDS do
    for i = 0, 65535 do A[i] = A[i] * 3 + i end
end
""",
    """A = [0] * 65536
for t in range(ROUNDS):
    for i in range(65536):
        A[i] = (A[i] * 3 + i) & M
""",
)
PRODUCT_C = """uint64_t A[192][192];
uint64_t B[192][192];
uint64_t C[192][192];
void kernel(void)
{
    for (uint64_t i = 0; i < 192; i++) {
        for (uint64_t j = 0; j < 192; j++) { A[i][j] = i + j; B[i][j] = 3 * i + j; }
    }
    for (uint64_t t = 0; t < ROUNDS; t++) {
        LOOPS { C[i][j] += A[i][k] * B[k][j]; }
    }
}
"""
PRODUCT_LUA = """local A, B, C = {}, {}, {}
for i = 0, 191 do
    A[i], B[i], C[i] = {}, {}, {}
    for j = 0, 191 do A[i][j] = i + j; B[i][j] = 3 * i + j; C[i][j] = 0 end
end
for t = 1, ROUNDS do
    LOOPS C[i][j] = C[i][j] + A[i][k] * B[k][j] end end end
end
"""
PRODUCT_PYTHON = """A = [[i + j for j in range(192)] for i in range(192)]
B = [[3 * i + j for j in range(192)] for i in range(192)]
C = [[0] * 192 for _ in range(192)]
for t in range(ROUNDS):
    LOOPS
                C[i][j] = (C[i][j] + A[i][k] * B[k][j]) & M
"""


def product(order):
    """The matrix product with its loops in this order."""
    c = " ".join(f"for (uint64_t {v} = 0; {v} < 192; {v}++)" for v in order)
    lua = " ".join(f"for {v} = 0, 191 do" for v in order)
    python = "\n".join(" " * (4 * depth + (4 if depth else 0)) + f"for {v} in range(192):" for depth, v in enumerate(order))
    return Kernel(
        f"product {order}", ["A", "B", "C"], 192**3, 2, 1, (1, 0),
        PRODUCT_C.replace("LOOPS", c), PRODUCT_LUA.replace("LOOPS", lua), PRODUCT_PYTHON.replace("LOOPS", python),
    )


XORSHIFT = Kernel(
    "xorshift", ["A"], 1024 * 64 * 3, 48, 16, (2, 1),
    """uint64_t A[1024];
void kernel(void)
{
    for (uint64_t t = 0; t < ROUNDS; t++) {
        for (uint64_t i = 0; i < 1024; i++) {
            uint64_t x = A[i] + i + 88172645463325252ull;
            for (uint64_t r = 0; r < 64; r++) { x ^= x << 13; x ^= x >> 7; x ^= x << 17; }
            A[i] = x;
        }
    }
}
""",
    """local A = {} for i = 0, 1023 do A[i] = 0 end
for t = 1, ROUNDS do
    for i = 0, 1023 do
        local x = A[i] + i + 88172645463325252
        for r = 1, 64 do x = x ~ (x << 13); x = x ~ (x >> 7); x = x ~ (x << 17) end
        A[i] = x
    end
end
""",
    """A = [0] * 1024
for t in range(ROUNDS):
    for i in range(1024):
        x = (A[i] + i + 88172645463325252) & M
        for r in range(64):
            x ^= (x << 13) & M
            x ^= x >> 7
            x ^= (x << 17) & M
        A[i] = x
""",
)
COLLATZ = Kernel(
    "collatz", ["A"], 65536, 48, 16, (3, 1),
    """uint64_t A[65536];
void kernel(void)
{
    for (uint64_t i = 0; i < 65536; i++) { A[i] = (i * 6364136223846793005ull + 1442695040888963407ull) >> 1; A[i] ^= A[i] >> 31; }
    for (uint64_t t = 0; t < ROUNDS; t++) {
        for (uint64_t i = 0; i < 65536; i++) {
            if ((A[i] & 1) == 1) { A[i] = 3 * A[i] + 1; } else { A[i] = A[i] >> 1; }
        }
    }
}
""",
    """local A = {}
for i = 0, 65535 do A[i] = (i * 6364136223846793005 + 1442695040888963407) >> 1; A[i] = A[i] ~ (A[i] >> 31) end
for t = 1, ROUNDS do
    for i = 0, 65535 do
        if A[i] & 1 == 1 then A[i] = 3 * A[i] + 1 else A[i] = A[i] >> 1 end
    end
end
""",
    """A = [((i * 6364136223846793005 + 1442695040888963407) & M) >> 1 for i in range(65536)]
A = [v ^ v >> 31 for v in A]
for t in range(ROUNDS):
    for i in range(65536):
        if A[i] & 1 == 1:
            A[i] = (3 * A[i] + 1) & M
        else:
            A[i] = A[i] >> 1
""",
)
PREFIX = Kernel(
    "prefix", ["A"], 511 * 511, 24, 8, (2, 1),
    """uint64_t A[512][512];
void kernel(void)
{
    for (uint64_t i = 0; i < 512; i++) { A[i][0] = i + 1; A[0][i] = 2 * i + 1; }
    for (uint64_t t = 0; t < ROUNDS; t++) {
        for (uint64_t i = 1; i < 512; i++) {
            for (uint64_t j = 1; j < 512; j++) { A[i][j] = A[i - 1][j] + A[i][j - 1]; }
        }
    }
}
""",
    """local A = {}
for i = 0, 511 do A[i] = {} for j = 0, 511 do A[i][j] = 0 end end
for i = 0, 511 do A[i][0] = i + 1; A[0][i] = 2 * i + 1 end
for t = 1, ROUNDS do
    for i = 1, 511 do
        for j = 1, 511 do A[i][j] = A[i - 1][j] + A[i][j - 1] end
    end
end
""",
    """A = [[0] * 512 for _ in range(512)]
for i in range(512):
    A[i][0] = i + 1
    A[0][i] = 2 * i + 1
for t in range(ROUNDS):
    for i in range(1, 512):
        for j in range(1, 512):
            A[i][j] = (A[i - 1][j] + A[i][j - 1]) & M
""",
)
STENCIL = Kernel(
    "stencil", ["A", "B"], 2 * 126 * 126, 150, 50, (6, 1),
    """uint64_t A[128][128];
uint64_t B[128][128];
void kernel(void)
{
    for (uint64_t i = 0; i < 128; i++) {
        for (uint64_t j = 0; j < 128; j++) { A[i][j] = i * 7 + j; }
    }
    for (uint64_t t = 0; t < ROUNDS; t++) {
        for (uint64_t i = 1; i < 127; i++) {
            for (uint64_t j = 1; j < 127; j++) { B[i][j] = A[i][j] + A[i - 1][j] + A[i + 1][j] + A[i][j - 1] + A[i][j + 1]; }
        }
        for (uint64_t i = 1; i < 127; i++) {
            for (uint64_t j = 1; j < 127; j++) { A[i][j] = B[i][j] + B[i - 1][j] + B[i + 1][j] + B[i][j - 1] + B[i][j + 1]; }
        }
    }
}
""",
    """local A, B = {}, {}
for i = 0, 127 do A[i], B[i] = {}, {} for j = 0, 127 do A[i][j] = i * 7 + j; B[i][j] = 0 end end
for t = 1, ROUNDS do
    for i = 1, 126 do
        for j = 1, 126 do B[i][j] = A[i][j] + A[i - 1][j] + A[i + 1][j] + A[i][j - 1] + A[i][j + 1] end
    end
    for i = 1, 126 do
        for j = 1, 126 do A[i][j] = B[i][j] + B[i - 1][j] + B[i + 1][j] + B[i][j - 1] + B[i][j + 1] end
    end
end
""",
    """A = [[i * 7 + j for j in range(128)] for i in range(128)]
B = [[0] * 128 for _ in range(128)]
for t in range(ROUNDS):
    for i in range(1, 127):
        for j in range(1, 127):
            B[i][j] = (A[i][j] + A[i - 1][j] + A[i + 1][j] + A[i][j - 1] + A[i][j + 1]) & M
    for i in range(1, 127):
        for j in range(1, 127):
            A[i][j] = (B[i][j] + B[i - 1][j] + B[i + 1][j] + B[i][j - 1] + B[i][j + 1]) & M
""",
)
FNV = Kernel(
    "fnv", ["A", "h"], 4096, 1500, 500, (60, 20),
    """uint64_t A[4096];
uint64_t h;
void kernel(void)
{
    uint64_t x = 14695981039346656037ull;
    for (uint64_t i = 0; i < 4096; i++) { A[i] = i * 2654435761ull % 256; }
    for (uint64_t t = 0; t < ROUNDS; t++) {
        for (uint64_t i = 0; i < 4096; i++) { x = (x ^ A[i]) * 1099511628211ull; }
    }
    h = x;
}
""",
    """local A = {} for i = 0, 4095 do A[i] = i * 2654435761 % 256 end
local x = 0xcbf29ce484222325
for t = 1, ROUNDS do
    for i = 0, 4095 do x = (x ~ A[i]) * 1099511628211 end
end
local h = x
""",
    """A = [i * 2654435761 % 256 for i in range(4096)]
x = 14695981039346656037
for t in range(ROUNDS):
    for i in range(4096):
        x = ((x ^ A[i]) * 1099511628211) & M
h = x
""",
)
SQUARES = Kernel(
    "squares", ["A", "s"], 4096, 1500, 500, (60, 20),
    """uint64_t A[4096];
uint64_t s;
void kernel(void)
{
    for (uint64_t i = 0; i < 4096; i++) { A[i] = i * 2654435761ull; }
    for (uint64_t t = 0; t < ROUNDS; t++) {
        for (uint64_t i = 0; i < 4096; i++) { s += A[i] * A[i]; }
    }
}
""",
    """local A = {} for i = 0, 4095 do A[i] = i * 2654435761 end
local s = 0
for t = 1, ROUNDS do
    for i = 0, 4095 do s = s + A[i] * A[i] end
end
""",
    """A = [i * 2654435761 for i in range(4096)]
s = 0
for t in range(ROUNDS):
    for i in range(4096):
        s = (s + A[i] * A[i]) & M
""",
)
TRIAD = Kernel(
    "triad", ["A", "B", "C"], 65536, 96, 32, (3, 1),
    """uint64_t A[65536];
uint64_t B[65536];
uint64_t C[65536];
void kernel(void)
{
    for (uint64_t i = 0; i < 65536; i++) { B[i] = i * 7 + 1; C[i] = i * 13 + 5; }
    for (uint64_t t = 0; t < ROUNDS; t++) {
        for (uint64_t i = 0; i < 65536; i++) { A[i] = B[i] + C[i] * (t + 3); }
    }
}
""",
    """local A, B, C = {}, {}, {}
for i = 0, 65535 do A[i] = 0; B[i] = i * 7 + 1; C[i] = i * 13 + 5 end
for t = 0, ROUNDS - 1 do
    for i = 0, 65535 do A[i] = B[i] + C[i] * (t + 3) end
end
""",
    """A = [0] * 65536
B = [i * 7 + 1 for i in range(65536)]
C = [i * 13 + 5 for i in range(65536)]
for t in range(ROUNDS):
    for i in range(65536):
        A[i] = (B[i] + C[i] * (t + 3)) & M
""",
)
QUOTIENT = Kernel(
    "stencil / 5", ["A", "B"], 2 * 510 * 510, 12, 4, (2, 1),
    """uint64_t A[512][512];
uint64_t B[512][512];
void kernel(void)
{
    for (uint64_t i = 0; i < 512; i++) {
        for (uint64_t j = 0; j < 512; j++) { A[i][j] = i * 7000 + j * 91; }
    }
    for (uint64_t t = 0; t < ROUNDS; t++) {
        for (uint64_t i = 1; i < 511; i++) {
            for (uint64_t j = 1; j < 511; j++) { B[i][j] = (A[i][j] + A[i - 1][j] + A[i + 1][j] + A[i][j - 1] + A[i][j + 1]) / 5; }
        }
        for (uint64_t i = 1; i < 511; i++) {
            for (uint64_t j = 1; j < 511; j++) { A[i][j] = (B[i][j] + B[i - 1][j] + B[i + 1][j] + B[i][j - 1] + B[i][j + 1]) / 5; }
        }
    }
}
""",
    """local A, B = {}, {}
for i = 0, 511 do A[i], B[i] = {}, {} for j = 0, 511 do A[i][j] = i * 7000 + j * 91; B[i][j] = 0 end end
for t = 1, ROUNDS do
    for i = 1, 510 do
        for j = 1, 510 do B[i][j] = (A[i][j] + A[i - 1][j] + A[i + 1][j] + A[i][j - 1] + A[i][j + 1]) // 5 end
    end
    for i = 1, 510 do
        for j = 1, 510 do A[i][j] = (B[i][j] + B[i - 1][j] + B[i + 1][j] + B[i][j - 1] + B[i][j + 1]) // 5 end
    end
end
""",
    """A = [[i * 7000 + j * 91 for j in range(512)] for i in range(512)]
B = [[0] * 512 for _ in range(512)]
for t in range(ROUNDS):
    for i in range(1, 511):
        for j in range(1, 511):
            B[i][j] = (A[i][j] + A[i - 1][j] + A[i + 1][j] + A[i][j - 1] + A[i][j + 1]) // 5
    for i in range(1, 511):
        for j in range(1, 511):
            A[i][j] = (B[i][j] + B[i - 1][j] + B[i + 1][j] + B[i][j - 1] + B[i][j + 1]) // 5
""",
)
TRIANGLE = Kernel(
    "triangle", ["A", "B", "C"], 255 * 256 * 257 // 6, 3, 1, (1, 0),
    """uint64_t A[256][256];
uint64_t B[256][256];
uint64_t C[256][256];
void kernel(void)
{
    for (uint64_t i = 0; i < 256; i++) {
        for (uint64_t j = 0; j < 256; j++) { A[i][j] = i + j; B[i][j] = 3 * i + j; }
    }
    for (uint64_t t = 0; t < ROUNDS; t++) {
        for (uint64_t i = 0; i < 256; i++) {
            for (uint64_t j = 0; j < i; j++) {
                uint64_t s = 0;
                for (uint64_t k = j; k < i; k++) { s += A[i][k] * B[j][k]; }
                C[i][j] = s;
            }
        }
    }
}
""",
    """local A, B, C = {}, {}, {}
for i = 0, 255 do
    A[i], B[i], C[i] = {}, {}, {}
    for j = 0, 255 do A[i][j] = i + j; B[i][j] = 3 * i + j; C[i][j] = 0 end
end
for t = 1, ROUNDS do
    for i = 0, 255 do
        for j = 0, i - 1 do
            local s = 0
            for k = j, i - 1 do s = s + A[i][k] * B[j][k] end
            C[i][j] = s
        end
    end
end
""",
    """A = [[i + j for j in range(256)] for i in range(256)]
B = [[3 * i + j for j in range(256)] for i in range(256)]
C = [[0] * 256 for _ in range(256)]
for t in range(ROUNDS):
    for i in range(256):
        for j in range(i):
            s = 0
            for k in range(j, i):
                s += A[i][k] * B[j][k]
            C[i][j] = s & M
""",
)
LOWER = Kernel(
    "lower triangle", ["A", "C"], 256 * 257 * 258 // 6, 3, 1, (1, 0),
    """enum { N = 256 };
uint64_t A[N][N];
uint64_t C[N][N];
void kernel(void)
{
    for (uint64_t i = 0; i <= N - 1; i++) {
        for (uint64_t j = 0; j <= N - 1; j++) { A[i][j] = 3 * i + j; }
    }
    for (uint64_t t = 0; t < ROUNDS; t++) {
        for (uint64_t i = 0; i < N; i++) {
            for (uint64_t j = 0; j <= i; j++) {
                uint64_t s = 0;
                for (uint64_t k = 0; k <= j; k++) { s += A[i][k] * A[j][k]; }
                C[i][j] = s;
            }
        }
    }
}
""",
    """local A, C = {}, {}
for i = 0, 255 do
    A[i], C[i] = {}, {}
    for j = 0, 255 do A[i][j] = 3 * i + j; C[i][j] = 0 end
end
for t = 1, ROUNDS do
    for i = 0, 255 do
        for j = 0, i do
            local s = 0
            for k = 0, j do s = s + A[i][k] * A[j][k] end
            C[i][j] = s
        end
    end
end
""",
    """A = [[3 * i + j for j in range(256)] for i in range(256)]
C = [[0] * 256 for _ in range(256)]
for t in range(ROUNDS):
    for i in range(256):
        for j in range(i + 1):
            s = 0
            for k in range(j + 1):
                s += A[i][k] * A[j][k]
            C[i][j] = s & M
""",
)
FOLDS = Kernel(
    "three folds", ["A", "s", "low", "high"], 3 * 65536, 48, 16, (3, 1),
    """uint64_t A[65536];
uint64_t s;
uint64_t low;
uint64_t high;
void kernel(void)
{
    for (uint64_t i = 0; i < 65536; i++) { A[i] = (i * 6364136223846793005ull + 1442695040888963407ull) >> 1; A[i] ^= A[i] >> 31; }
    low = A[0];
    for (uint64_t t = 0; t < ROUNDS; t++) {
        A[t] += s;
        for (uint64_t i = 0; i < 65536; i++) {
            s += A[i];
            if (A[i] < low) low = A[i];
            if (A[i] > high) high = A[i];
        }
    }
}
""",
    """local A = {}
for i = 0, 65535 do A[i] = (i * 6364136223846793005 + 1442695040888963407) >> 1; A[i] = A[i] ~ (A[i] >> 31) end
local s, low, high = 0, A[0], 0
local ult = math.ult
for t = 0, ROUNDS - 1 do
    A[t] = A[t] + s
    for i = 0, 65535 do
        local v = A[i]
        s = s + v
        if ult(v, low) then low = v end
        if ult(high, v) then high = v end
    end
end
""",
    """A = [((i * 6364136223846793005 + 1442695040888963407) & M) >> 1 for i in range(65536)]
A = [v ^ v >> 31 for v in A]
s, low, high = 0, A[0], 0
for t in range(ROUNDS):
    A[t] = (A[t] + s) & M
    for i in range(65536):
        v = A[i]
        s = (s + v) & M
        if v < low:
            low = v
        if v > high:
            high = v
""",
)
DISTANCE = Kernel(
    "distance", ["S", "T", "D"], 1000 * 1000, 6, 2, (1, 0),
    """uint64_t S[1001];
uint64_t T[1001];
uint64_t D[1001][1001];
void kernel(void)
{
    for (uint64_t i = 0; i < 1001; i++) { S[i] = i * 7 % 4; T[i] = i * 5 % 4; D[i][0] = i; D[0][i] = i; }
    for (uint64_t t = 0; t < ROUNDS; t++) {
        for (uint64_t i = 1; i < 1001; i++) {
            for (uint64_t j = 1; j < 1001; j++) {
                uint64_t best = D[i - 1][j - 1] + (S[i] != T[j] ? 1 : 0);
                if (D[i - 1][j] + 1 < best) best = D[i - 1][j] + 1;
                if (D[i][j - 1] + 1 < best) best = D[i][j - 1] + 1;
                D[i][j] = best;
            }
        }
    }
}
""",
    """local S, T, D = {}, {}, {}
for i = 0, 1000 do S[i] = i * 7 % 4; T[i] = i * 5 % 4; D[i] = {} for j = 0, 1000 do D[i][j] = 0 end end
for i = 0, 1000 do D[i][0] = i; D[0][i] = i end
for t = 1, ROUNDS do
    for i = 1, 1000 do
        for j = 1, 1000 do
            local best = D[i - 1][j - 1] + (S[i] ~= T[j] and 1 or 0)
            if D[i - 1][j] + 1 < best then best = D[i - 1][j] + 1 end
            if D[i][j - 1] + 1 < best then best = D[i][j - 1] + 1 end
            D[i][j] = best
        end
    end
end
""",
    """S = [i * 7 % 4 for i in range(1001)]
T = [i * 5 % 4 for i in range(1001)]
D = [[0] * 1001 for _ in range(1001)]
for i in range(1001):
    D[i][0] = i
    D[0][i] = i
for t in range(ROUNDS):
    for i in range(1, 1001):
        for j in range(1, 1001):
            D[i][j] = min(D[i - 1][j - 1] + (S[i] != T[j]), D[i - 1][j] + 1, D[i][j - 1] + 1)
""",
)
KERNELS = [
    MAP, TRIAD, product("ijk"), product("ikj"), XORSHIFT, COLLATZ, PREFIX, STENCIL, QUOTIENT, TRIANGLE, LOWER, FNV, SQUARES, FOLDS, DISTANCE,
]


def timed(words):
    """The output of a command on one core, and its seconds of the processor."""
    with tempfile.TemporaryFile() as out:
        child = subprocess.Popen(words, stdout=out, preexec_fn=lambda: os.sched_setaffinity(0, {max(os.sched_getaffinity(0))}))
        _, status, usage = os.wait4(child.pid, 0)
        child.returncode = os.waitstatus_to_exitcode(status)
        if child.returncode != 0:
            sys.exit(f"status {child.returncode} of {words}")
        out.seek(0)
        return out.read().decode(), usage.ru_utime + usage.ru_stime


def dump_digest(text):
    """The digest of the lines `A = 1 2 3`."""
    d = 0
    for line in text.splitlines():
        for word in line.split()[2:]:
            d = (d * 31 + int(word)) & MASK
    return d


def digest(text):
    """The digest that another program printed."""
    return int(text) & MASK


def made(kernel, rounds, slow_rounds, folder, name, program):
    """The command and the reader of its output for each way to run a kernel with so many rounds; those that gcc compiles are
    also made with `LONGER` times as many, by which they are timed."""
    text = kernel.c.replace("ROUNDS", str(rounds))
    (folder / f"{name}.c").write_text(text)
    calls = "".join(f"d = digest_of((const uint64_t *)&{v}, sizeof {v} / 8, d); " for v in kernel.variables)
    for suffix, times in (("", 1), ("-longer", LONGER)):
        longer = kernel.c.replace("ROUNDS", str(rounds * times))
        (folder / f"{name}-main.c").write_text("#include <stdint.h>\n" + longer + C_MAIN.replace("CALLS", calls))
        for flag in ("-O2", "-O0"):
            subprocess.run(["gcc", "-std=c11", flag, "-o", folder / f"{name}{flag}{suffix}", folder / f"{name}-main.c"], check=True)
    lua = kernel.lua.replace("ROUNDS", str(rounds)) + LUA_END
    (folder / f"{name}.lua").write_text(lua + "".join(f"add({v}) " for v in kernel.variables) + '\nprint(string.format("%d", d))\n')
    python = "M = (1 << 64) - 1\n" + kernel.python.replace("ROUNDS", str(slow_rounds)) + PYTHON_END
    (folder / f"{name}.py").write_text(python + "".join(f"d = add(d, {v})\n" for v in kernel.variables) + "print(d)\n")
    programs = {
        "run": ([program, "run", folder / f"{name}.c", "--workers", "1"], dump_digest),
        "seq": ([program, "seq", folder / f"{name}.c"], dump_digest),
        "gcc -O2": ([folder / f"{name}-O2"], digest),
        "gcc -O0": ([folder / f"{name}-O0"], digest),
        "lua": (["lua5.4", folder / f"{name}.lua"], digest),
        "python": ([sys.executable, folder / f"{name}.py"], digest),
    }
    return {way: programs[way] for way in WAYS}


def same_digests(kernel, programs):
    """Whether all but Python, which has fewer rounds, leave the same."""
    found = {read(timed(words)[0]) for way, (words, read) in programs.items() if way != "python"}
    if len(found) != 1:
        sys.exit(f"{kernel.name}: digests differ: {found}")


def spent(way, many, few):
    """The seconds of the rounds by which the one has more than the other."""
    suffix = "-longer" if way.startswith("gcc") else ""
    words = [[str(made[way][0][0]) + suffix, *made[way][0][1:]] if suffix else made[way][0] for made in (many, few)]
    return timed(words[0])[1] - timed(words[1])[1]


def measure(kernel, folder, program):
    """Nanoseconds an innermost statement by each way to run a kernel, a list by rounds."""
    many = made(kernel, kernel.many, kernel.slow[0], folder, "many", program)
    few = made(kernel, kernel.few, kernel.slow[1], folder, "few", program)
    same_digests(kernel, many)
    same_digests(kernel, few)
    times = {way: [] for way in many}
    for number in range(ROUNDS):
        for way in many:
            if number and way in ("python", "seq"):
                continue
            turns = kernel.slow[0] - kernel.slow[1] if way == "python" else kernel.many - kernel.few
            turns *= LONGER if way.startswith("gcc") else 1
            times[way].append(spent(way, many, few) * 1e9 / (turns * kernel.statements))
    return times


def misses(name, found, ratios):
    """The targets that a kernel misses, by its times and their ratios to those of gcc -O2."""
    missed = []
    if "lua" in found and found["run"] >= found["lua"]:
        missed.append(f"{name} is no faster than Lua")
    if name in EVERYDAY and ratios["run"] > WORST:
        missed.append(f"{name} takes {ratios['run']:.1f} times the time of gcc -O2")
    if name in EVERYDAY and ratios["run"] >= ratios["gcc -O0"]:
        missed.append(f"{name} is no faster than by gcc -O0")
    return missed


def main(words):
    program = pathlib.Path(words[0]).resolve() if words else PROGRAM
    if not words:
        subprocess.run([TOP / "ompk", "--help"], check=True, stdout=subprocess.DEVNULL)
    print(f"{'ns/statement':14}" + "".join(f"{way:>9}" + ("   ratio" if way != "gcc -O2" else "") for way in WAYS), flush=True)
    ratios, missed = [], []
    with tempfile.TemporaryDirectory() as name:
        for kernel in KERNELS:
            if words[1:] and not any(kernel.name.startswith(word) for word in words[1:]):
                continue
            times = measure(kernel, pathlib.Path(name), program)
            found = {way: statistics.median(each) for way, each in times.items()}
            line = f"{kernel.name:14}"
            here = {way: statistics.median(own / best for own, best in zip(times[way], times["gcc -O2"])) for way in WAYS}
            for way in WAYS:
                line += f"{found[way]:9.2f}" + (f"{here[way]:8.1f}" if way != "gcc -O2" else "")
            print(line, flush=True)
            missed += misses(kernel.name, found, here)
            if kernel.name in EVERYDAY:
                ratios.append(here)
    if len(ratios) == len(EVERYDAY):
        means = {way: math.exp(statistics.fmean(math.log(here[way]) for here in ratios)) for way in WAYS}
        print(f"{'mean':14}" + "".join(" " * 9 + (f"{means[way]:8.2f}" if way != "gcc -O2" else "") for way in WAYS))
        if means["run"] > MEAN:
            missed.append(f"the mean of the everyday kernels is {means['run']:.2f}")
    for line in missed:
        print(f"missed: {line}")
    sys.exit(1 if missed else 0)


if __name__ == "__main__":
    main(sys.argv[1:])
