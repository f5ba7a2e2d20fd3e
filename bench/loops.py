#!/usr/bin/env python3
"""Times the check of nests with many statements, and serial kernels beside C compilers and Python.

First `ompk check` on texts of eight loops one in another round ever more statements: milliseconds, and microseconds a
statement, which should not grow. Then `ompk seq` on a map, a matrix product and a hash: nanoseconds an innermost iteration,
beside the same kernel by gcc -O0 and -O2 and the same loops in Python.
"""
import pathlib
import subprocess
import sys
import tempfile
import time

TOP = pathlib.Path(__file__).resolve().parent.parent
PROGRAM = TOP / "crates/ompk_cli/out/ompk_cli"
STATEMENTS = [500, 1000, 2000, 4080]
VARIABLES = "abcdefgh"

MAP = """uint64_t A[65536];
void kernel(void)
{
    for (uint64_t t = 0; t < 64; t++) {
        for (uint64_t i = 0; i < 65536; i++) { A[i] = A[i] * 3 + i; }
    }
}
"""
PRODUCT = """uint64_t A[160][160];
uint64_t B[160][160];
uint64_t C[160][160];
void kernel(void)
{
    for (uint64_t i = 0; i < 160; i++) {
        for (uint64_t j = 0; j < 160; j++) {
            A[i][j] = i + j;
            B[i][j] = 3 * i + j;
        }
    }
    for (uint64_t i = 0; i < 160; i++) {
        for (uint64_t j = 0; j < 160; j++) {
            for (uint64_t k = 0; k < 160; k++) { C[i][j] += A[i][k] * B[k][j]; }
        }
    }
}
"""
HASH = """uint64_t h;
uint64_t A[1024];
void kernel(void)
{
    h = 14695981039346656037ull;
    for (uint64_t t = 0; t < 4096; t++) {
        for (uint64_t i = 0; i < 1024; i++) { h = (h ^ A[i] + i) * 1099511628211ull ^ h >> 29; }
    }
}
"""
PYTHON = {
    "map": "A = [0] * 65536\nfor t in range(64):\n    for i in range(65536):\n        A[i] = (A[i] * 3 + i) & M",
    "product": "A = [[i + j for j in range(160)] for i in range(160)]\nB = [[3 * i + j for j in range(160)] for i in range(160)]\n"
    "C = [[0] * 160 for _ in range(160)]\nfor i in range(160):\n    for j in range(160):\n        for k in range(160):\n"
    "            C[i][j] = (C[i][j] + A[i][k] * B[k][j]) & M",
    "hash": "A = [0] * 1024\nh = 14695981039346656037\nfor t in range(4096):\n    for i in range(1024):\n"
    "        h = (((h ^ (A[i] + i)) * 1099511628211) & M) ^ h >> 29",
}
KERNELS = [("map", MAP, 64 * 65536), ("product", PRODUCT, 160**3), ("hash", HASH, 4096 * 1024)]


def nested(count):
    """A text of eight loops round so many assignments."""
    heads = "".join(f"for (uint64_t {v} = 0; {v} < 2; {v}++) {{ " for v in VARIABLES)
    sums = " + ".join(VARIABLES)
    lines = "".join(f"A[{sums} + {i % 50}] = A[{i % 40} + {VARIABLES[i % 8]}] + {i};\n" for i in range(count))
    return f"uint64_t A[64];\nvoid kernel(void)\n{{\n{heads}\n{lines}{'}' * 8}\n}}\n"


def seconds(words, folder, text=None, tries=3):
    """The best time of a command."""
    if text is not None:
        (folder / "kernel.c").write_text(text)
    best = float("inf")
    for _ in range(tries):
        start = time.monotonic()
        subprocess.run(words, check=True, stdout=subprocess.DEVNULL)
        best = min(best, time.monotonic() - start)
    return best


def compiled(text, flag, folder):
    """The time of the kernel as a C program."""
    (folder / "program.c").write_text(f"#include <stdint.h>\n{text}int main(void) {{ kernel(); return 0; }}\n")
    subprocess.run(["gcc", "-std=c11", flag, "-o", folder / "program", folder / "program.c"], check=True)
    return seconds([folder / "program"], folder)


def main():
    subprocess.run([TOP / "ompk", "--help"], check=True, stdout=subprocess.DEVNULL)
    missed = 0
    with tempfile.TemporaryDirectory() as name:
        folder = pathlib.Path(name)
        kernel = folder / "kernel.c"
        print("statements     ms   us/statement  target")
        for count in STATEMENTS:
            took = seconds([PROGRAM, "check", kernel], folder, nested(count))
            verdict = "met" if took < 1 else "missed: 1 s"
            missed += took >= 1
            print(f"{count:10}  {took * 1e3:6.1f}  {took * 1e6 / count:12.2f}  {verdict}", flush=True)
        print("kernel    ns/iteration  gcc -O0  gcc -O2  python")
        for label, text, iterations in KERNELS:
            ours = seconds([PROGRAM, "seq", kernel], folder, text)
            slow, fast = (compiled(text, flag, folder) for flag in ("-O0", "-O2"))
            python = seconds([sys.executable, "-c", "M = (1 << 64) - 1\n" + PYTHON[label]], folder, tries=1)
            per = [took * 1e9 / iterations for took in (ours, slow, fast, python)]
            print(f"{label:8}  {per[0]:12.1f}  {per[1]:7.2f}  {per[2]:7.2f}  {per[3]:6.1f}", flush=True)
    sys.exit(1 if missed else 0)


if __name__ == "__main__":
    main()
