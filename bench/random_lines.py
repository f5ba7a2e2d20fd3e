#!/usr/bin/env python3
"""Compares what is told of random directive lines with what another program tells.

    bench/random_lines.py [--program PROGRAM] [--moved] --beside COMMAND FIRST COUNT

Makes a text for each seed from FIRST on: a small loop, or two in a region, behind directive lines of clauses that are drawn from nearly all that may be
written, right or wrong, with `scan`, `ordered` and doacross lines in the loop's body; with `--moved` a directive line or two of it are moved or doubled. What `check` tells of it, and of an accepted text what `lower`
lists, has to be what COMMAND tells: another program that takes the same words. `lastprivate(conditional: )`, which is refused here, is left out. A line for each seed that differs, with its text beside it in a
folder that is named; the last line says how many were accepted, refused (by which numbers) and differ. The status is 1 where one does.
"""
import argparse
import pathlib
import random
import sys
import tempfile

sys.dont_write_bytecode = True

from differential import TOP
from random_kernels import Judge, counted

CLAUSES = """private(x)
private(s)
private(x, s)
private(i)
private(A)
private(s, s)
firstprivate(x)
firstprivate(s)
firstprivate(y)
lastprivate(x)
lastprivate(s)
lastprivate(i)
shared(A)
shared(s)
shared(i)
shared(A, B, C, s, x)
default(none)
default(shared)
reduction(+: s)
reduction(max: s)
reduction(*: s)
reduction(+: x)
reduction(+: s, x)
reduction(+: A)
reduction(inscan, +: s)
reduction(inscan, max: s)
reduction(inscan, +: x)
ordered
ordered(1)
ordered(2)
collapse(1)
collapse(2)
collapse(3)
collapse(5)
ordered(5)
schedule(static)
schedule(static, 2)
schedule(static, 0)
schedule(dynamic)
schedule(dynamic, 16777217)
schedule(guided, 3)
schedule(auto)
schedule(runtime)
nowait
num_threads(2)
if(1)""".split("\n")

# what a region's own line may have
OF_REGION = [it for it in CLAUSES if it.split("(")[0] in ("private", "firstprivate", "shared", "default", "reduction", "num_threads", "if")]

ITEMS = [
    "A[i] = s;",
    "A[i] = x;",
    "A[i] = A[i] + 1;",
    "A[i] = A[i-1] + 1;",
    "B[i] = A[i];",
    "s += A[i];",
    "s = s * 2;",
    "s = i;",
    "x = A[i];",
    "x = i; A[i] = x;",
    "if (A[i] > s) s = A[i];",
    "if (s < A[i]) { s = A[i]; }",
    "{ s += i; }",
    "uint64_t t = A[i]; B[i] = t;",
    "uint64_t t; B[i] = t;",
    "for (uint64_t j = 0; j < 4; j++) { C[i][j] = i; }",
    "for (uint64_t j = 0; j < 4; j++) { s += j; }",
    'printf("a");',
    '#pragma omp ordered\nprintf("a");',
    '#pragma omp ordered\n{ printf("a"); }',
    "#pragma omp scan inclusive(s)",
    "#pragma omp scan exclusive(s)",
    "#pragma omp scan inclusive(x)",
    "#pragma omp ordered doacross(sink: i-1)",
    "#pragma omp ordered doacross(sink: i-2)",
    "#pragma omp ordered doacross(sink: i-1, j)",
    "#pragma omp ordered doacross(source:)",
]

HEADS = [
    "for (uint64_t i = 0; i < 4; i++)",
    "for (uint64_t i = 1; i < 4; i++)",
    "for (uint64_t i = 3; i > 0; i--)",
    "for (uint64_t i = 0; i < 8; i += 2)",
]

FRONTS = ["uint64_t x;"] * 3 + ["uint64_t x = 3;"] * 5 + ["", "s = 2;", "uint64_t x = 1; uint64_t y = 1;"]

ENDS = ["", "s = x;", "x = s;", "A[0] = s;"]

KERNEL = """#include <stdio.h>
#include <stdint.h>
uint64_t A[8];
uint64_t B[8];
uint64_t C[8][8];
uint64_t s;
void kernel(void)
{{
{}
}}
"""

# The first line in the kernel's block.
FIRST_LINE = KERNEL[: KERNEL.index("{{")].count("\n") + 1


def loop_behind(chance, directive, counts):
    """A loop behind a line of this directive with some clauses."""
    clauses = " ".join(chance.sample(CLAUSES, chance.choice(counts)))
    items = "\n".join(chance.choice(ITEMS) for _item in range(chance.choice((1, 1, 2, 2, 3, 4))))
    inner = "for (uint64_t j = 0; j < 4; j++)\n" if chance.random() < 0.2 else ""
    return f"#pragma omp {directive} {clauses}\n{chance.choice(HEADS)}\n{inner}{{\n{items}\n}}"


def region(chance):
    """A region of one or two loops."""
    clauses = " ".join(chance.sample(OF_REGION, chance.choice((0, 1, 2))))
    loops = "\n".join(loop_behind(chance, "for", (0, 1, 1, 2)) for _loop in range(chance.choice((1, 1, 2))))
    return f"#pragma omp parallel {clauses}\n{{\n{loops}\n}}"


def text_of(seed):
    """The text of a seed."""
    chance = random.Random(seed)
    front = chance.choice(FRONTS)
    body = region(chance) if chance.random() < 0.25 else loop_behind(chance, "parallel for", (0, 1, 1, 2, 2, 2, 3, 4))
    return KERNEL.format("\n".join((front, body, chance.choice(ENDS))))


def with_lines_moved(text, seed):
    """The text with a directive line or two moved to another place of the kernel, or doubled there."""
    chance = random.Random(-1 - seed)
    lines = text.split("\n")
    for _time in range(chance.choice((1, 2))):
        at = chance.choice([number for number, line in enumerate(lines) if line.startswith("#pragma")])
        line = lines.pop(at) if chance.random() < 0.5 else lines[at]
        lines.insert(chance.randrange(FIRST_LINE, len(lines) - 1), line)
    return "\n".join(lines)


def main():
    parser = argparse.ArgumentParser()
    parser.add_argument("--program", default=str(TOP / "crates/ompk_cli/out/ompk_cli"))
    parser.add_argument("--moved", action="store_true")
    parser.add_argument("--beside", required=True)
    parser.add_argument("first", type=int)
    parser.add_argument("count", type=int)
    options = parser.parse_args()
    kept = pathlib.Path(tempfile.mkdtemp(prefix="random-lines-"))
    with tempfile.TemporaryDirectory() as folder:
        judge = Judge(options, pathlib.Path(folder), kept)
        for seed in range(options.first, options.first + options.count):
            text = text_of(seed)
            judge.check(str(seed), with_lines_moved(text, seed) if options.moved else text)
    print(counted(judge))
    return 1 if judge.differ else 0


if __name__ == "__main__":
    sys.exit(main())
