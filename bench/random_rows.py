#!/usr/bin/env python3
"""Compares loops over rows, as a team runs them, with the same text by one walk.

    bench/random_rows.py [--program PROGRAM] FIRST COUNT

Makes a text for each seed from FIRST on: three arrays of some 300 rows, and two parallel loops under schedules of each kind over rows of one of them, each with a
loop of random steps and ends inside, which reads the others near the place that it writes, and the row itself; and one over an element each, with a loop inside
that changes a local by itself and by elements near. So most are long enough to be run in place, and some are not, or may not be. What an accepted text leaves by `run` with 1, 2, 3, 5 and 64 workers has to be what `seq` leaves. A line for each seed that
differs; the last line says how many were run, refused and differ. The status is 1 where one does.
"""
import argparse
import pathlib
import random
import subprocess
import sys
import tempfile

sys.dont_write_bytecode = True

from differential import TOP

WORKERS = (1, 2, 3, 5, 64)
ARRAYS = "ABC"
NEAR = ("", "-1", "+1", "-2", "+2")
CLAUSES = ("", "", " schedule(static)", " schedule(static, 7)", " schedule(dynamic, 3)", " schedule(guided)")


def operand(draw, others):
    """A number, a variable, or an element near the place that is written."""
    return draw.choice([str(draw.randrange(1, 9)), "i", "j", *(f"{draw.choice(others)}[i{draw.choice(NEAR)}][j{draw.choice(NEAR)}]" for _ in range(3))])


def expression(draw, others, depth=0):
    """What is written: operands under a few operators."""
    if depth > 2 or draw.random() < 0.3:
        return operand(draw, others)
    left, operator = expression(draw, others, depth + 1), draw.choice(["+", "-", "*", "^", "&", "|", "/", "%"])
    right = str(draw.randrange(2, 9)) if operator in "/%" else f"({expression(draw, others, depth + 1)})"
    return f"({left}) {operator} {right}"


def loop(draw, rows, width):
    """A parallel loop over rows of one array."""
    own = draw.choice(ARRAYS)
    written = expression(draw, [it for it in ARRAYS if it != own])
    changed = written + draw.choice(["", f" + {own}[i][j]", f" + {own}[i][j-1]", f" ^ {own}[i][j+1]"])
    body = draw.choice(
        [
            f"{own}[i][j] = {changed};",
            f"uint64_t x = {changed}; {own}[i][j] = x;",
            f"if (({written}) % 3 == 1) {{ {own}[i][j] = {changed}; }}",
            f"{own}[i][j] += {written};",
        ]
    )
    clause, before = draw.choice(CLAUSES), draw.choice(["", "uint64_t y = i * 3; "])
    step, inner_step, end = draw.choice(["i++", "i++", "i += 2"]), draw.choice(["j++", "j++", "j += 2", "j += 3"]), width - draw.choice([2, 3])
    return (
        f"    #pragma omp parallel for{clause}\n    for (uint64_t i = 2; i < {rows - 2}; {step}) {{\n"
        f"        {before}for (uint64_t j = 2; j < {end}; {inner_step}) {{\n            {body}\n        }}\n    }}\n"
    )


def changes(draw):
    """What a local becomes from turn to turn of an inner loop."""
    near = draw.choice(["D[i+k]", "D[i+k-1]", "D[i+400-k]", "D[i]", "F[k]", "F[400-k]", "G[k][i]", "k", "i", "D[i+2*k]"])
    return draw.choice([f"s += {near};", f"s = s * {draw.randrange(2, 9)} + {near};", f"s ^= {near}; s += s << {draw.randrange(1, 9)};", f"s = s * {near} ^ F[k];", f"if ({near} < s) s = {near};"])


def folded(draw, count):
    """A parallel loop over elements, each made by a loop that changes a local."""
    clause, first, end = draw.choice(CLAUSES), draw.choice([1, 2]), draw.choice([9, 30, 270, 300, 400])
    before, behind = draw.choice(["", "E[i] = i; ", "E[i] += F[3]; "]), draw.choice(["E[i] = s;", "E[i] += s;", "E[i] = s / 3 + E[i];"])
    within = draw.choice(["", "", "", " E[i] += s;"])
    step, inner_step, begun = draw.choice(["i++", "i++", "i += 2"]), draw.choice(["k++", "k++", "k += 2"]), draw.choice(["0", "i", "D[i]", "7"])
    return (
        f"    #pragma omp parallel for{clause}\n    for (uint64_t i = {first}; i < {count - 5}; {step}) {{\n        uint64_t s = {begun};\n"
        f"        {before}for (uint64_t k = {draw.choice([0, 0, 1])}; k < {end}; {inner_step}) {{\n            {changes(draw)}{within}\n        }}\n        {behind}\n    }}\n"
    )


def text_of(seed):
    """The text of a seed."""
    draw = random.Random(seed)
    rows, width = draw.choice([300, 350]), draw.choice([300, 420])
    declared = "".join(f"uint64_t {it}[{rows}][{width}];\n" for it in ARRAYS)
    count = draw.choice([900, 1500, 3000])
    declared += f"uint64_t D[{count + 1000}];\nuint64_t E[{count}];\nuint64_t F[401];\nuint64_t G[401][{count}];\n"
    begun = f"    for (uint64_t i = 0; i < {rows}; i++) {{\n        for (uint64_t j = 0; j < {width}; j++) {{\n            A[i][j] = i * 7 + j * j;\n            B[i][j] = i ^ j * 5;\n            C[i][j] = i + j;\n        }}\n    }}\n"
    begun += f"    for (uint64_t i = 0; i < {count + 1000}; i++) {{\n        D[i] = i * i + 5;\n    }}\n    for (uint64_t k = 0; k < 401; k++) {{\n        F[k] = 3 * k + 1;\n        for (uint64_t i = 0; i < {count}; i++) {{\n            G[k][i] = k * i;\n        }}\n    }}\n"
    return f"#include <stdint.h>\n\n{declared}\nvoid kernel(void)\n{{\n{begun}{loop(draw, rows, width)}{loop(draw, rows, width)}{folded(draw, count)}}}\n"


def compare(usage, text_of):
    """Runs the texts of the seeds that the command line names, each by teams and by one walk; 1 where one leaves something else."""
    parser = argparse.ArgumentParser(usage=usage)
    parser.add_argument("--program", type=pathlib.Path, default=TOP / "crates/ompk_cli/out/ompk_cli")
    parser.add_argument("first", type=int)
    parser.add_argument("count", type=int)
    words = parser.parse_args()
    ran = refused = differ = 0
    with tempfile.TemporaryDirectory() as room:
        path = pathlib.Path(room) / "kernel.c"
        for seed in range(words.first, words.first + words.count):
            path.write_text(text_of(seed))
            wanted = subprocess.run([words.program, "seq", path], capture_output=True, check=False)
            if wanted.returncode == 3:
                refused += 1
                continue
            ran += 1
            for workers in WORKERS:
                found = subprocess.run([words.program, "run", path, "--workers", str(workers)], capture_output=True, check=False)
                if (found.returncode, found.stdout, found.stderr) != (wanted.returncode, wanted.stdout, wanted.stderr):
                    differ += 1
                    print(f"seed {seed}: {workers} workers leave something else", flush=True)
    print(f"{ran} run, {refused} refused, {differ} differ")
    return 1 if differ else 0


if __name__ == "__main__":
    sys.exit(compare(__doc__, text_of))
