#!/usr/bin/env python3
"""Compares prefix sums, as a team runs them, with the same text by one walk.

    bench/random_scans.py [--program PROGRAM] FIRST COUNT

Makes a text for each seed from FIRST on: four arrays, and three loops of which each makes a scalar of itself, by one of several operators, and of what
elements and the variable make, and writes to an array what it makes of the scalar before or behind that. The scalar is a local or stands beside the arrays, the
loop has a directive line with a scan or has none, and is long enough to be run in place or not. What an accepted text leaves by `run` with 1, 2, 3, 5 and 64
workers has to be what `seq` leaves. A line for each seed that differs; the last line says how many were run, refused and differ. The status is 1 where one does.
"""
import random
import sys

sys.dont_write_bytecode = True

from random_rows import compare

OPERATORS = ("+", "+", "+", "+", "*", "^", "|", "&")
NEAR = ("i", "i", "i", "i + 1", "i + 3", "2 * i", "7")


def operand(draw, arrays):
    """What a turn adds: elements and the variable under an operator or two."""
    element = f"{draw.choice(arrays)}[{draw.choice(NEAR)}]"
    return draw.choice([element, element, "i", "i * 3 ^ 5", f"{element} * 3", f"{element} + i", f"({element} ^ i) % 97", f"{element} * {draw.choice(arrays)}[i]"])


def read(draw, scalar, arrays):
    """What is written: the scalar, or what is made of it."""
    return draw.choice([scalar, scalar, scalar, f"{scalar} + i", f"{scalar} * 3", f"{scalar} ^ {draw.choice(arrays)}[i]", f"{scalar} % 10"])


def scan(draw, number, size):
    """A loop that makes prefix sums."""
    arrays = list("ABCD")
    own = draw.choice(arrays)
    others = arrays if draw.random() < 0.2 else [it for it in arrays if it != own]
    is_line, is_local = draw.random() < 0.6, draw.random() < 0.4
    scalar, operator = (f"x{number}" if is_local else draw.choice("st")), draw.choice(OPERATORS)
    kind, place = draw.choice(["inclusive", "exclusive"]), draw.choice(["i", "i", "i", "i + 2", "2 * i", "2 * i + 1"])
    update, save = f"{scalar} {operator}= {operand(draw, others)};", f"{own}[{place}] = {read(draw, scalar, others)};"
    second = f" {draw.choice(arrays)}[i] = {scalar};" if draw.random() < 0.1 else ""
    line = f"        #pragma omp scan {kind}({scalar})\n" if is_line else ""
    body = f"            {update}\n{line}            {save}{second}\n" if kind == "inclusive" else f"            {save}{second}\n{line}            {update}\n"
    begun = f"        uint64_t {scalar} = {draw.randrange(9)};\n" if is_local else ""
    head = f"        #pragma omp parallel for reduction(inscan, {operator}: {scalar})\n" if is_line else ""
    first, end = draw.choice([0, 0, 1, 5]), draw.choice([size, size - 3, size // 2, 300, 17])
    kept = f"        s += {scalar};\n" if is_local else ""
    return f"    {{\n{begun}{head}        for (uint64_t i = {first}; i < {end}; {draw.choice(['i++', 'i++', 'i++', 'i += 2'])}) {{\n{body}        }}\n{kept}    }}\n"


def text_of(seed):
    """The text of a seed."""
    draw = random.Random(seed)
    size = draw.choice([65536, 65540, 131077, 300000, 420000])
    arrays = "".join(f"uint64_t {it}[{2 * size + 9}];\n" for it in "ABCD")
    scalars = draw.choice(["uint64_t s;\nuint64_t t;\n", "uint64_t t;\nuint64_t s;\n"])
    declared = draw.choice([arrays + scalars, scalars + arrays])
    begun = f"    for (uint64_t i = 0; i < {2 * size + 9}; i++) {{\n        A[i] = i * i + 5;\n        B[i] = i ^ 77;\n        C[i] = i % 13;\n        D[i] = i | 1;\n    }}\n    s = {draw.randrange(99)};\n    t = 1;\n"
    return f"#include <stdint.h>\n\n{declared}\nvoid kernel(void)\n{{\n{begun}{scan(draw, 0, size)}{scan(draw, 1, size)}{scan(draw, 2, size)}}}\n"


if __name__ == "__main__":
    sys.exit(compare(__doc__, text_of))
