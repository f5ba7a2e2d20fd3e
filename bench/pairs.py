#!/usr/bin/env python3
"""Times the dependence test on bodies of ever more statements `A[n*i+c] = i;` in a parallel loop of two iterations.

Each statement is paired with itself and with those behind it: milliseconds of `ompk check`, and nanoseconds a pair, which
should not grow. Then on bodies of one write behind ever more reads of its array, each of which has one pair alone, with the
write: milliseconds, and nanoseconds a read.
"""
import pathlib
import subprocess
import sys
import tempfile
import time

TOP = pathlib.Path(__file__).resolve().parent.parent
PROGRAM = TOP / "crates/ompk_cli/out/ompk_cli"
STATEMENTS = [64, 500, 1000, 2000, 4000]
READS = [1000, 10000, 60000]


def kernel(size, body):
    head = "#pragma omp parallel for\nfor (uint64_t i = 0; i < 2; i++) {\n"
    return f"uint64_t A[{size}];\nvoid kernel(void) {{\n{head}{body}}}\n}}\n"


def writing(count):
    return kernel(2 * count, "".join(f"A[{count}*i+{c}] = i;\n" for c in range(count)))


def reading(count):
    return kernel(4, f"uint64_t t = {'+'.join(['A[2*i+1]'] * count)};\nA[2*i] = t;\n")


def seconds_to_check(path, text):
    """Of the quickest of five runs."""
    path.write_text(text)
    times = []
    for _ in range(5):
        start = time.perf_counter()
        done = subprocess.run([PROGRAM, "check", path], capture_output=True)
        times.append(time.perf_counter() - start)
        if done.stdout != b"accepted\n":
            sys.exit(f"{text[:80]!r}: {done.stderr.decode()}")
    return min(times)


def main():
    if not PROGRAM.exists():
        sys.exit("build the program first: ./ompk --help")
    with tempfile.TemporaryDirectory() as folder:
        path = pathlib.Path(folder) / "pairs.c"
        for count in STATEMENTS:
            seconds, pairs = seconds_to_check(path, writing(count)), count * (count + 1) // 2
            print(f"{pairs:>9} pairs: {seconds * 1e3:8.1f} ms, {seconds * 1e9 / pairs:7.0f} ns a pair")
        for count in READS:
            seconds = seconds_to_check(path, reading(count))
            print(f"{count:>9} reads: {seconds * 1e3:8.1f} ms, {seconds * 1e9 / count:7.0f} ns a read")


main()
