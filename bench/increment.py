#!/usr/bin/env python3
"""Times `A[i] = A[i] + i` under schedule(dynamic, k), beside the same loop by gcc -O2 -fopenmp.

The program's time for a loop is that of a kernel that has it several times less that of one that has it once, so that
starting, reading and writing count for neither; the C program times its loop itself. A line for each number of iterations, size of chunks and number of workers: nanoseconds an iteration
of both, their ratio, and the peak memory of the run.
"""
import os
import pathlib
import subprocess
import sys
import tempfile
import time

TOP = pathlib.Path(__file__).resolve().parent.parent
PROGRAM = TOP / "crates/ompk_cli/out/ompk_cli"
ITERATIONS = [1 << 16, 1 << 20, 1 << 24]
SIZES = [1, 64, 65536]
WORKERS = [1, 4]
# how often the loop is repeated, by the size of the chunks
REPEATED = {1: 1, 64: 4, 65536: 8}
# nanoseconds an iteration, by the size of the chunks, for one worker
TARGETS = {65536: 20, 1: 500}

KERNEL = """uint64_t A[{n}];
void kernel(void)
{{
{loop}}}
"""
LOOP = """#pragma omp parallel for schedule(dynamic, {k})
for (uint64_t i = 0; i < {n}; i++) {{ A[i] = A[i] + i; }}
"""
DRIVER = """#include <stdint.h>
#include <stdio.h>
#include <time.h>
{kernel}
int main(void)
{{
    struct timespec start, end;
    kernel();
    clock_gettime(CLOCK_MONOTONIC, &start);
    kernel();
    clock_gettime(CLOCK_MONOTONIC, &end);
    printf("%.0f\\n", (end.tv_sec - start.tv_sec) * 1e9 + (end.tv_nsec - start.tv_nsec));
    return (int)(A[1] >> 60);
}}
"""


def run_program(text, workers, folder):
    """The seconds and the peak memory, in MB, of a run, the best of three."""
    path = folder / "kernel.c"
    path.write_text(text)
    best, peak = float("inf"), 0
    for _ in range(3):
        start = time.monotonic()
        child = subprocess.Popen([PROGRAM, "run", path, "--workers", str(workers)], stdout=subprocess.DEVNULL)
        _, status, usage = os.wait4(child.pid, 0)
        child.returncode = os.waitstatus_to_exitcode(status)
        if child.returncode != 0:
            sys.exit(f"status {child.returncode} of a run with {workers} workers")
        best, peak = min(best, time.monotonic() - start), max(peak, usage.ru_maxrss / 1024)
    return best, peak


def run_c(text, workers, folder):
    """The nanoseconds of the C compiler's loop."""
    source, program = folder / "driver.c", folder / "driver"
    source.write_text(DRIVER.format(kernel=text))
    subprocess.run(["gcc", "-std=gnu11", "-O2", "-fopenmp", "-o", program, source], check=True)
    answer = subprocess.run([program], check=True, capture_output=True, env={**os.environ, "OMP_NUM_THREADS": str(workers)})
    return float(answer.stdout)


def main():
    subprocess.run([TOP / "ompk", "--help"], check=True, stdout=subprocess.DEVNULL)
    missed = 0
    print("iterations  size   workers  ns/iteration  gcc ns/iteration    ratio  peak MB  target")
    with tempfile.TemporaryDirectory() as name:
        folder = pathlib.Path(name)
        for n in ITERATIONS:
            for workers in WORKERS:
                for k in SIZES:
                    loop = LOOP.format(n=n, k=k)
                    text = KERNEL.format(n=n, loop=loop)
                    base, _ = run_program(text, workers, folder)
                    seconds, peak = run_program(KERNEL.format(n=n, loop=loop * (1 + REPEATED[k])), workers, folder)
                    ours = max(seconds - base, 0) * 1e9 / (n * REPEATED[k])
                    theirs = run_c(text, workers, folder) / n
                    target = TARGETS.get(k) if workers == 1 else None
                    verdict = "" if target is None else ("met" if ours < target else f"missed: {target}")
                    missed += verdict.startswith("missed")
                    print(f"{n:10}  {k:5}  {workers:7}  {ours:12.1f}  {theirs:16.2f}  {ours / theirs:7.1f}  {peak:7.0f}  {verdict}", flush=True)
    sys.exit(1 if missed else 0)


if __name__ == "__main__":
    main()
