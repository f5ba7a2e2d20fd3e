#!/usr/bin/env python3
"""Notes the peak memory of runs that write 2^22, 2^23 and 2^24 elements of 20 digits.

The output of the last is 336 MiB and its store 128. What a run holds above its store should not grow with the output by
more than 1 MiB, since nothing of the output is kept before it is written but 64 KiB. Answers 1 where it grows by more.
"""
import os
import pathlib
import subprocess
import sys
import tempfile

TOP = pathlib.Path(__file__).resolve().parent.parent
PROGRAM = TOP / "crates/ompk_cli/out/ompk_cli"
ELEMENTS = [1 << 22, 1 << 23, 1 << 24]
MIB = 1 << 20

KERNEL = """uint64_t A[{n}];
void kernel(void)
{{
    for (uint64_t i = 0; i < {n}; i++) {{ A[i] = 18446744073709551615ull - i; }}
}}
"""


def peak(elements, folder):
    """The peak memory, in bytes, of a run with an array of so many elements."""
    path = folder / "kernel.c"
    path.write_text(KERNEL.format(n=elements))
    child = subprocess.Popen([PROGRAM, "seq", path], stdout=subprocess.DEVNULL)
    _, status, usage = os.wait4(child.pid, 0)
    if os.waitstatus_to_exitcode(status) != 0:
        sys.exit(f"a run of {elements} elements failed")
    return usage.ru_maxrss * 1024


def main():
    with tempfile.TemporaryDirectory() as name:
        above = [peak(n, pathlib.Path(name)) - 8 * n for n in ELEMENTS]
    for elements, extra in zip(ELEMENTS, above):
        print(f"{elements} elements: {extra / MIB:.2f} MiB above the store")
    return 0 if max(above) - min(above) <= MIB else 1


if __name__ == "__main__":
    sys.exit(main())
