#!/usr/bin/env python3
"""Times a run of a kernel of 60,000 scalars, with an input that has a line for each of them, in the reverse order.

    bench/input.py

The kernel adds 1 to the first and to the last; the output is compared. It prints the seconds of the quickest of five runs, of
which the reading of 1.6 MiB of text and the output are a part.
"""
import pathlib
import subprocess
import tempfile
import time

TOP = pathlib.Path(__file__).resolve().parent.parent
PROGRAM = TOP / "crates" / "ompk_cli" / "out" / "ompk_cli"
COUNT = 60_000


def main():
    text = "".join(f"uint64_t v{at};\n" for at in range(COUNT))
    text += f"void kernel(void)\n{{\nv0 += 1ull;\nv{COUNT - 1} += 1ull;\n}}\n"
    given = "".join(f"v{at} {at}\n" for at in reversed(range(COUNT)))
    wanted = "".join(f"v{at} = {at + (at in (0, COUNT - 1))}\n" for at in range(COUNT))
    with tempfile.TemporaryDirectory() as folder:
        kernel, values = pathlib.Path(folder, "kernel.c"), pathlib.Path(folder, "kernel.in")
        kernel.write_text(text)
        values.write_text(given)
        times = []
        for _ in range(5):
            begun = time.monotonic()
            ran = subprocess.run([PROGRAM, "seq", kernel, "--input", values], stdout=subprocess.PIPE, text=True, check=True)
            times.append(time.monotonic() - begun)
            if ran.stdout != wanted:
                raise SystemExit("input: another output than is wanted")
    print(f"{COUNT} lines for as many variables: {min(times):.2f} s")


if __name__ == "__main__":
    main()
