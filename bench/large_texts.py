#!/usr/bin/env python3
"""Times `check` on large texts of several shapes, at 256 KiB, 512 KiB and 1 MiB, with the program's peak memory.

    bench/large_texts.py

For each: the seconds, the seconds a MiB, and the peak memory in bytes for each byte of the text, stack and all.
"""
import os
import pathlib
import subprocess
import sys
import tempfile
import time

TOP = pathlib.Path(__file__).resolve().parent.parent
PROGRAM = TOP / "crates" / "ompk_cli" / "out" / "ompk_cli"
HEAD = "void kernel(void)\n{\n"
KIBIBYTES = 1024


def rows(text_of, size):
    """Numbered lines, as many as fit."""
    parts, length, number = [], 0, 0
    while length < size:
        parts.append(text_of(number))
        length += len(parts[-1])
        number += 1
    return "".join(parts[:-1])


SHAPES = {
    "scalars": lambda size: rows("uint64_t v{};\n".format, size - 100) + HEAD + "}\n",
    "locals": lambda size: HEAD + rows("uint64_t v{} = 1;\n".format, size - 100) + "}\n",
    "constants": lambda size: "enum { " + rows("E{} = 1, ".format, size - 100) + "LAST = 1 };\n" + HEAD + "}\n",
    "one sum": lambda size: "uint64_t s;\n" + HEAD + "s=" + "s+" * ((size - 100) // 2) + "s;\n}\n",
    "one product of sums": lambda size: "uint64_t s;\n" + HEAD + "s = " + "(s + 3ull) * " * ((size - 100) // 13) + "s;\n}\n",
    "one condition": lambda size: "uint64_t s;\n" + HEAD + "s = " + "s || " * ((size - 100) // 5) + "s;\n}\n",
    "one printf": lambda size: "uint64_t s;\n" + HEAD + "printf(" + '"%" PRIu64 ' * ((size - 100) // 13) + '""' + ",s" * ((size - 100) // 13) + ");\n}\n",
    "one subscript": lambda size: "uint64_t A[9];\n" + HEAD + "A[" + "0+" * ((size - 100) // 2) + "1] = 1;\n}\n",
    "one bound": lambda size: "uint64_t s;\n" + HEAD + "for (uint64_t i = 0; i < " + "0+" * ((size - 100) // 2) + "1; i++) { s = i; }\n}\n",
    "elements": lambda size: "uint64_t A[9];\nuint64_t s;\n" + HEAD + "s=" + "A[3]+" * ((size - 100) // 5) + "s;\n}\n",
    "comments": lambda size: "/* a comment */\n" * ((size - 100) // 16) + HEAD + "}\n",
}


def measured(file):
    """The seconds and the peak memory of one check."""
    start = time.perf_counter()
    process = subprocess.Popen([PROGRAM, "check", file], stdout=subprocess.DEVNULL)
    _, status, usage = os.wait4(process.pid, 0)
    if status != 0:
        sys.exit(f"{file}: status {status}")
    return time.perf_counter() - start, usage.ru_maxrss * KIBIBYTES


def main():
    subprocess.run([TOP / "ompk", "--help"], check=True, stdout=subprocess.DEVNULL)
    with tempfile.TemporaryDirectory() as folder:
        for name, text_of in SHAPES.items():
            for size in (256 * KIBIBYTES, 512 * KIBIBYTES, 1024 * KIBIBYTES):
                file = pathlib.Path(folder) / "text.c"
                file.write_text(text_of(size))
                length = file.stat().st_size
                seconds, memory = measured(file)
                print(f"{name:20} {length:8} bytes  {seconds:6.3f} s  {seconds / length * 2**20:6.3f} s/MiB  {memory / length:6.1f} bytes a byte")


if __name__ == "__main__":
    main()
