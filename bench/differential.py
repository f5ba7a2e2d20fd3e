#!/usr/bin/env python3
"""Compares what kernels write with what the C compiler's programs write, without and with OpenMP.

    bench/differential.py [KERNEL..]

By default the kernels of examples/ that `ompk check` accepts, each with its input where it has one. The text without its directive
lines, and the text with them, are compiled round a driver that sets the input's values and prints each file-scope variable. Silent
where all agree.
"""
import pathlib
import re
import subprocess
import sys
import tempfile

TOP = pathlib.Path(__file__).resolve().parent.parent
DIRECTIVE = re.compile(r"^[ \t]*#[ \t]*pragma[ \t]+omp(?:[ \t].*)?$", re.M)
COMMENT = re.compile(r"//[^\n]*|/\*[^\n]*?\*/")
DOACROSS = re.compile(r"\bdoacross\(\s*(?:(sink)\s*:|(source)\s*:?)([^)]*)\)")
NAME = re.compile(r"uint64_t\s+([A-Za-z]\w*)\s*(?:\[[^\];]*\]\s*)*;")


def driver(text, given):
    """A C program round the kernel of this text."""
    declared = COMMENT.sub("", text[: re.search(r"\bvoid\s+kernel\b", text).start()])
    lines = [text, "#include <inttypes.h>", "#include <stdint.h>", "#include <stdio.h>", "#include <string.h>"]
    lines.append("static void show(const char *name, const uint64_t *values, size_t count) {")
    lines.append('    printf("%s =", name);')
    lines.append('    for (size_t i = 0; i < count; i++) printf(" %" PRIu64, values[i]);')
    lines.append('    printf("\\n");')
    lines.append("}")
    lines.append("int main(void) {")
    for name, *values in (line.split(" ") for line in given.splitlines()):
        lines.append(f"    static const uint64_t {name}_given[] = {{ {', '.join(value + 'ull' for value in values)} }};")
        lines.append(f"    memcpy(&{name}, {name}_given, sizeof {name});")
    lines.append("    kernel();")
    for name in NAME.findall(declared):
        lines.append(f'    show("{name}", (const uint64_t *)&{name}, sizeof {name} / sizeof(uint64_t));')
    lines.append("    return 0;")
    lines.append("}")
    return "\n".join(["#include <inttypes.h>", "#include <stdint.h>", "#include <stdio.h>"] + lines) + "\n"


def spelled_before(text):
    """The clause `doacross` of OpenMP 5.2 as compilers of 5.1 and before have it."""
    return DOACROSS.sub(lambda clause: f"depend(sink: {clause[3]})" if clause[1] else "depend(source)", text)


def compiled(work, text, given, *flags):
    """What the C compiler's program writes. Without the flag gcc 12 computes the last value of a cubic in a loop's variable wrongly."""
    source, program = work / "program.c", work / "program"
    source.write_text(driver(text, given))
    subprocess.run(["gcc", "-std=c11", "-O1", "-fno-tree-scev-cprop", "-w", *flags, "-o", program, source], check=True)
    return subprocess.run([program], check=True, capture_output=True).stdout


def judge(work, kernel):
    """The ways to run a kernel that write other bytes than its C program."""
    file = kernel.with_suffix(".in")
    given = file.read_text() if file.exists() else ""
    words = ["--input", str(file)] if file.exists() else []
    text = kernel.read_text()
    wanted = compiled(work, DIRECTIVE.sub("", text), given)
    faults = [] if compiled(work, spelled_before(text), given, "-fopenmp") == wanted else ["the C program with OpenMP"]
    ways = [["seq"]] + [["run", "--workers", str(workers)] for workers in (1, 3, 64)]
    for command, *options in ways:
        ran = subprocess.run([TOP / "ompk", command, kernel, *words, *options], capture_output=True)
        if ran.returncode != 0 or ran.stdout != wanted:
            faults.append(" ".join([command, *options]))
    return faults


def is_accepted(kernel):
    return subprocess.run([TOP / "ompk", "check", kernel], capture_output=True).returncode == 0


def main():
    kernels = [pathlib.Path(name) for name in sys.argv[1:]] or [it for it in sorted((TOP / "examples").glob("*.c")) if is_accepted(it)]
    status = 0
    with tempfile.TemporaryDirectory() as folder:
        for kernel in kernels:
            for fault in judge(pathlib.Path(folder), kernel):
                print(f"{kernel}: other bytes by {fault}")
                status = 1
    return status


if __name__ == "__main__":
    sys.exit(main())
