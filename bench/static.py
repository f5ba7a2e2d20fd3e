#!/usr/bin/env python3
"""Times the kernels of bench/bodies.py with `#pragma omp parallel for schedule(static)` at their loops, by teams of 1, 2 and 4.

    python3 bench/static.py [PROGRAM [KERNEL..]]     the program as it is proved here, or another one

Beside them stand the same kernels without directive lines by one worker, by gcc -O2, by gcc -O2 -fopenmp with as many threads, and
by Lua 5.4. Each program has a kernel many times and a few times, and the difference of the two runs counts, by the clock. A line for
each kernel: the median nanoseconds an innermost statement. The hash is left out: no directive allows its loop. Every program has to leave
the same digest of all variables. The status is 1 where one worker takes more than 1.5 times the time without directive lines.
"""
import os
import pathlib
import re
import statistics
import subprocess
import sys
import tempfile
import time

sys.dont_write_bytecode = True

import bodies

ROUNDS = 5
TEAMS = (1, 2, 4)
SLOWER = 1.5
LEFT_OUT = ("fnv",)
SINKS = """
                #pragma omp ordered doacross(sink: i-1, j)
                #pragma omp ordered doacross(sink: i, j-1)
                """
SOURCE = """
                #pragma omp ordered doacross(source:)
            """


def annotated(kernel):
    """The text of a kernel with a directive line at each loop of its rounds."""
    clauses = {"squares": " reduction(+: s)", "prefix": " ordered(2)"}.get(kernel.name, "")
    head, rounds = kernel.c.split("t < ROUNDS; t++) {\n")
    rounds = re.sub(r"^ {8}(?=for )", f"        #pragma omp parallel for schedule(static){clauses}\n        ", rounds, flags=re.M)
    if kernel.name == "prefix":
        rounds = re.sub(r"\{ (A\[i\]\[j\] = .*;) \}", lambda it: "{" + SINKS + it[1] + SOURCE + "}", rounds)
    return head + "t < ROUNDS; t++) {\n" + rounds


def compiled(text, kernel, path, flags):
    """The program that gcc makes of a kernel; it prints the digest of its variables."""
    calls = "".join(f"d = digest_of((const uint64_t *)&{v}, sizeof {v} / 8, d); " for v in kernel.variables)
    # the clause `doacross` of OpenMP 5.2 is `depend` in the compilers of 5.1 and before
    text = re.sub(r"doacross\(sink: (.*)\)", r"depend(sink: \1)", text).replace("doacross(source:)", "depend(source)")
    source = path.with_suffix(".main.c")
    source.write_text("#include <stdint.h>\n" + text + bodies.C_MAIN.replace("CALLS", calls))
    subprocess.run(["gcc", "-std=c11", "-O2", *flags, "-o", path, source], check=True)
    return path


def programs_of(kernel, rounds, folder, program):
    """What runs so many rounds of a kernel, by its name: the words of a command, its threads by gcc, and the reader of its output."""
    texts = {"team": annotated(kernel), "serial": kernel.c}
    for name, text in texts.items():
        texts[name] = text.replace("ROUNDS", str(rounds))
        (folder / f"{name}.c").write_text(texts[name])
    lua = kernel.lua.replace("ROUNDS", str(rounds)) + bodies.LUA_END
    (folder / "kernel.lua").write_text(lua + "".join(f"add({v}) " for v in kernel.variables) + '\nprint(string.format("%d", d))\n')
    serial = compiled(texts["serial"], kernel, folder / "serial", [])
    openmp = compiled(texts["team"], kernel, folder / "openmp", ["-fopenmp"])
    programs = {f"{n} workers": ([program, "run", folder / "team.c", "--workers", str(n)], None, bodies.dump_digest) for n in TEAMS}
    programs["serial"] = ([program, "run", folder / "serial.c", "--workers", "1"], None, bodies.dump_digest)
    programs["gcc -O2"] = ([serial], None, bodies.digest)
    for n in TEAMS:
        programs[f"openmp {n}"] = ([openmp], n, bodies.digest)
    if "lua" in bodies.WAYS:
        programs["lua"] = (["lua5.4", folder / "kernel.lua"], None, bodies.digest)
    return programs


def timed(words, threads, read):
    """The seconds of a command by the clock, and the digest that it leaves."""
    env = dict(os.environ, OMP_NUM_THREADS=str(threads)) if threads else None
    begun = time.perf_counter()
    printed = subprocess.run(words, env=env, check=True, stdout=subprocess.PIPE).stdout
    return time.perf_counter() - begun, read(printed.decode())


def times_of(kernel, programs):
    """The seconds of each program; each has to leave the same."""
    found = {name: timed(*it) for name, it in programs.items()}
    if len({digest for _, digest in found.values()}) != 1:
        sys.exit(f"static: {kernel.name}: digests differ: {found}")
    return {name: seconds for name, (seconds, _) in found.items()}


def measure(kernel, folder, program):
    """The median nanoseconds an innermost statement by each program."""
    many, few = folder / "many", folder / "few"
    many.mkdir()
    few.mkdir()
    longer = programs_of(kernel, kernel.many * bodies.LONGER, many, program)
    shorter = programs_of(kernel, kernel.few, few, program)
    statements = (kernel.many * bodies.LONGER - kernel.few) * kernel.statements
    rounds = [(times_of(kernel, longer), times_of(kernel, shorter)) for _round in range(ROUNDS)]
    return {name: statistics.median((a[name] - b[name]) * 1e9 / statements for a, b in rounds) for name in longer}


def main(words):
    program = pathlib.Path(words[0]).resolve() if words else bodies.PROGRAM
    missed, begun = [], False
    for kernel in bodies.KERNELS:
        if kernel.name in LEFT_OUT or words[1:] and not any(kernel.name.startswith(word) for word in words[1:]):
            continue
        with tempfile.TemporaryDirectory() as name:
            found = measure(kernel, pathlib.Path(name), program)
        if not begun:
            print(f"{'ns/statement':14}" + "".join(f"{it:>10}" for it in found), flush=True)
            begun = True
        print(f"{kernel.name:14}" + "".join(f"{it:10.2f}" for it in found.values()), flush=True)
        if found["1 workers"] > SLOWER * found["serial"]:
            missed.append(f"{kernel.name}: one worker takes {found['1 workers'] / found['serial']:.1f} times the time without directive lines")
    for line in missed:
        print(f"missed: {line}")
    return 1 if missed else 0


if __name__ == "__main__":
    sys.exit(main(sys.argv[1:]))
