#!/usr/bin/env python3
"""Compares what random kernels are told and write with what other programs say.

    bench/random_kernels.py [--program PROGRAM] [--beside COMMAND] [--mutants M] FIRST COUNT

Makes the kernels of the seeds from FIRST on. Of an accepted one, what `seq` and `run` by 1, 2, 3, 7 and 64 workers write under several
schedules has to be what the C program of its text without directive lines writes, and its own input is read. Of each kernel, and of M texts
that differ from it by a word or a line, what `check` tells, and of an accepted one what `lower` lists, has to be what COMMAND tells, where
one is given: another program that takes the same words. A line for each seed that differs, with its text beside it in a folder that is
named; the last line says how many were accepted, refused (by which numbers) and differ. The status is 1 where one does.
"""
import argparse
import collections
import pathlib
import random
import re
import shlex
import subprocess
import sys
import tempfile

sys.dont_write_bytecode = True

from differential import DIRECTIVE, TOP, compiled

WORKERS = (1, 2, 3, 7, 64)
SCHEDULES = ("static", "static,2", "dynamic", "dynamic,3", "guided", "auto")
LONG = 20


class Maker:
    """A random kernel. Extents are small, subscripts mostly in range, and parallel bodies mostly such that each iteration has its own cells."""

    def __init__(self, seed):
        self.random = random.Random(seed)
        self.extent = self.random.choice((1, 2, 5, 8, 12, 70, 300))
        self.lines, self.depth, self.names = [], 1, 0
        self.locals, self.prints = [], self.random.random() < 0.4
        self.scalars = ["s", "t", "u"]

    def pick(self, *choices):
        return self.random.choice(choices)

    def may(self, chance):
        return self.random.random() < chance

    def fresh(self, stem):
        self.names += 1
        return f"{stem}{self.names}"

    def put(self, line):
        self.lines.append("    " * self.depth + line)

    # ---- expressions

    def subscript(self, loops, room=2):
        """An affine one, below the extent plus `room` where the loops' variables are below the extent."""
        if not loops or self.may(0.15):
            return str(self.random.randrange(self.extent))
        v = self.pick(*loops)
        return self.pick(v, v, v, f"{v} + {self.random.randrange(room + 1)}", f"{self.extent} - {v}", f"2 * {v} - {v}", f"({v})", f"1 * {v} + LESS")

    def cell(self, loops, array=None):
        array = array or self.pick("A", "B", "D")
        if array == "D":
            return f"D[{self.subscript(loops)}][{self.subscript(loops)}]"
        return f"{array}[{self.subscript(loops)}]"

    def leaf(self, loops, names, arrays):
        kind = self.random.random()
        if kind < 0.35 and arrays:
            return self.cell(loops, self.pick(*arrays))
        if kind < 0.6 and loops:
            return self.pick(*loops)
        if kind < 0.8 and names:
            return self.pick(*names)
        return self.pick("3ull", "7ull", "0ull", "18446744073709551615ull", "1000003ull", "1ull")

    def expression(self, loops, names, arrays, depth=2):
        if depth == 0 or self.may(0.25):
            return self.leaf(loops, names, arrays)
        below = lambda: self.expression(loops, names, arrays, depth - 1)
        kind = self.random.randrange(12)
        if kind < 7:
            return f"({below()} {self.pick('+', '-', '*', '&', '|', '^')} {below()})"
        if kind == 7:
            return f"({below()} {self.pick('/', '%')} {self.pick('3', '7', '10ull', '8', '1', '6ull', '4294967297ull')})"
        if kind == 8:
            return f"({below()} {self.pick('<<', '>>')} {self.pick('1', '3', '31', '63', '0')})"
        if kind == 9:
            return f"{self.pick('~', '-')}{self.leaf(loops, names, arrays)}"
        return f"({self.condition(loops, names, arrays, depth - 1)} ? {below()} : {below()})"

    def condition(self, loops, names, arrays, depth=1):
        below = lambda: self.expression(loops, names, arrays, max(depth - 1, 0))
        kind = self.random.randrange(8)
        if depth and kind == 0:
            return f"({self.condition(loops, names, arrays, 0)} {self.pick('&&', '||')} {self.condition(loops, names, arrays, 0)})"
        if kind == 1:
            return f"!({below()} < {below()})"
        if kind == 2:
            return f"({below()} % 2) == 1"
        return f"{below()} {self.pick('<', '<=', '>', '>=', '==', '!=')} {below()}"

    # ---- serial statements

    def head(self, v, loops):
        """A canonical loop whose variable stays below the extent; now and then it never turns, or its bounds name others."""
        n, kind = self.extent, self.random.randrange(12)
        step = self.pick(1, 1, 2, 3)
        if kind < 4:
            return f"for (uint64_t {v} = {self.pick(0, 0, 1)}; {v} < {self.pick('N', n)}; {self.pick(f'{v}++', f'++{v}', f'{v} += {step}', f'{v} = {v} + {step}', f'{v} = {step} + {v}')})"
        if kind == 4:
            return f"for (uint64_t {v} = 0; {v} <= N - 1; {v}++)"
        if kind == 5:
            return f"for (uint64_t {v} = N; {v} > {self.pick(0, 1)}; {self.pick(f'{v}--', f'--{v}', f'{v} = {v} - 1')})"
        if kind == 6:
            return f"for (uint64_t {v} = N; {v} >= {step}; {v} -= {step})"
        if kind == 7:
            return f"for (uint64_t {v} = 0; {v} != N; {v}++)"
        if kind == 8:
            return f"for (uint64_t {v} = N; {v} != 0; {v}--)"
        if kind == 9 and loops:
            return f"for (uint64_t {v} = {self.pick('0', self.pick(*loops))}; {v} {self.pick('<', '<=')} {self.pick(*loops, 'N')}; {v}++)"
        if kind == 10:
            return f"for (uint64_t {v} = {self.pick(3, 5)}; {v} < {self.pick(2, 3, 5)}; {v}++)"
        return f"for (uint64_t {v} = 0; {v} < {self.pick(1, 2, min(n, 4))}; {v}++)"

    def assign(self, target, loops, names, arrays):
        if self.may(0.35):
            self.put(f"{target} {self.pick('+', '-', '*', '&', '|', '^')}= {self.expression(loops, names, arrays)};")
        elif self.may(0.1):
            self.put(f"{target} = {self.condition(loops, names, arrays)};")
        else:
            self.put(f"{target} = {self.expression(loops, names, arrays)};")

    def choose(self, loops, names, arrays, inner):
        self.put(f"if ({self.condition(loops, names, arrays)}) {{")
        self.inside(inner)
        if self.may(0.4):
            self.put("} else {")
            self.inside(inner)
        self.put("}")

    def inside(self, inner):
        self.depth += 1
        inner()
        self.depth -= 1

    def show(self, loops, names):
        what = [self.leaf(loops, names, ["A"]) for _ in range(self.pick(1, 2))]
        what = [it if "ull" not in it else "s" for it in what]
        form = " ".join('"%" PRIu64' for _ in what)
        self.put(f'printf({form} "\\n", {", ".join(what)});')

    def serial(self, loops, names, budget):
        """Some statements that one thread runs."""
        for _ in range(self.pick(1, 1, 2, 3)):
            kind = self.random.randrange(10)
            arrays = ["A", "B", "D"]
            if kind < 3 and len(loops) < 4 and budget > 0:
                v = self.fresh("i")
                head = self.head(v, loops)
                self.put(head + " {")
                self.inside(lambda: self.serial([*loops, v], names, budget - 1))
                self.put("}")
            elif kind == 3 and budget > 0:
                self.choose(loops, names, arrays, lambda: self.serial(loops, names, budget - 1))
            elif kind == 4 and self.prints and len(loops) < 2:
                self.show(loops, names)
            elif kind == 5:
                x = self.fresh("x")
                self.put(f"uint64_t {x} = {self.expression(loops, names, arrays)};")
                names = [*names, x]
            elif kind == 6 and len(loops) < 2 and budget > 0:
                self.parallel(loops, names)
            else:
                target = self.pick(self.cell(loops), self.cell(loops), *self.scalars)
                self.assign(target, loops, names, arrays)

    # ---- parallel loops

    def schedule(self):
        return self.pick("", "", " schedule(static)", " schedule(static, 2)", " schedule(dynamic)", " schedule(dynamic, 3)", " schedule(guided)", " schedule(guided, 2)", " schedule(auto)", " schedule(runtime)")

    def own(self, loops, written):
        """Statements of an iteration that writes cells of its own."""
        v = loops[-1]
        others = [it for it in ("B", "D") if it not in written] + (["A"] if "A" not in written else [])
        names = [*self.scalars[1:]]
        x = self.fresh("x")
        self.put(f"uint64_t {x} = {self.expression(loops, names, others)};")
        names.append(x)
        for _ in range(self.pick(0, 1, 2)):
            kind = self.random.randrange(4)
            if kind == 0:
                r = self.fresh("r")
                self.put(f"for (uint64_t {r} = 0; {r} < {self.pick('3', 'N', v)}; {r}++) {{")
                self.inside(lambda: self.assign(x, [*loops, r], names, others))
                self.put("}")
            elif kind == 1:
                self.choose(loops, names, others, lambda: self.assign(x, loops, names, others))
            else:
                self.assign(x, loops, names, others)
        for array in written:
            own = f"{array}[{v}]" if array != "D" else f"D[{loops[-2] if len(loops) > 1 else v}][{v}]"
            if self.may(0.25):
                self.choose(loops, names, others, lambda own=own: self.assign(own, loops, names, others))
            else:
                self.assign(own, loops, names, others)
            if self.may(0.2):
                self.put(f"{own} += {x};")

    def update(self, operator, loops):
        e = self.expression(loops, ["u"], ["B"])
        if operator in ("min", "max"):
            sign = "<" if operator == "min" else ">"
            self.put(f"if ({e} {sign} s) s = {e};")
        elif operator in ("&&", "||"):
            self.put(f"s = s {operator} {self.pick('B[0]', 'u')};")
        elif self.may(0.5):
            self.put(f"s {operator}= {e};")
        else:
            self.put(f"s = s {operator} ({e});")

    def parallel(self, loops, names):
        self.pick(self.plain, self.plain, self.plain, self.reduced, self.scan, self.ordered, self.doacross, self.region)(loops, "parallel for")

    def plain(self, loops, directive):
        v, written = self.fresh("p"), self.pick(["A"], ["B"], ["A", "B"])
        clauses = self.schedule()
        head = self.head(v, loops if self.may(0.5) else [])
        if self.may(0.25):
            w = self.fresh("q")
            self.put(f"#pragma omp {directive} collapse(2){clauses}")
            self.put(f"{head} {{")
            self.depth += 1
            self.put(f"{self.head(w, [])} {{")
            self.inside(lambda: self.own([*loops, v, w], ["D"]))
            self.put("}")
            self.depth -= 1
            self.put("}")
            return
        if self.may(0.3):
            clauses += self.pick(" lastprivate(t)", " firstprivate(u)", " lastprivate(t) firstprivate(u)")
        self.put(f"#pragma omp {directive}{clauses}")
        self.put(f"{head} {{")

        def body():
            if "lastprivate" in clauses:
                self.put(f"t = {self.expression([*loops, v], [], [])};")
            self.own([*loops, v], written)

        self.inside(body)
        self.put("}")

    def reduced(self, loops, directive):
        v, operator = self.fresh("p"), self.pick("+", "*", "&", "|", "^", "&&", "||", "min", "max")
        self.put(f"#pragma omp {directive} reduction({operator}: s){self.schedule()}")
        self.put(f"{self.head(v, [])} {{")

        def body():
            if self.may(0.4):
                self.put(f"A[{v}] = {self.expression([v], ['u'], ['B'])};")
            if self.may(0.3):
                self.choose([v], ["u"], ["B"], lambda: self.update(operator, [*loops, v]))
            else:
                self.update(operator, [*loops, v])

        self.inside(body)
        self.put("}")

    def scan(self, loops, directive):
        v, kind, operator = self.fresh("p"), self.pick("inclusive", "exclusive"), self.pick("+", "*", "^", "max", "&", "|")
        self.put(f"#pragma omp {directive} reduction(inscan, {operator}: s)")
        self.put(f"{self.head(v, [])} {{")

        def body():
            phases = [lambda: self.update(operator, [*loops, v]), lambda: self.put(f"A[{v}] = s {self.pick('+', '^')} {self.leaf([v], ['u'], [])};")]
            first, second = phases if kind == "inclusive" else phases[::-1]
            first()
            self.put(f"#pragma omp scan {kind}(s)")
            second()

        self.inside(body)
        self.put("}")

    def ordered(self, loops, directive):
        v = self.fresh("p")
        self.put(f"#pragma omp {directive} ordered{self.schedule()}")
        self.put(f"{self.head(v, [])} {{")

        def body():
            self.own([v], ["A"])
            if self.may(0.3):
                self.put(f"if ({self.condition([v], ['u'], ['B'])}) {{")
                self.depth += 1
            self.put("#pragma omp ordered")
            self.put(f'printf("%" PRIu64 " %" PRIu64 "\\n", {v}, A[{v}]);')
            if self.lines[-3].lstrip().startswith("if ("):
                self.depth -= 1
                self.put("}")

        self.inside(body)
        self.put("}")

    def doacross(self, loops, directive):
        v, w = self.fresh("p"), self.fresh("q")
        sinks = self.random.sample([(1, 0), (0, 1), (1, 1), (2, 0), (1, -1), (0, 2), (3, 1)], self.pick(1, 2, 3))
        self.put(f"#pragma omp {directive} ordered(2){self.schedule()}")
        self.put(f"for (uint64_t {v} = 3; {v} < N + 3; {v}++) {{")
        self.depth += 1
        self.put(f"for (uint64_t {w} = 3; {w} < {self.pick('N + 2', 'N + 3', 4)}; {w}++) {{")

        def place(name, by):
            return f"{name} - {by}" if by > 0 else f"{name} + {-by}" if by < 0 else name

        def body():
            for a, b in sinks:
                self.put(f"#pragma omp ordered doacross(sink: {place(v, a).replace(' ', '')}, {place(w, b).replace(' ', '')})")
            read = [f"D[{place(v, a)}][{place(w, b)}]" for a, b in self.random.sample(sinks, self.random.randrange(1, len(sinks) + 1))]
            if self.may(0.3):
                self.put(f"for (uint64_t r = 0; r < {self.pick(2, 40)}; r++) {{")
                self.put(f"    D[{v}][{w}] {self.pick('+', '^')}= {' + '.join(read)} + r;")
                self.put("}")
            else:
                self.put(f"D[{v}][{w}] {self.pick('', '+', '^')}= {' ^ '.join(read)} + {self.leaf([v, w], ['u'], ['B'])};")
            self.put("#pragma omp ordered doacross(source:)")

        self.inside(body)
        self.put("}")
        self.depth -= 1
        self.put("}")

    def region(self, loops, _directive):
        self.put(f"#pragma omp parallel{self.pick('', ' firstprivate(u)', ' default(shared)')}")
        self.put("{")
        self.depth += 1
        for _ in range(self.pick(1, 2, 3)):
            self.pick(self.plain, self.reduced, self.scan, self.ordered, self.doacross)(loops, self.pick("for", "for", "for nowait"))
        self.depth -= 1
        self.put("}")

    def text(self):
        room = self.extent + 8
        tops = ["#include <stdint.h>", "#include <inttypes.h>", "#include <stdio.h>", "", f"enum {{ N = {self.extent}, LESS = 1 }};"]
        tops += [f"uint64_t A[{room}];", f"uint64_t B[{room}];", f"uint64_t D[{room}][{room}];", "uint64_t s;", "uint64_t t;", "uint64_t u;", "", "void kernel(void)", "{"]
        for _ in range(self.pick(1, 2, 3)):
            self.serial([], [], 3)
            if self.may(0.7):
                self.parallel([], [])
        return "\n".join([*tops, *self.lines, "}", ""])

    def input(self):
        room, number = self.extent + 8, lambda: self.pick(0, 1, 2, 5, 100, 2**63, 2**64 - 1, self.random.randrange(2**64))
        rows = [("A", room), ("B", room), ("D", room * room), ("s", 1), ("u", 1)]
        return "".join(f"{name} {' '.join(str(number()) for _ in range(count))}\n" for name, count in rows if self.may(0.8))


def mutant(text, chance):
    """The text with a word or a line taken away, exchanged, doubled or moved."""
    lines = text.split("\n")
    first = lines.index("{")
    at = chance.randrange(first, len(lines) - 2)
    kind = chance.randrange(5)
    if kind == 0:
        del lines[at]
    elif kind == 1:
        lines.insert(chance.randrange(first + 1, len(lines) - 2), lines[at])
    else:
        words = re.findall(r"\w+|\W", lines[at])
        pool = re.findall(r"\w+", text) + ["+", "-", "*", "<", "(", ")", "[", "]", ";", "=", "1", "0", "A", "s", "4294967296ull", "9999999"]
        if words:
            where = chance.randrange(len(words))
            words[where : where + (kind != 4)] = [] if kind == 2 else [chance.choice(pool)]
        lines[at] = "".join(words)
    return "\n".join(lines)


def told(command, *words):
    ran = subprocess.run([*command, *map(str, words)], capture_output=True, errors="replace")
    return ran.returncode, ran.stdout, ran.stderr


class Judge:
    def __init__(self, options, room, kept):
        self.program, self.beside = [options.program], shlex.split(options.beside or "")
        self.room, self.kept = room, kept
        self.counts, self.differ = collections.Counter(), 0

    def fault(self, name, text, what):
        self.differ += 1
        (self.kept / f"{name}.c").write_text(text)
        print(f"{name}: {what}", flush=True)

    def check(self, name, text):
        """Whether a text is accepted, once both programs have said the same of it."""
        file = self.room / "kernel.c"
        file.write_text(text)
        status, _, said = told(self.program, "check", file)
        self.counts[said[:3] or "accepted"] += 1
        if status not in (0, 3):
            self.fault(name, text, f"check answers {status}: {said.strip()}")
        if self.beside:
            other = told(self.beside, "check", file)
            if (other[0], other[2]) != (status, said):
                self.fault(name, text, f"check says {said.strip()!r}, beside it {other[2].strip()!r}")
            elif status == 0 and told(self.program, "lower", file)[:2] != told(self.beside, "lower", file)[:2]:
                self.fault(name, text, "lower lists something else")
        return status == 0

    def run(self, name, text, given, chance):
        """Whether an accepted text writes what its C program writes."""
        file, values = self.room / "kernel.c", self.room / "kernel.in"
        values.write_text(given)
        wanted = compiled(self.room, DIRECTIVE.sub("", text), given).decode()
        ways = [["seq"], *(["run", "--workers", str(it), "--schedule", chance.choice(SCHEDULES)] for it in WORKERS)]
        for command, *options in ways:
            ran = told(["timeout", str(LONG), *self.program], command, file, "--input", values, *options)
            if ran[0] or ran[1] != wanted:
                self.fault(name, text, f"other bytes by {' '.join([command, *options])}: status {ran[0]} {ran[2].strip()[:80]}")
                (self.kept / f"{name}.in").write_text(given)


def counted(judge):
    """How many texts were told what, and how many differ."""
    numbers = ", ".join(f"{what} {count}" for what, count in sorted(judge.counts.items()))
    return f"{numbers}; {judge.differ} differ" + (f", kept in {judge.kept}" if judge.differ else "")


def main():
    parser = argparse.ArgumentParser()
    parser.add_argument("--program", default=str(TOP / "crates/ompk_cli/out/ompk_cli"))
    parser.add_argument("--beside")
    parser.add_argument("--mutants", type=int, default=0)
    parser.add_argument("first", type=int)
    parser.add_argument("count", type=int)
    options = parser.parse_args()
    kept = pathlib.Path(tempfile.mkdtemp(prefix="random-kernels-"))
    with tempfile.TemporaryDirectory() as folder:
        judge = Judge(options, pathlib.Path(folder), kept)
        for seed in range(options.first, options.first + options.count):
            maker = Maker(seed)
            text, chance = maker.text(), random.Random(-seed - 1)
            if judge.check(str(seed), text):
                judge.run(str(seed), text, maker.input(), chance)
            for number in range(options.mutants):
                judge.check(f"{seed}-{number}", mutant(text, chance))
    print(counted(judge))
    return 1 if judge.differ else 0


if __name__ == "__main__":
    sys.exit(main())
