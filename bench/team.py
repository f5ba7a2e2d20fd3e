#!/usr/bin/env python3
"""Times teams: parallel loops by `ompk run` with 1, 2 and 4 workers, beside the same loops by one thread and by `gcc -O2 -fopenmp`.

    python3 bench/team.py [PROGRAM [PART..] [KERNEL..]]     the program as it is proved here, or another one; all parts, or these: `whole`,
                                                            `alone`, `ones`, `turns` and `waves`; all kernels, or these

A line for each kernel: seconds from start to end (the median of five rounds, in each of which all programs run in turn), of its parallel
loops by so many workers, of the same text without its directive lines, and of gcc with as many threads. Then a line for each with its loops
alone, in milliseconds: the kernel's body many times and once, and the difference by how often more, so that starting and writing count for
nothing (the least of five rounds of the one less the least of the other, since what else the machine does only adds), and of ten everyday
kernels the geometric mean of the ratios to gcc. What programs print is kept in memory where the machine has a folder for that. Then chunks of one iteration: nanoseconds
for each, and bytes of memory for each beside the store, of a million chunks and of 2^24. Then a loop of 8 iterations inside 10,000 turns of a
serial loop: microseconds a turn, also by more workers than there are processors. Then 100,000 waves of one, two and four iterations with a loop
in each: microseconds that a wave takes beside its work, which is what one thread takes for the text without its directive lines. Every program
has to print the same. The machine should be idle. The status is 1 where a target is missed. Of the loops alone: by one worker at most 1.5 times
the time of the text without directive lines, of a scan 2.2 times; of a scan and of a doacross nest of light iterations at most the time of gcc; on four
processors at least 2.5 times the speed by 4 workers of a hash and a product, a scan faster by 4 than by one, and of the everyday kernels by 4 a
mean of at most 1.5. A chunk of one iteration below 500 ns, and at most 64 bytes for it beside the 16 of its write; and on four processors at most
3 us a turn by 4, and 2 us a wave.
"""
import math
import os
import pathlib
import re
import resource
import statistics
import subprocess
import sys
import tempfile
import time

TOP = pathlib.Path(__file__).resolve().parent.parent
PROGRAM = TOP / "crates/ompk_cli/out/ompk_cli"
ROUNDS = 5
TEAMS = (1, 2, 4)
CHUNK = 500
HELD = 64 + 16
FASTER = 2.5
SLOWER = 1.5
SCAN_SLOWER = 2.2
ALONE_ROUNDS = 5
TURN = 3
WAVE = 2
MEAN = 1.5
WAVES = 100000
MEMORY = pathlib.Path("/dev/shm")
PARTS = ("whole", "alone", "ones", "turns", "waves")
TIMED = "    /* timed from here on */\n"
# what prints the arrays of gcc's programs, faster than printf
PRINTING = """
static char line[1 << 16];
static size_t used;
static void put(char c)
{
    if (used == sizeof line) { fwrite(line, 1, used, stdout); used = 0; }
    line[used++] = c;
}
static void put_array(const char *name, const uint64_t *numbers, size_t count)
{
    while (*name) put(*name++);
    put(' ');
    put('=');
    for (size_t i = 0; i < count; i++) {
        char digits[20];
        size_t many = 0;
        uint64_t n = numbers[i];
        do { digits[many++] = '0' + n % 10; n /= 10; } while (n);
        put(' ');
        while (many) put(digits[--many]);
    }
    put('\\n');
}
"""

HASH = """uint64_t A[1000000];

void kernel(void)
{
    #pragma omp parallel for schedule(static)
    for (uint64_t i = 0; i < 1000000; i++) {
        uint64_t x = i + 88172645;
        for (uint64_t r = 0; r < 64; r++) {
            x ^= x << 13;
            x ^= x >> 7;
            x ^= x << 17;
        }
        A[i] = x;
    }
}
"""
PRODUCT = """uint64_t A[256][256];
uint64_t B[256][256];
uint64_t C[256][256];

void kernel(void)
{
    #pragma omp parallel for collapse(2)
    for (uint64_t i = 0; i < 256; i++) {
        for (uint64_t j = 0; j < 256; j++) {
            A[i][j] = i + j;
            B[i][j] = 3 * i + j;
        }
    }
    #pragma omp parallel for schedule(dynamic, 4)
    for (uint64_t i = 0; i < 256; i++) {
        for (uint64_t k = 0; k < 256; k++) {
            for (uint64_t j = 0; j < 256; j++) {
                C[i][j] += A[i][k] * B[k][j];
            }
        }
    }
}
"""
MAP = """uint64_t A[4000000];

void kernel(void)
{
    #pragma omp parallel for schedule(static)
    for (uint64_t i = 0; i < 4000000; i++) {
        A[i] = A[i] * 3 + i;
    }
}
"""
STENCIL = """uint64_t A[2000][2000];
uint64_t B[2000][2000];

void kernel(void)
{
    for (uint64_t i = 0; i < 2000; i++) {
        for (uint64_t j = 0; j < 2000; j++) {
            A[i][j] = i * 31 + j * 17 & 255;
        }
    }
    /* timed from here on */
    #pragma omp parallel for schedule(static)
    for (uint64_t i = 1; i < 1999; i++) {
        for (uint64_t j = 1; j < 1999; j++) {
            B[i][j] = A[i][j] + A[i-1][j] + A[i+1][j] + A[i][j-1] + A[i][j+1];
        }
    }
    #pragma omp parallel for schedule(static)
    for (uint64_t i = 1; i < 1999; i++) {
        for (uint64_t j = 1; j < 1999; j++) {
            A[i][j] = B[i][j] >> 2;
        }
    }
}
"""
QUOTIENT = """uint64_t A[1000][1000];
uint64_t B[1000][1000];

void kernel(void)
{
    for (uint64_t i = 0; i < 1000; i++) {
        for (uint64_t j = 0; j < 1000; j++) {
            A[i][j] = i * 7000 + j * 91;
        }
    }
    /* timed from here on */
    #pragma omp parallel for schedule(static)
    for (uint64_t i = 1; i < 999; i++) {
        for (uint64_t j = 1; j < 999; j++) {
            B[i][j] = (A[i][j] + A[i-1][j] + A[i+1][j] + A[i][j-1] + A[i][j+1]) / 5;
        }
    }
    #pragma omp parallel for schedule(static)
    for (uint64_t i = 1; i < 999; i++) {
        for (uint64_t j = 1; j < 999; j++) {
            A[i][j] = (B[i][j] + B[i-1][j] + B[i+1][j] + B[i][j-1] + B[i][j+1]) / 5;
        }
    }
}
"""
TRIAD = """uint64_t A[1000000];
uint64_t B[1000000];
uint64_t C[1000000];
uint64_t c;

void kernel(void)
{
    c = 3;
    for (uint64_t i = 0; i < 1000000; i++) {
        A[i] = 1;
        B[i] = i * 7 + 1;
        C[i] = i * 13 + 5;
    }
    /* timed from here on */
    c += 2;
    #pragma omp parallel for schedule(static)
    for (uint64_t i = 0; i < 1000000; i++) {
        A[i] = B[i] + C[i] * c;
    }
}
"""
TRIANGLE = """uint64_t A[400][400];
uint64_t B[400][400];
uint64_t C[400][400];

void kernel(void)
{
    for (uint64_t i = 0; i < 400; i++) {
        for (uint64_t j = 0; j < 400; j++) {
            A[i][j] = i + j;
            B[i][j] = 3 * i + j;
        }
    }
    /* timed from here on */
    #pragma omp parallel for schedule(dynamic, 4)
    for (uint64_t i = 0; i < 400; i++) {
        for (uint64_t j = 0; j < i; j++) {
            uint64_t s = C[i][j];
            for (uint64_t k = j; k < i; k++) {
                s += A[i][k] * B[j][k];
            }
            C[i][j] = s;
        }
    }
}
"""
COLLATZ = """uint64_t A[1000000];

void kernel(void)
{
    for (uint64_t i = 0; i < 1000000; i++) {
        A[i] = i * 6364136223846793005ull + 1442695040888963407ull >> 1;
        A[i] ^= A[i] >> 31;
    }
    /* timed from here on */
    #pragma omp parallel for schedule(static)
    for (uint64_t i = 0; i < 1000000; i++) {
        if ((A[i] & 1) == 1) A[i] = 3 * A[i] + 1;
        else A[i] = A[i] >> 1;
    }
}
"""
FOLDS = """uint64_t A[4000000];
uint64_t s;
uint64_t low;
uint64_t high;

void kernel(void)
{
    for (uint64_t i = 0; i < 4000000; i++) {
        A[i] = i * 6364136223846793005ull + 1442695040888963407ull >> 1;
        A[i] ^= A[i] >> 31;
    }
    low = A[0];
    /* timed from here on */
    A[7] += s;
    #pragma omp parallel for reduction(+: s) reduction(min: low) reduction(max: high)
    for (uint64_t i = 0; i < 4000000; i++) {
        s += A[i];
        if (A[i] < low) low = A[i];
        if (A[i] > high) high = A[i];
    }
}
"""
# an inner loop that changes a local, and is too long to be written out
POLYNOMIAL = """uint64_t X[100000];
uint64_t C[300];
uint64_t Y[100000];

void kernel(void)
{
    for (uint64_t i = 0; i < 100000; i++) {
        X[i] = i * 777 ^ 5;
    }
    for (uint64_t k = 0; k < 300; k++) {
        C[k] = 7 * k + 3;
    }
    /* timed from here on */
    #pragma omp parallel for schedule(static)
    for (uint64_t i = 0; i < 100000; i++) {
        uint64_t y = 0;
        for (uint64_t k = 0; k < 300; k++) {
            y = y * X[i] + C[k];
        }
        Y[i] = y;
    }
}
"""
# places that fall, so that the loop is run in chunks
ONES = """uint64_t A[1000000];

void kernel(void)
{
    #pragma omp parallel for schedule(dynamic, 1)
    for (uint64_t i = 0; i < 1000000; i++) {
        A[1000000 - 1 - i] = A[1000000 - 1 - i] * 3 + i;
    }
}
"""
TURNS = """uint64_t A[8];

void kernel(void)
{
    for (uint64_t t = 0; t < 10000; t++) {
        #pragma omp parallel for
        for (uint64_t i = 0; i < 8; i++) {
            A[i] = A[i] * 3 + i + t;
        }
    }
}
"""
# elements that nobody wrote lie in one page for all, which gcc's programs would read from the nearest cache
REDUCED = """uint64_t A[16000000];
uint64_t s;

void kernel(void)
{
    for (uint64_t i = 0; i < 16000000; i++) {
        A[i] = i & 7;
    }
    /* timed from here on */
    #pragma omp parallel for reduction(OPERATOR: s)
    for (uint64_t i = 0; i < 16000000; i++) {
        UPDATE
    }
}
"""
LOCAL = """uint64_t A[1000000];
uint64_t r;

void kernel(void)
{
    for (uint64_t i = 0; i < 1000000; i++) {
        A[i] = i & 7;
    }
    /* timed from here on */
    uint64_t s = 0;
    #pragma omp parallel for reduction(+: s)
    for (uint64_t i = 0; i < 1000000; i++) {
        s += A[i] * (i + 1);
    }
    r += s;
}
"""
PREFIX = """uint64_t A[4000000];
uint64_t s;

void kernel(void)
{
    #pragma omp parallel for reduction(inscan, +: s)
    for (uint64_t i = 0; i < 4000000; i++) {
        s += i * 3 ^ 5;
        #pragma omp scan inclusive(s)
        A[i] = s;
    }
}
"""

TOTALS = """uint64_t A[4000000];
uint64_t B[4000000];
uint64_t s;

void kernel(void)
{
    for (uint64_t i = 0; i < 4000000; i++) {
        A[i] = i * 3 ^ 5;
    }
    /* timed from here on */
    #pragma omp parallel for reduction(inscan, +: s)
    for (uint64_t i = 0; i < 4000000; i++) {
        s += A[i];
        #pragma omp scan inclusive(s)
        B[i] = s;
    }
}
"""

DISTANCE = """uint64_t D[1001][1001];

void kernel(void)
{
    uint64_t best;

    for (uint64_t i = 0; i < 1001; i++) {
        D[i][0] = i;
        D[0][i] = i;
    }
    #pragma omp parallel for ordered(2) private(best)
    for (uint64_t i = 1; i < 1001; i++) {
        for (uint64_t j = 1; j < 1001; j++) {
            #pragma omp ordered doacross(sink: i-1, j-1)
            #pragma omp ordered doacross(sink: i-1, j)
            #pragma omp ordered doacross(sink: i, j-1)
            best = D[i-1][j-1] + (i * 7 % 4 != j * 5 % 4 ? 1 : 0);
            if (D[i-1][j] + 1 < best) best = D[i-1][j] + 1;
            if (D[i][j-1] + 1 < best) best = D[i][j-1] + 1;
            D[i][j] = best;
            #pragma omp ordered doacross(source:)
        }
    }
}
"""
SWEEP = """uint64_t G[1002][1002];

void kernel(void)
{
    for (uint64_t i = 0; i < 1002; i++) {
        for (uint64_t j = 0; j < 1002; j++) {
            G[i][j] = i * 31 + j * 17 & 255;
        }
    }
    #pragma omp parallel for ordered(2)
    for (uint64_t i = 1; i < 1001; i++) {
        for (uint64_t j = 1; j < 1001; j++) {
            #pragma omp ordered doacross(sink: i-1, j)
            #pragma omp ordered doacross(sink: i, j-1)
            G[i][j] = (G[i-1][j] + G[i][j-1] + G[i+1][j] + G[i][j+1]) / 4;
            #pragma omp ordered doacross(source:)
        }
    }
}
"""
RELAX = """uint64_t G[302][302];

void kernel(void)
{
    uint64_t x;

    #pragma omp parallel for ordered(2) private(x)
    for (uint64_t i = 1; i < 301; i++) {
        for (uint64_t j = 1; j < 301; j++) {
            #pragma omp ordered doacross(sink: i-1, j)
            #pragma omp ordered doacross(sink: i, j-1)
            x = G[i-1][j] + G[i][j-1] + G[i+1][j] + G[i][j+1] + 1;
            for (uint64_t k = 0; k < 64; k++) {
                x ^= x << 13;
                x ^= x >> 7;
                x ^= x << 17;
            }
            G[i][j] = x;
            #pragma omp ordered doacross(source:)
        }
    }
}
"""

# waves of so many iterations, one for each row but the first
IN_WAVES = """uint64_t A[ROWS][WIDTH];

void kernel(void)
{
    #pragma omp parallel for ordered(2) schedule(static)
    for (uint64_t i = 1; i < ROWS; i++) {
        for (uint64_t j = 0; j < WIDTH; j++) {
            #pragma omp ordered doacross(sink: i-1, j)
            uint64_t x = A[i-1][j] + i;
            for (uint64_t r = j; r < j + 2; r++) {
                x ^= x << 13;
                x ^= x >> 7;
            }
            A[i][j] = x;
            #pragma omp ordered doacross(source:)
        }
    }
}
"""


def reduced(operator, update):
    """A kernel that reduces 16 million elements by an operator."""
    return REDUCED.replace("OPERATOR", operator).replace("UPDATE", update)


KERNELS = {
    "hash": HASH,
    "product": PRODUCT,
    "map": MAP,
    "triad": TRIAD,
    "collatz": COLLATZ,
    "stencil": STENCIL,
    "quotient": QUOTIENT,
    "triangle": TRIANGLE,
    "polynomial": POLYNOMIAL,
    "sum": reduced("+", "s += A[i] + i;"),
    "max": reduced("max", "if ((A[i] ^ i) > s) s = (A[i] ^ i);"),
    "xor": reduced("^", "s ^= A[i] + i;"),
    "folds": FOLDS,
    "local": LOCAL,
    "prefix": PREFIX,
    "totals": TOTALS,
    "distance": DISTANCE,
    "sweep": SWEEP,
    "relax": RELAX,
}
COMPUTED = ("hash", "product")
LIGHT = ("distance", "sweep")
# ten everyday kernels, of whose ratios to gcc the mean is told
EVERYDAY = ("map", "triad", "product", "hash", "quotient", "triangle", "folds", "prefix", "distance", "collatz")

# how often the body of a kernel runs where its loops are timed alone
OFTEN = {
    "hash": 5, "product": 33, "map": 33, "triad": 65, "collatz": 33, "stencil": 17, "quotient": 33, "triangle": 17, "polynomial": 5,
    "sum": 57, "max": 57, "xor": 57, "folds": 65, "local": 513, "prefix": 129, "totals": 129, "distance": 17, "sweep": 17, "relax": 9,
}


class Runner:
    """Runs a kernel's programs in a folder, and keeps what they print."""

    def __init__(self, program, folder):
        self.program, self.folder = program, folder

    def source(self, name, text):
        """The file of a kernel, made once."""
        path = self.folder / f"{name}.c"
        path.write_text("#include <stdint.h>\n\n" + text)
        return path

    def compiled(self, name, text):
        """The program of gcc, which prints what ours does."""
        dump = "".join(f'put_array("{array}", (const uint64_t *)&{array}, sizeof {array} / 8);\n' for array in re.findall(r"^uint64_t (\w+)", text, re.M))
        # the clause `doacross` of OpenMP 5.2 is `depend` in the compilers of 5.1 and before
        text = re.sub(r"doacross\(sink: (.*)\)", r"depend(sink: \1)", text).replace("doacross(source:)", "depend(source)")
        path = self.folder / f"{name}_main.c"
        main = f"int main(void)\n{{\nkernel();\n{dump}fwrite(line, 1, used, stdout);\nreturn 0;\n}}\n"
        path.write_text(f"#include <stdint.h>\n#include <stdio.h>\n{text}{PRINTING}{main}")
        subprocess.run(["gcc", "-O2", "-fopenmp", "-o", self.folder / name, path], check=True)
        return self.folder / name

    def seconds(self, words, threads=None):
        """How long a program takes, the most memory that it has, and what it prints."""
        begun = time.perf_counter()
        env = dict(os.environ, OMP_NUM_THREADS=str(threads)) if threads else None
        with open(self.folder / "out", "wb") as out, subprocess.Popen(words, stdout=out, env=env) as it:
            _, status, used = os.wait4(it.pid, 0)
        took = time.perf_counter() - begun
        if status:
            sys.exit(f"bench: {words} ended with status {status}")
        return took, used.ru_maxrss, (self.folder / "out").read_bytes()

    def by_team(self, path, workers):
        """The same of our program with so many workers."""
        return self.seconds([self.program, "run", path, "--workers", str(workers)])


def programs_of(runner, name, text):
    """What runs a kernel, by its name: by teams, without its directive lines, and by gcc's program with so many threads."""
    path, serial = runner.source(name, text), runner.source(f"{name}_serial", re.sub(r" *#pragma.*\n", "", text))
    gcc = runner.compiled(name, text)
    programs = {f"{workers} workers": lambda workers=workers: runner.by_team(path, workers) for workers in TEAMS}
    programs["serial"] = lambda: runner.by_team(serial, 1)
    for workers in TEAMS:
        programs[f"gcc {workers}"] = lambda workers=workers: runner.seconds([gcc], workers)
    return programs


def times_of(name, programs):
    """How long each program takes; each has to print the same."""
    times, printed = {}, None
    for it, run in programs.items():
        times[it], _memory, text_out = run()
        printed = printed or text_out
        if text_out != printed:
            sys.exit(f"bench: {name}: {it} prints something else")
    return times


def medians(runner, name, text):
    """The median times of a kernel's programs."""
    programs = programs_of(runner, name, text)
    rounds = [times_of(name, programs) for _round in range(ROUNDS)]
    return {it: statistics.median(times[it] for times in rounds) for it in programs}


def repeated(text, often):
    """A kernel with its body, or what of it is to be timed, so often."""
    mark = TIMED if TIMED in text else "{\n"
    head, body = text.split(mark, 1)
    return f"{head}{mark}    for (uint64_t t = 0; t < {often}; t++) {{\n{body.rstrip()[:-1]}    }}\n}}\n"


def alone(runner, name, text):
    """The seconds of a kernel's body alone, by each of its programs."""
    often = OFTEN[name]
    many = programs_of(runner, f"{name}_often", repeated(text, often))
    once = programs_of(runner, f"{name}_once", repeated(text, 1))
    rounds = [(times_of(name, many), times_of(name, once)) for _round in range(ALONE_ROUNDS)]
    return {it: (min(longer[it] for longer, _ in rounds) - min(shorter[it] for _, shorter in rounds)) / (often - 1) for it in many}


def misses(name, text, found):
    """The targets that the loops of a kernel miss, by the times that they take alone."""
    missed = []
    one, four = found["1 workers"], found["4 workers"]
    if name in COMPUTED and os.cpu_count() >= 4 and one < FASTER * four:
        missed.append(f"{name}: 4 workers are {one / four:.1f} times as fast as one")
    if "inscan" in text and os.cpu_count() >= 4 and one < four:
        missed.append(f"{name}: 4 workers are slower than one")
    if name in LIGHT or "inscan" in text:
        missed += [f"{name}: {workers} workers are slower than gcc with as many threads" for workers in TEAMS if found[f"{workers} workers"] > found[f"gcc {workers}"]]
    if one > (SCAN_SLOWER if "inscan" in text else SLOWER) * found["serial"]:
        missed.append(f"{name}: one worker takes {one / found['serial']:.1f} times the time without directive lines")
    return missed


def chunks_of_one(runner, count):
    """Times so many chunks of one iteration, and measures what they hold; gives the targets that they miss."""
    missed = []
    text = ONES.replace("1000000", str(count))
    ones, empty = runner.source("ones", text), runner.source("none", text.replace(f"i < {count}", "i < 0"))
    for workers in TEAMS:
        took, memory, _ = runner.by_team(ones, workers)
        start, store, _ = runner.by_team(empty, workers)
        each, held = (took - start) * 1e9 / count, (memory - store) * 1024 / count
        what = f"{count} chunks of 1, {workers} workers: {each:.0f} ns and {held:.0f} bytes each"
        print(what, flush=True)
        if each >= CHUNK or held > HELD:
            missed.append(what)
    return missed


def turns_of_a_loop(runner):
    """Times a short loop inside a serial one, by more and more workers; gives the target that it misses."""
    missed = []
    turns = runner.source("turns", TURNS)
    once = runner.source("once", TURNS.replace("t < 10000", "t < 1"))
    for workers in (*TEAMS, 16, 64):
        took = statistics.median(runner.by_team(turns, workers)[0] - runner.by_team(once, workers)[0] for _round in range(ROUNDS))
        each = took * 1e6 / 9999
        print(f"8 iterations inside a turn, {workers} workers: {each:.1f} us a turn", flush=True)
        if workers == 4 <= os.cpu_count() and each > TURN:
            missed.append(f"a turn, 4 workers: {each:.1f} us")
    return missed


def small_waves(runner):
    """Times waves of few iterations; gives the targets that they miss."""
    missed = []
    for width in (1, 2, 4):
        text = IN_WAVES.replace("ROWS", str(WAVES + 1)).replace("WIDTH", str(width))
        waves, serial = runner.source("waves", text), runner.source("waves_serial", re.sub(r" *#pragma.*\n", "", text))
        for workers in TEAMS[1:]:
            took = [runner.by_team(waves, workers)[0] - runner.by_team(serial, 1)[0] for _round in range(ROUNDS)]
            each, least = statistics.median(took) * 1e6 / WAVES, min(took) * 1e6 / WAVES
            print(f"waves of {width}, {workers} workers: {each:.2f} us each, {least:.2f} at best", flush=True)
            if workers <= os.cpu_count() and each > WAVE:
                missed.append(f"a wave of {width}, {workers} workers: {each:.2f} us")
    return missed


def whole(runner, kernels):
    """Prints how long the kernels take from start to end."""
    for kernel in kernels:
        found = medians(runner, kernel, KERNELS[kernel])
        print(f"{kernel:10}" + "".join(f"{it:11.3f}" for it in found.values()), flush=True)


def loops_alone(runner, kernels):
    """Prints how long the loops of the kernels take, and the mean of the everyday ones' ratios to gcc; gives the targets that they miss."""
    missed, ratios = [], {workers: [] for workers in TEAMS}
    for kernel in kernels:
        found = alone(runner, kernel, KERNELS[kernel])
        print(f"{kernel:10}" + "".join(f"{1e3 * it:11.2f}" for it in found.values()), flush=True)
        missed += misses(kernel, KERNELS[kernel], found)
        if kernel in EVERYDAY:
            for workers in TEAMS:
                ratios[workers].append(found[f"{workers} workers"] / found[f"gcc {workers}"])
    told = [it for of_team in ratios.values() for it in of_team]
    if set(EVERYDAY) <= set(kernels) and min(told) <= 0:
        print("mean ratio: none, since rounds of a kernel differ by more than its loops take", flush=True)
    elif set(EVERYDAY) <= set(kernels):
        means = {workers: math.exp(statistics.fmean(map(math.log, of_team))) for workers, of_team in ratios.items()}
        print(f"{'mean ratio':10}" + "".join(f"{mean:11.2f}" for mean in means.values()), flush=True)
        if os.cpu_count() >= 4 and means[4] > MEAN:
            missed.append(f"everyday kernels by 4 workers take {means[4]:.2f} times the time of gcc")
    return missed


def main(program, parts, kernels):
    missed = []
    with tempfile.TemporaryDirectory(dir=MEMORY if MEMORY.is_dir() else None) as name:
        runner = Runner(program, pathlib.Path(name))
        columns = "".join(f"{it:>11}" for it in [*(f"{w} workers" for w in TEAMS), "serial", *(f"gcc {w}" for w in TEAMS)])
        if "whole" in parts:
            print(f"{'seconds':10}{columns}")
            whole(runner, kernels)
        if "alone" in parts:
            print(f"{'ms alone':10}{columns}")
            missed += loops_alone(runner, kernels)
        if "ones" in parts:
            for count in (1000000, 1 << 24):
                missed += chunks_of_one(runner, count)
        if "turns" in parts:
            missed += turns_of_a_loop(runner)
        if "waves" in parts:
            missed += small_waves(runner)
    for it in missed:
        print(f"missed: {it}")
    return 1 if missed else 0


if __name__ == "__main__":
    resource.setrlimit(resource.RLIMIT_CORE, (0, 0))
    words = sys.argv[2:]
    if not set(words) <= {*PARTS, *KERNELS}:
        sys.exit(__doc__)
    chosen = [word for word in words if word in PARTS] or PARTS
    timed = [word for word in words if word in KERNELS] or list(KERNELS)
    sys.exit(main(pathlib.Path(sys.argv[1]) if len(sys.argv) > 1 else PROGRAM, chosen, timed))
