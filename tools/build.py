#!/usr/bin/env python3
"""Proves and builds a program and the libraries that it stands on, with all processors; a line for each that is done.

    python3 tools/build.py PROGRAM

A library that is there and of these sources is left as it is, so that a build that was stopped goes on where it was. The
libraries with the longest chain of others behind them come first, and one that no other runs beside gets more processors than
one, as the program does at the end. The program is compiled for the processor at hand, and run with --help as soon as it is there, which
writes to standard output. The status is 0 where all are there, and of one state of the sources.
"""
import copy
import os
import sys
import tempfile
import threading
import time

sys.dont_write_bytecode = True

import kit


# What a processor of the level x86-64-v3 has beside that of x86-64-v2, in the words of /proc/cpuinfo.
LEVEL_3 = {"avx", "avx2", "bmi1", "bmi2", "f16c", "fma", "abm", "movbe", "xsave"}


def processor():
    """The flag that has the program compiled for this processor's level of instructions; none where the compiler's own is as good. Rows of 256
    bits make lanes up to twice as fast."""
    try:
        with open("/proc/cpuinfo", encoding="utf-8") as it:
            found = next((set(line.partition(":")[2].split()) for line in it if line.startswith("flags")), set())
    except OSError:
        found = set()
    return ["--cpu=x86-64-v3"] if LEVEL_3 <= found else []


def build(crate, flags):
    """Whether a library, or a program, is there in the end."""
    if not crate.is_program:
        return crate.build_rlib(flags, anew=False) == 0
    os.makedirs(f"{crate.folder}/out", exist_ok=True)
    sources = crate.stamp()
    if crate.run([*flags, *processor()], ["--help"]):
        return False
    if crate.stamp() == sources and all(it.is_built() for it in crate.below()):
        return True
    print("build: a source has changed meanwhile; run it again", file=crate.out)
    return False


def main(program):
    os.chdir(kit.TOP)
    rt = kit.load()
    rt.rtlib.guarded()
    # some kits take a library that another checkout on this machine built of the same sources from there
    if hasattr(rt, "share_work"):
        rt.share_work(is_alone=True)
    kit.sum_once(rt.rtlib)
    found = [it for it in rt.rtlib.crates_below(kit.TOP) if it.name == program]
    if not found:
        sys.exit(f"build: crates.txt names no crate {program}")
    rt.read_files(found[0])
    crates = [*found[0].below(), found[0]]
    held = rt.rtlib.lock(crates)
    begun, printing, done = time.time(), threading.Lock(), []

    def make(crate, given, jobs):
        """Whether a crate is there in the end."""
        if not all(given[it.name] for it in crate.below()):
            return False
        crate = copy.copy(crate)
        crate.held = held if crate.is_program else []
        with tempfile.TemporaryFile("w+", errors="replace") as crate.out:
            is_made = build(crate, ["--jobs", str(jobs)])
            crate.out.seek(0)
            with printing:
                done.append(crate.name)
                what = "done" if is_made else "NOT PROVED"
                minutes = (time.time() - begun) / 60
                print(f"ompk: {crate.name} is {what}, {len(crates) - len(done)} of {len(crates)} left, {minutes:.0f} min", file=sys.stderr, flush=True)
                if not is_made:
                    print(crate.out.read(), file=sys.stderr, flush=True)
        return is_made

    tasks = {it.name: ([dep.name for dep in it.below()], it.count(rb"\n"), rt.need(it), lambda given, jobs, it=it: make(it, given, jobs)) for it in crates}
    return 0 if all(rt.in_lanes(tasks).values()) else 1


if __name__ == "__main__":
    if len(sys.argv) != 2:
        sys.exit(__doc__)
    sys.exit(main(sys.argv[1]))
