"""The toolchain's command `rt` as a module, for scripts that need more than its commands give."""
import fcntl
import importlib.machinery
import importlib.util
import os
import shutil
import sys
import threading

TOP = os.path.dirname(os.path.dirname(os.path.abspath(__file__)))


def load():
    """The module; the script ends where there is no `rt` on the path."""
    found = shutil.which("rt")
    if not found:
        sys.exit("there is no command rt on the path")
    path = os.path.realpath(found)
    loader = importlib.machinery.SourceFileLoader("rt", path)
    module = importlib.util.module_from_spec(importlib.util.spec_from_loader("rt", loader))
    loader.exec_module(module)
    return module


def state_of_sources():
    """The newest change of a crate's file, and how many files there are."""
    newest = count = 0
    for folder, inner, files in os.walk(f"{TOP}/crates"):
        inner[:] = [it for it in inner if it != "out"]
        count += len(files)
        newest = max([newest, *(os.stat(f"{folder}/{it}").st_mtime_ns for it in files)])
    return newest, count


def list_once(rtlib):
    """Lets the crates below each crate be listed once, and not once for each way down to them."""
    kept, make = {}, rtlib.Crate.below

    def below(crate):
        if crate.folder not in kept:
            kept[crate.folder] = make(crate)
        return list(kept[crate.folder])

    rtlib.Crate.below = below


def sum_once(rtlib):
    """Lets each crate's sum of sources be made once as long as no file changes, and not once for each way down to it."""
    list_once(rtlib)
    kept, make, lock = {}, rtlib.Crate.stamp, threading.RLock()
    state, depth = None, 0

    def stamp(crate):
        nonlocal state, depth
        with lock:
            if depth == 0 and state != (now := state_of_sources()):
                kept.clear()
                state = now
            if crate.name not in kept:
                depth += 1
                try:
                    kept[crate.name] = make(crate)
                finally:
                    depth -= 1
            return kept[crate.name]

    rtlib.Crate.stamp = stamp


def share_built(rtlib):
    """Lets checks of different crates run at once: of a library below no more than a shared lock is held once it is built."""
    kept, build = {}, rtlib.Crate.build_rlib

    def lock(crates):
        """Waits until no other rt works in the last crate's folder, nor in those of libraries that are still to be built."""
        for crate in crates:
            folder = os.path.realpath(crate.folder)
            if folder not in kept:
                kept[folder] = os.open(folder, os.O_RDONLY)
                fcntl.flock(kept[folder], fcntl.LOCK_SH if crate is not crates[-1] and crate.is_built() else fcntl.LOCK_EX)
        return list(kept.values())

    def build_rlib(crate, flags, anew):
        status = build(crate, flags, anew)
        folder = os.path.realpath(crate.folder)
        if status == 0 and folder in kept:
            fcntl.flock(kept[folder], fcntl.LOCK_SH)
        return status

    rtlib.lock, rtlib.Crate.build_rlib = lock, build_rlib


def count_memory(rt):
    """Lets rt ci run as many checks at once as memory holds. It counts for a check what the libraries below would take with their proofs, of
    which it loads the statements alone: checks were seen to take two thirds of what it counts at most, and those of high crates a third."""
    count = rt.need
    rt.need = lambda crate: count(crate) * 2 // 3
