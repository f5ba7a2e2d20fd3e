#!/usr/bin/env python3
"""Where the time of proofs goes.

    python3 bench/gate.py watch PID           what the checks below the process PID cost, printed when that process has
                                              ended or this one is asked to end: by kind, and by crate. Looked at twice a
                                              second, so that some of each check is missed; the last line has all that ended
    python3 bench/gate.py functions CRATE..   what each function of these crates takes from nothing, by one job over built
                                              libraries, tests included: the fifteen dearest. The first has the start of the check
"""
import collections
import os
import re
import resource
import signal
import subprocess
import sys
import tempfile
import time

TOP = os.path.dirname(os.path.dirname(os.path.abspath(__file__)))
sys.path.insert(0, os.path.join(TOP, "tools"))
sys.dont_write_bytecode = True

import kit

TICK = os.sysconf("SC_CLK_TCK")
KINDS = ("proofs", "tests", "edits")


def processes():
    """The parent, the name and the processor seconds of each process."""
    found = {}
    for pid in filter(str.isdigit, os.listdir("/proc")):
        try:
            with open(f"/proc/{pid}/stat", encoding="utf-8", errors="replace") as it:
                text = it.read()
        except OSError:
            continue
        words = text.rpartition(")")[2].split()
        name = text[text.find("(") + 1 : text.rfind(")")]
        found[int(pid)] = int(words[1]), name, (int(words[11]) + int(words[12])) / TICK
    return found


def seconds_of_ended(pid):
    """The processor seconds of all below a process that has ended."""
    try:
        with open(f"/proc/{pid}/stat", encoding="utf-8", errors="replace") as it:
            words = it.read().rpartition(")")[2].split()
    except OSError:
        return 0.0
    return (int(words[13]) + int(words[14])) / TICK


def is_below(pid, top, found):
    while pid in found and pid != top:
        pid = found[pid][0]
    return pid == top


def task_of(pid):
    """The crate that a check is of, and its kind; or None."""
    try:
        with open(f"/proc/{pid}/cmdline", "rb") as it:
            words = it.read().decode(errors="replace").split("\0")
        folder = os.readlink(f"/proc/{pid}/cwd")
    except OSError:
        return None
    if "--crate-name" not in words:
        return None
    crate = words[words.index("--crate-name") + 1]
    if "--test" in words:
        return crate, "tests"
    return crate, "edits" if "rt-edit-" in folder else "proofs"


def watch(top):
    """Adds up what the checks below a process cost until it ends, or this one is told to end."""
    signal.signal(signal.SIGTERM, lambda *_: sys.exit(0))
    tasks, spent, ended = {}, collections.Counter(), 0.0
    try:
        while os.path.isdir(f"/proc/{top}"):
            ended = max(ended, seconds_of_ended(top))
            found = processes()
            for pid, (_, name, seconds) in found.items():
                if name != "rattle" or not is_below(pid, top, found):
                    continue
                if not tasks.get(pid):
                    tasks[pid] = task_of(pid)
                if tasks[pid]:
                    spent[pid] = max(spent[pid], seconds)
            time.sleep(0.5)
    finally:
        tell(tasks, spent, max(ended, seconds_of_ended(top)))


def tell(tasks, spent, ended):
    """A line for each crate, the dearest first, and their sum; and what all cost that ended, checks and scripts."""
    table = collections.defaultdict(collections.Counter)
    for pid, seconds in spent.items():
        crate, kind = tasks[pid]
        table[crate][kind] += seconds
    print(f"{'processor seconds':20}" + "".join(f"{it:>9}" for it in KINDS) + f"{'sum':>9}")
    rows = sorted(table.items(), key=lambda it: -sum(it[1].values()))
    for crate, cost in rows:
        print(f"{crate:20}" + "".join(f"{cost[it]:9.0f}" for it in KINDS) + f"{sum(cost.values()):9.0f}")
    whole = [sum(cost[it] for _, cost in rows) for it in KINDS]
    print(f"{'all crates':20}" + "".join(f"{it:9.0f}" for it in whole) + f"{sum(whole):9.0f}")
    print(f"{'all that ended':20}{ended:36.0f}", flush=True)


def function_of(crate, module):
    """The function whose proof a kept module is a part of, or the module itself."""
    found = re.match(rf"Rattle-{crate}-proofs\.(.*?)\.(?:Lts|Proof|Tie|Goals|Answers|Given|Kinds|Symbol|TheLinks|Body|Calls|Key|Invariants)\b", module)
    return found[1] if found else module


def functions(names):
    """Checks each crate from nothing by one job, and tells from the times at which its modules are kept what each function took."""
    rt = kit.load()
    kit.list_once(rt.rtlib)
    os.chdir(TOP)
    rt.rtlib.Crate = rt.Crate
    crates = {it.name: it for it in rt.rtlib.crates_below(TOP)}
    for name in names:
        crate = crates[name]
        with tempfile.TemporaryDirectory(prefix="gate-") as kept:
            words = crate.words(["--jobs", "1"], tests=crate.has_tests(), keeps=False)
            how = {"cwd": crate.folder, "stdin": subprocess.DEVNULL, "stdout": subprocess.PIPE, "stderr": subprocess.STDOUT}
            begun, before = time.time(), resource.getrusage(resource.RUSAGE_CHILDREN)
            ran = subprocess.run([rt.rtlib.RATTLE, "check", *words, "--incremental", kept], text=True, errors="replace", **how)
            after = resource.getrusage(resource.RUSAGE_CHILDREN)
            used = after.ru_utime + after.ru_stime - before.ru_utime - before.ru_stime
            files = [f"{at}/{it}" for at, _, found in os.walk(kept) for it in found if it.endswith(".oantt")]
            modules = sorted((os.stat(it).st_mtime, os.path.basename(it)[: -len(".oantt")]) for it in files)
        spent, last = collections.Counter(), begun
        for at, module in modules:
            spent[function_of(name, module)] += at - last
            last = at
        verdict = ran.stdout.rstrip().rpartition("\n")[2].split()[:1]
        print(f"{name}: {used:.0f} processor seconds, {time.time() - begun:.0f} s; {verdict[0] if verdict else 'no verdict'}")
        for function, seconds in spent.most_common(15):
            print(f"{seconds:8.1f} {function}", flush=True)


if __name__ == "__main__":
    if len(sys.argv) == 3 and sys.argv[1] == "watch" and sys.argv[2].isdigit():
        watch(int(sys.argv[2]))
    elif len(sys.argv) > 2 and sys.argv[1] == "functions":
        functions(sys.argv[2:])
    else:
        sys.exit(__doc__)
