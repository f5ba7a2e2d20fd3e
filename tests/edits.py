#!/usr/bin/env python3
"""Tries the edits that must fail, crates/NAME/edits/*.edit: wrong bodies of functions, in the form of `rt must-fail`.

    python3 tests/edits.py                 of all crates but those that were refused as they stand
    python3 tests/edits.py --all           of all crates
    python3 tests/edits.py NAME..          of these crates
    python3 tests/edits.py --read          says in a second which edits, of edits/ and of must-fail/, cannot be applied, and tries none
    --proved, in front of these            each crate was proved just now as it stands

Edits of different functions of a crate are tried together, in one check. An edit is refused only where a goal of the very
function that it changes is refused, and one of a constant only where a goal of a function that names the constant is; where
that is not shown, it is tried alone. Unless --proved says that it was, the crate as it stands has to be proved, over the same
kept work. It prints a line for each crate, the edits that are not refused, and their number; the status is 0 where each edit
is refused.

Whether an edit is refused depends on the sources of its crate, on what these and the crate's edits rest on of the crates below
(tests/promises.py), on the toolchain and on itself. Where those of a crate that were tried were refused, tests/edits.tried notes the sum of the
first three, and of each edit; it is tried anew once one of these differs.
"""
import glob
import hashlib
import os
import re
import shutil
import sys
import tempfile
import threading
import time

TOP = os.path.dirname(os.path.dirname(os.path.abspath(__file__)))
sys.path.insert(0, os.path.join(TOP, "tools"))
sys.dont_write_bytecode = True

import kit
from edit import asked_of, placed, read
from promises import as_laid_out, rested_on

JOBS = ["--jobs", "1"]
TRIED = os.path.join(TOP, "tests", "edits.tried")
SWITCHES = ("--read", "--all", "--proved")
PARTS = ("src", "specs", "proofs", "edits", "must-fail")
EDITS = PARTS[3:]
NAMES_ALONE = "only because a proof file names what the edit took away"


def in_batches(edits):
    """The edits in as few lists as may be: those of one list change different functions."""
    batches = []
    for edit in edits:
        keys = {it.key for it in edit.functions}
        for taken, batch in batches:
            if not taken & keys:
                taken |= keys
                batch.append(edit)
                break
        else:
            batches.append((set(keys), [edit]))
    return [batch for _, batch in batches]


def try_batch(rt, crate, batch, kept):
    """The edits of a batch that are refused, each at its own functions."""
    texts = {}
    for edit in batch:
        for path, at, row in edit.rows:
            rows = texts.setdefault(path, read(f"{crate.folder}/{path}").split("\n"))
            rows[at] = row
    texts = {path: "\n".join(rows) for path, rows in texts.items()}
    ran = rt.checked(crate, texts, [*JOBS, *asked_of(batch)], kept)
    if ran.returncode == 2:
        ran = rt.checked(crate, texts, JOBS, kept)
    lines = ran.stdout.rstrip("\n").split("\n")
    judged = ran.returncode == 1 and lines[-1].startswith(("only=", "logic=not-proved"))
    if not judged or any(rt.unread(it, texts) for it in lines):
        return []
    return [edit for edit in batch if edit.is_shown(lines)]


def is_proved(rt, crate, edits, kept):
    """Whether the crate as it stands is proved over the kept work: the functions of these edits, or all where one has none."""
    asked = asked_of(edits) if all(it.functions for it in edits) else []
    ran = rt.checked(crate, {}, [*JOBS, *asked], kept)
    if ran.returncode == 2 and asked:
        ran = rt.checked(crate, {}, JOBS, kept)
    return ran.returncode == 0


def begin_with(rt, crate, kept):
    """Makes a folder for kept work, with what is there: that of other checkouts on this machine, which some kits know of, or the crate's own."""
    own = f"{crate.folder}/out/incremental"
    before = rt.work_for(crate) if hasattr(rt, "work_for") else None
    if before:
        rt.linked(before, kept)
    elif os.path.isdir(own):
        shutil.copytree(own, kept)
    else:
        os.mkdir(kept)


def is_refused(rt, status):
    """Whether an edit that was tried alone is refused: some kits answer yes or no, others one of several words."""
    return status is True or status in [getattr(rt, it) for it in ("REFUSED", "AT_LIMIT") if hasattr(rt, it)]


def try_crate(rt, crate, files, was_proved):
    """The edits of a crate that are not refused, each with the reason; how many were shown together; and the checks it took."""
    edits, failed, checks = [], [], 0
    for file in files:
        edit, why = placed(rt, crate, file)
        if why:
            failed.append(f"{crate.name}/{os.path.basename(file)}: it cannot be applied: {why}")
        else:
            edits.append(edit)
    with tempfile.TemporaryDirectory(prefix="edits-") as room:
        kept = f"{room}/kept"
        begin_with(rt, crate, kept)
        shown = []
        for batch in in_batches([it for it in edits if it.functions]):
            shown += try_batch(rt, crate, batch, kept)
            checks += 1
        alone = [it for it in edits if it not in shown]
        tried = [(it, *rt.must_fail(crate, it.file, JOBS, kept)) for it in alone]
        checks += len(alone)
        checks += not was_proved
        if not was_proved and not is_proved(rt, crate, edits, kept):
            shown, tried = [], [(it, *rt.must_fail(crate, it.file, JOBS)) for it in edits]
            checks += len(edits)
    failed += [text for _, status, text in tried if not is_refused(rt, status)]
    for edit, status, text in tried:
        if is_refused(rt, status) and NAMES_ALONE in text:
            print(f"edits of {crate.name}: {edit.name} is refused for a name alone, which says little of the contract", flush=True)
    return failed, len(shown), checks


def libraries_are_there(rt, crates):
    """Builds the libraries below these crates where what is there is not of these sources. The gate's own carry no stamp."""
    below = {it.name: it for crate in crates for it in crate.below()}
    stamped = [os.path.isfile(f"{it.folder}/out/rlib/stamp") for it in below.values()]
    made = all(os.path.isdir(it.rlib) for it in below.values())
    if made and not any(stamped):
        return True
    rt.Crate.cuts_libraries = False
    return not any(it.build_rlib(JOBS, anew=False) for it in below.values())


class Tried:
    """The edits that were refused, as the file of this name has them: for each crate the sum of what that rests on, and sums of the edits."""

    def __init__(self, rt):
        self.lock, self.rt = threading.Lock(), rt
        self.sums = self.noted()

    @staticmethod
    def noted():
        """The lines of the file."""
        rows = read(TRIED).splitlines() if os.path.isfile(TRIED) else []
        return {name: (sum, set(edits)) for name, sum, *edits in map(str.split, rows)}

    def sum_of(self, crate):
        """The sum of a crate's sources, of what it rests on with its edits of the crates below, and of the toolchain's logic, which its kits share."""
        found = hashlib.sha256(read(f"{self.rt.KIT}/KIT-ID").partition(" ")[2].strip().encode())
        files = [it for part in PARTS for it in sorted(glob.glob(f"{crate.folder}/{part}/**/*.*", recursive=True))]
        own = {os.path.relpath(it, crate.folder): read(it) for it in files}
        below = rested_on(own, [(it.name, it.folder) for it in crate.below()])
        laid_out = {file: as_laid_out(text) if file.endswith(".rt") else text for file, text in own.items() if file.split("/")[0] not in EDITS}
        for text in [*(f"{file}\n{text}\n" for file, text in laid_out.items()), *below]:
            found.update(text.encode())
        return found.hexdigest()[:32]

    @staticmethod
    def sum_of_edit(file):
        return hashlib.sha256(f"{os.path.basename(file)}\n{read(file)}".encode()).hexdigest()[:8]

    def left(self, crate, files):
        """Those of a crate's edits that were not refused as they stand."""
        sum, edits = self.sums.get(crate.name, ("", set()))
        return [it for it in files if self.sum_of_edit(it) not in edits] if sum == self.sum_of(crate) else files

    def note(self, crate, files, known):
        """Notes that these edits of a crate are refused; crates that have none any more are dropped."""
        with self.lock:
            self.sums = {**self.noted(), crate.name: (self.sum_of(crate), {self.sum_of_edit(it) for it in files})}
            rows = [" ".join([name, sum, *sorted(edits)]) + "\n" for name, (sum, edits) in sorted(self.sums.items()) if name in known]
            with open(TRIED, "w", encoding="utf-8") as it:
                it.writelines(rows)


def read_all(rt):
    """Says which edits cannot be applied, and how many there are."""
    files = sorted(glob.glob(f"{TOP}/crates/*/edits/*")) + sorted(glob.glob(f"{TOP}/crates/*/must-fail/*.edit"))
    faults = [(file, rt.read_edit(file, os.path.dirname(os.path.dirname(file)))[1]) for file in files]
    faults = [(file, why) for file, why in faults if why]
    for file, why in faults:
        print(f"{os.path.relpath(file, TOP)}: {why}")
    print(f"edits: {len(files)} read, {len(faults)} cannot be applied")
    return 1 if faults else 0


def main(words):
    started = time.time()
    if any(it.startswith("--") and it not in SWITCHES for it in words) or ("--read" in words and len(words) > 1):
        sys.exit(__doc__)
    os.chdir(TOP)
    rt = kit.load()
    kit.sum_once(rt.rtlib)
    if words == ["--read"]:
        return read_all(rt)
    was_proved, is_anew = "--proved" in words, "--all" in words
    names = [it for it in words if not it.startswith("--")]
    rt.rtlib.guarded()
    rt.rtlib.Crate = rt.Crate
    rt.Crate.cuts_libraries = True
    every = sorted(glob.glob(f"{TOP}/crates/*/edits/*"))
    files = {}
    for file in every:
        files.setdefault(file.split("/")[-3], []).append(file)
    with_edits = [it for it in rt.rtlib.crates_below(TOP) if it.name in files and (not names or it.name in names)]
    tried = Tried(rt)
    left = {it.name: files[it.name] if names or is_anew else tried.left(it, files[it.name]) for it in with_edits}
    chosen = [it for it in with_edits if left[it.name]]
    if not libraries_are_there(rt, chosen):
        sys.exit("edits: a library is not proved, so no edit was tried")

    def task(crate):
        begun = time.time()
        failed, shown, checks = try_crate(rt, crate, left[crate.name], was_proved)
        count = len(left[crate.name])
        took = time.time() - begun
        if not failed:
            tried.note(crate, files[crate.name], files)
        print(f"edits of {crate.name}: {count - len(failed)} of {count} refused, {shown} together, {checks} checks, {took:.0f} s", flush=True)
        return failed, count

    work = {}
    for crate in chosen:
        lines = crate.count(rb"\n")
        work[crate.name, "edits"] = ([], lines, rt.need(crate), lambda given, jobs, it=crate: task(it))
    done = rt.in_lanes(work).values()
    failed = [text for texts, _ in done for text in texts]
    now, noted = sum(count for _, count in done), sum(len(files[it.name]) - len(left[it.name]) for it in with_edits)
    wanted = len(every) if not names else sum(len(files.get(it, [])) for it in names)
    for text in failed:
        print(text)
    refused = now + noted - len(failed)
    print(f"edits: {refused} of {wanted} refused, {now} tried now and {noted} as they stand before, {time.time() - started:.0f} s")
    return 0 if refused == wanted else 1


if __name__ == "__main__":
    sys.exit(main(sys.argv[1:]))
