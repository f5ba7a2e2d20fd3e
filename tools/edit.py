"""Edits that must fail: which functions an edit changes, and whether a check refuses a goal of these.

An edit is a wrong body of a function, in the form of `rt must-fail`.
"""
import dataclasses
import os
import re

HEAD = re.compile(r"(\s*)(?:pub(?:\([^)]*\))? )?(?:const )?(?:unsafe )?fn (\w+)")
IMPL = re.compile(r"impl(?:<.*?>)? (?:(?P<trait>.*) for )?(?:\w+::)*(?P<type>\w+)")
CONST = re.compile(r"\s*(?:pub(?:\([^)]*\))? )?const (\w+):")
NAMES = re.compile(r"has no field|is not in scope|has no `|was not admitted")


def read(path):
    with open(path, encoding="utf-8") as it:
        return it.read()


@dataclasses.dataclass(frozen=True)
class Function:
    """A function of a source file: its lines are first to last, counted from 0, with the attributes above it."""

    path: str
    name: str
    owner: str
    cycle: str
    first: int
    last: int

    @property
    def key(self):
        return self.path, self.cycle or self.first

    @property
    def module(self):
        inside = self.path[len("src/") : -len(".rt")]
        return "" if inside in ("lib", "main") else inside.replace("/", "::")

    @property
    def asked(self):
        """The function by its path, or its module where it is a method of a trait, whose name the prover makes up."""
        if "+" in self.owner:
            return self.module
        return "::".join(it for it in (self.module, self.owner, self.name) if it)


@dataclasses.dataclass
class Edit:
    """An edit, the functions that it changes, or that name the constant that it changes, and the lines that it puts in place of others."""

    file: str
    functions: list
    rows: list
    is_constant: bool = False

    @property
    def name(self):
        return os.path.basename(self.file)

    def is_shown(self, lines):
        """Whether these lines refuse a goal of each function that it changes, or of one that names its constant."""
        return (any if self.is_constant else all)(own_goal(it, lines) for it in self.functions)


def function_at(path, rows, at):
    """The function round a line, or None."""
    for top in range(at, -1, -1):
        head = HEAD.match(rows[top])
        if not head or (top != at and rows[top].rstrip().endswith(";")):
            continue
        last = next((i for i in range(top, len(rows)) if rows[i] == head[1] + "}"), top)
        if last < at:
            continue
        first, cycle = top, ""
        while first > 0 and rows[first - 1].strip().startswith(("#[", "//")):
            first -= 1
            named = re.search(r"#\[cycle\((\w+)\)\]", rows[first])
            cycle = cycle or (named[1] if named else "")
        return Function(path, head[2], owner_of(rows, top) if head[1] else "", cycle, first, last)
    return None


def owner_of(rows, top):
    """The type whose method stands at a line, with `+` and the trait where it is a trait's."""
    impl = IMPL.match(next((rows[i] for i in range(top, -1, -1) if rows[i].startswith("impl")), ""))
    if not impl:
        return ""
    if not impl["trait"]:
        return impl["type"]
    return impl["type"] + "+" + re.sub(r"<.*", "", impl["trait"]).rpartition("::")[2]


def functions_naming(path, rows, name):
    """The functions of a file that name a constant."""
    found = (function_at(path, rows, at) for at, row in enumerate(rows) if re.search(rf"\b{name}\b", row))
    return list(dict.fromkeys(it for it in found if it))


def placed(rt, crate, file):
    """The edit of a file with the functions that it changes, none where it changes other text than theirs and a constant's; or
    why it cannot be read."""
    texts, why = rt.read_edit(file, crate.folder)
    if why:
        return None, why
    functions, constants, changed = [], [], []
    for path, text in texts.items():
        old, new = read(f"{crate.folder}/{path}").split("\n"), text.split("\n")
        if len(old) != len(new) or not path.endswith(".rt"):
            return Edit(file, [], []), None
        for at, (before, after) in enumerate(zip(old, new)):
            if before != after:
                function, constant = function_at(path, old, at), CONST.match(before)
                if not function and not constant:
                    return Edit(file, [], []), None
                if function:
                    functions.append(function)
                else:
                    constants += functions_naming(path, old, constant[1])
                changed.append((path, at, after))
    if functions and constants:
        return Edit(file, [], []), None
    return Edit(file, functions or constants, changed, bool(constants)), None


def own_goal(function, lines):
    """A line that refuses a goal of this function, if there is one."""
    owner = re.escape(function.owner).replace(r"\+", "") + (r"\w*" if "+" in function.owner else "")
    tail = f"{owner}::{re.escape(function.name)}" if function.owner else re.escape(function.name)
    group = re.escape(function.cycle or function.name)
    folder = function.module.replace("::", "/")
    folder = re.escape(folder) + "/" if folder else ""
    inner = f"(?:{folder})?(?:\\w+/)*"
    own = re.compile(rf"(?:\./)?proofs/{inner}(?:\+{group}|\+?{tail.replace('::', '/')})/\S*:\d+:\d+: error")
    note = re.compile(rf"(?:note: )?{re.escape(function.path)}:(\d+):\d+: (.*)")
    for line in lines:
        if own.match(line) and not NAMES.search(line):
            return line
        said = note.match(line)
        if said and function.first < int(said[1]) <= function.last + 1 and "not proved that" in said[2]:
            return line
    return None


def asked_of(edits):
    """The words that have a check prove no more than the functions of these edits, and what they call."""
    names = {it.asked for edit in edits for it in edit.functions}
    return [] if "" in names else [word for name in sorted(names) for word in ("--only", name)]


def try_at_functions(rt):
    """Has a must-fail edit tried at the functions that it changes and at those that these call, and not at its whole crate: there it is refused
    only where a goal of each of them is. One that is not shown so is tried at its whole crate, as by plain rt."""
    try_whole = rt.must_fail

    def must_fail(crate, file, flags, kept=None):
        edit, why = placed(rt, crate, file)
        asked = [] if why else asked_of([edit])
        if asked:
            texts, _ = rt.read_edit(file, crate.folder)
            ran = rt.checked(crate, texts, [*flags, *asked], kept)
            lines = ran.stdout.rstrip("\n").split("\n")
            is_judged = ran.returncode == 1 and lines[-1].startswith("only=") and not any(rt.unread(it, texts) for it in lines)
            if is_judged and edit.is_shown(lines):
                goal = next(it for it in map(lambda function: own_goal(function, lines), edit.functions) if it)
                return getattr(rt, "REFUSED", True), f"must-fail {crate.name}/{edit.name}: refused, as it must be: {goal[:160]}"
        return try_whole(crate, file, flags, kept)

    rt.must_fail = must_fail


def try_one_by_one(rt):
    """Has rt ci try each must-fail edit of a crate by itself. Over what a check of the whole crate kept, which rt makes and makes again where
    there are several, it would cost more than at its functions alone."""
    if not hasattr(rt, "add_edits"):
        # some kits try all edits of a crate in one call
        rt.must_fail_all = lambda crate, edits, flags: [rt.must_fail(crate, it, flags) for it in edits]
        return
    add_all = rt.add_edits

    def add_edits(tasks, crate, edits, *given, **named):
        tried = []
        for number, edit in enumerate(edits):
            own = {}
            results, known = add_all(own, crate, [edit], *given, **named)
            (key, task), = own.items()
            tasks[(*key[:2], number)] = task
            tried.append((key, results, known))

        def results_of(done):
            return [results({key: done[(*key[:2], number)]})[0] for number, (key, results, _) in enumerate(tried)]

        def all_known():
            return {number: it for number, (_, _, known) in enumerate(tried) for it in known().values()}

        return results_of, all_known

    rt.add_edits = add_edits
