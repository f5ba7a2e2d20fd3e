"""What a crate rests on of the crates below it: the parts of what these promise that it names, and those that such parts name in turn.

A part is a function, type or trait of a source file with its contract, or a paragraph of a file of definitions. It counts for a crate where
what counts already names its crate, or its file of definitions by the path, and the part itself; a method with its type, and an `impl` of
a trait by the type and what the trait is given. So a crate does not rest on what neither it nor anything that it rests on speaks of.
"""
import dataclasses
import functools
import glob
import os
import re

from edit import HEAD, IMPL, read

UNSEEN = re.compile(r"\s*(//|#!?\[(inline|cold|cycle|tactic)\b)")
IMPORT = re.compile(r"(?m)^(?P<head>\s*(?:ghost )?use )(?P<path>[^;]*);\n?")
NAMED = re.compile(r"(?:pub(?:\([^)]*\))? )?(?:const |unsafe )*(?:fn|struct|enum|trait|type|const|static) (\w+)")
REEXPORT = re.compile(r"(pub(\([^)]*\))? )?(use|mod) ")
COMMENT = re.compile(r"(?m)^\s*(//|--).*\n?")
DECLARED = re.compile(r"(?:(?:abbrev|pub|record|data|infix[lr]?|\d+) )*([^\s:(]*)")
FIELD = re.compile(r" +(?:pub )?(\w\S*) :")
ITEMS = re.compile(r"\b([a-z]\w*(?:::\w+)+|[a-z]\w*::)(?:\{([^}]*)\})?")
IMPORTED = re.compile(r"(Rattle(?:\.[\w']+)+)(?:\.\{([^}]*)\})?")


class Names:
    """What texts name: words; in source files words behind a dot or a double colon, and crates with what is named of them; paths of
    definitions with what is imported from there; and the words that what counts of a crate, or of a file of definitions, has itself."""

    def __init__(self):
        self.words, self.members, self.items, self.paths, self.inside = set(), set(), set(), set(), {}

    def add(self, text, is_source, homes=()):
        plain = COMMENT.sub("", text)
        found = set(re.findall(r"\w+", plain))
        self.words |= found
        if is_source:
            self.members |= set(re.findall(r"(?:\.|::)(\w+)", IMPORT.sub("", plain)))
            for path, names in ITEMS.findall(plain):
                crate, *rest = [it for it in path.split("::") if it]
                self.items |= {(crate, it) for it in [*rest, *re.findall(r"\w+", names)]}
        for base, names in IMPORTED.findall(plain):
            self.paths |= {f"{base}.{it.strip()}" for it in names.split(",")} if names else {base}
            self.items |= {(base.split(".")[1], it) for it in [*base.split(".")[2:], *re.findall(r"\w+", names)]}
        for home in homes:
            self.inside.setdefault(home, set()).update(found)

    def has(self, crate, word):
        return (crate, word) in self.items or word in self.inside.get(crate, ())


@dataclasses.dataclass(frozen=True)
class Promise:
    """A part of what a crate promises. Of a source file: the words that all have to be named before it counts, those of the crate's own as
    its own, and the name of a method; of a file of definitions its path, and the words of which one has to be named, any where there is
    none."""

    crate: str
    words: frozenset
    text: str
    method: str = ""
    path: str = ""
    foreign: frozenset = frozenset()

    @functools.cached_property
    def said(self):
        """It in words, whatever the layout of a source file."""
        return self.text if self.path else as_laid_out(self.text)

    def counts(self, names):
        if not self.path:
            is_named = all(names.has(self.crate, it) for it in self.words) and self.crate in names.words
            return is_named and self.foreign <= names.words and (not self.method or self.method in names.members)
        if not self.words:
            return any(it.startswith(self.path) for it in names.paths)
        is_whole = self.path in names.paths and not self.words.isdisjoint(names.words)
        is_beside = not self.words.isdisjoint(names.inside.get(self.path, ()))
        return is_whole or is_beside or any(f"{self.path}.{it}" in names.paths for it in self.words)


def promises(text):
    """What crates above rest on of a source file, as `rt fmt` lays it out: neither comments and empty rows nor the bodies of functions,
    nor functions at its left edge that are not public, nor what is imported for these alone."""
    kept, indent, in_head, is_seen = [], None, False, True
    for row in text.split("\n"):
        if not row or UNSEEN.match(row):
            continue
        head = HEAD.match(row) if indent is None else None
        if head:
            indent, in_head, is_seen = head[1], True, bool(head[1]) or row.startswith("pub ")
        if is_seen and (indent is None or in_head):
            kept.append(row)
        if in_head:
            opens = row == f"{indent}{{" or row.endswith(" {") and (head or row.startswith(f"{indent})"))
            is_whole = not opens and row.endswith((";", "{}"))
            in_head = not opens and not is_whole
            if is_whole:
                indent, is_seen = None, True
        elif row == f"{indent}}}":
            indent, is_seen = None, True
    return with_named_imports("\n".join(kept))


def with_named_imports(text):
    """A text in which imports bring no names but those that stand elsewhere in it."""
    rest = IMPORT.sub("", text)
    tokens = {*re.findall(r"\w+|[^\w\s(){},;]+", rest)}

    def is_named(name):
        return tokens.issuperset(re.findall(r"\w+|[^\w◌]+", name.split(" as ")[-1]))

    def named(found):
        path, brace, names = found["path"].partition("{")
        if "{" in names:
            return found[0]
        if not brace:
            path, names = re.fullmatch(r"(.*(?:::|\.))?(.*)", path).groups("")
        each = (it.strip() for it in names.rstrip("}").split(","))
        # (no contract names a function that its source file imports)
        is_ghost = "ghost" in found["head"] or path.startswith("Rattle.")
        return "".join(f"{found['head']}{path}{it};\n" for it in each if it and is_named(it) and (is_ghost or not it[0].islower()))

    return IMPORT.sub(named, text)


def in_groups(rows, indent):
    """The rows in groups: each begins at an indent with a letter or an attribute, and attributes go with what stands below them."""
    groups, is_open = [], False
    for row in rows:
        begins = re.match(rf"{indent}[a-z#]", row) and not is_open
        if begins or not groups:
            groups.append([])
        groups[-1].append(row)
        is_open = bool(re.match(rf"{indent}#\[", row))
    return groups


def parts_of(rows):
    """A group of a source file's promises in parts, each with its words and the method that it is."""
    head = next((row for row in rows if not row.startswith("#[")), "")
    named, impl = NAMED.match(head), IMPL.match(head)
    if named:
        return [({named[1]}, "", rows)]
    if not impl:
        return [(set(), "", rows)]
    top = next((at for at, row in enumerate(rows) if row.endswith("{")), 0) + 1
    if impl["trait"] or top == len(rows):
        given = re.findall(r"[A-Z]\w+", (impl["trait"] or "").partition("<")[2])
        return [({impl["type"], *given}, "", rows)]
    parts = []
    for member in in_groups(rows[top:-1], "    "):
        name = next((it for it in map(NAMED.match, (row.strip() for row in member)) if it), None)
        if not name or name[0].startswith("pub "):
            parts.append(({impl["type"]}, name[1] if name else "", rows[:top] + member))
    return parts


def as_laid_out(text):
    """A text of a source file without its comments and what its layout makes of it, its imports in front, each once."""
    plain = COMMENT.sub("", text)
    imports = sorted({it[0].strip() for it in IMPORT.finditer(plain)})
    rest = re.findall(r"\w+|[^\w\s]", IMPORT.sub("", plain))
    return "\n".join([*imports, re.sub(r" ,(?= [)}\]>])", "", " ".join(rest))])


def source_parts(text):
    """The parts of a source file, each with its words, the method that it is, and the text with the imports that it names."""
    groups = in_groups(promises(text).split("\n"), "")
    imports = "".join(f"{row}\n" for group in groups for row in group if IMPORT.match(f"{row}\n") and not row.startswith(("pub", " ")))
    for group in groups:
        # (what a macro of the crate's own writes is proved where it is called)
        if REEXPORT.match(group[0]) or group[0].startswith(("ghost use ", "macro_rules! ")) or not any(group):
            continue
        for words, method, rows in parts_of(group):
            yield words, method, with_named_imports(imports + "\n".join(rows))


def in_order(text):
    """A text with its imports in an order of their own, in front."""
    return "\n".join([*sorted({it[0].strip() for it in IMPORT.finditer(text)}), IMPORT.sub("", text)])


def without_hidden(text):
    """The text of a struct of which contracts see a value of another type (`Model`), without the fields that only its file names."""
    return re.sub(r"(?m)^    (?!pub |ghost )\w+: .*,\n", "", text)


def definitions(crate, path, text):
    """The paragraphs of a file of definitions, each with the imports that it names."""
    rows = [row for row in text.split("\n") if not COMMENT.match(row)]
    imports = "".join(f"{row};\n" for row in rows if row.startswith("use "))
    found = []
    for paragraph in "\n".join(row for row in rows if not row.startswith("use ")).split("\n\n"):
        # (who uses a record's field has a value of it from where the record is named)
        is_record = re.match(r"(pub )?record ", paragraph.lstrip("\n"))
        rows_in = [row for row in paragraph.split("\n") if row and not (is_record and row[0] == " ")]
        heads = [(FIELD if row[0] == " " else DECLARED).match(row) for row in rows_in]
        declared = {it[1] for it in heads if it}
        words = frozenset(declared) if all(re.match(r"\w", it) for it in declared) else frozenset()
        if declared:
            found.append(Promise(crate, words, in_order(with_named_imports(imports + paragraph.strip("\n"))), path=path))
    return found


@functools.lru_cache(maxsize=None)
def promises_of(name, folder):
    """All promises of a crate."""
    files = sorted(glob.glob(f"{folder}/src/**/*.rt", recursive=True))
    parts = [it for file in files for it in source_parts(read(file))]
    own = {it for words, method, text in parts if not method and "\nimpl" not in f"\n{text}" for it in words}
    modelled = {it[1] for _, _, text in parts for it in re.finditer(r"(?m)^impl(?:<.*?>)? Model for (\w+)", text)}
    parts = [(words, method, without_hidden(text) if words <= modelled and " struct " in text else text) for words, method, text in parts]
    found = [Promise(name, frozenset(words & own), text, method, foreign=frozenset(words - own)) for words, method, text in parts]
    for file in sorted(glob.glob(f"{folder}/specs/**/*.antt", recursive=True)):
        path = os.path.relpath(file, f"{folder}/specs").removesuffix(".antt").replace("/", ".")
        found += definitions(name, f"Rattle.{name}.specs.{path}", read(file))
    return found


def rested_on(own, below):
    """What a crate with these texts of its files rests on of the crates of these names and folders, in an order of its own."""
    names, taken = Names(), []
    for file, text in own.items():
        names.add(text, file.endswith((".rt", ".edit")))
    left = [it for name, folder in below for it in promises_of(name, folder)]
    while True:
        more, others = [], []
        for it in left:
            (more if it.counts(names) else others).append(it)
        if not more:
            return sorted(f"{it.path or it.crate} {' '.join(sorted(it.words | it.foreign))} {it.method}\n{it.said}\n" for it in taken)
        for it in more:
            names.add(it.text, not it.path, [it.path] if it.path else [it.crate])
        left = others
        taken += more
