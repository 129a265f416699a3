"""Whether docs/RULES.md and the definitions go together. Each section names the files of its
definitions, or says that it has none. A section names each file with a definition that a public
clause cites.

A public clause is one of a `pub fn` or a trait that its library exports, or of `main_status`. The
files are in a line `Definitions:` of code spans: a crate, and behind it files of its `specs/`."""

import re
from collections import defaultdict

from findings import Finding
from private import shown
from sources import WORD, code_without_comments, crate_of, line_of

RULES = "docs/RULES.md"
PROGRAM = "crates/card_trace/src/main_status.rt"
PUBLIC = re.compile(r'^( *)pub (?:unsafe )?(extern "C" )?fn (\w+)(.*?)(?:^\1\{|;$)', re.M | re.S)
CLAUSE = re.compile(r"\b(?:requires|ensures)\b")
TRAIT = re.compile(r"^pub trait (\w+)(.*?)^\}", re.M | re.S)
DOTTED = re.compile(r'[^\s(){}\[\],;:`"]+')
DEFINITIONS = "Definitions: "
NONE = "Definitions: none"


def libraries(repository):
    """The crates with a root that can export something; a program has none."""
    return [it for it in repository.below if f"crates/{it}/src/lib.rt" in repository.texts]


def impl_type(text, place):
    """The type of the `impl` around a place, or None; methods of a trait's `impl` are not
    public."""
    before = text[:place]
    start = max(before.rfind("\nimpl"), 0 if before.startswith("impl") else -1)
    if start < 0 or re.search(r"^\}", before[start:], re.M):
        return None
    head = before[start:].partition("{")[0].strip().removeprefix("impl")
    depth = 0
    for at, sign in enumerate(head):
        depth += (sign == "<") - (sign == ">" and head[at - 1] != "-")
        if depth == 0 and sign not in "<>":
            name = re.match(r"\s*(\w+)", head[at:])
            if name:
                return name[1]
    return None


def public_modules(repository, crate):
    """The files whose functions are exported because all modules around them are."""
    root = f"crates/{crate}/src/lib.rt"
    found, left = set(), [(root, f"crates/{crate}/src/")]
    while left:
        path, folder = left.pop()
        for name in re.findall(r"\bpub mod (\w+);", repository.texts.get(path, "")):
            found.add(f"{folder}{name}.rt")
            left.append((f"{folder}{name}.rt", f"{folder}{name}/"))
    return found


def public_clauses(repository):
    """The path, the line, the function and the text of each public clause or row of them."""
    for path, text in repository.code(".rt"):
        if path == PROGRAM:
            names, modules = {"main_status"}, set()
        elif crate_of(path) in libraries(repository):
            names = shown(repository, crate_of(path))
            modules = public_modules(repository, crate_of(path))
        else:
            continue
        text = code_without_comments(text)
        for it in PUBLIC.finditer(text):
            around = impl_type(text, it.start()) if it[1] else None
            is_shown = around in names if it[1] else it[3] in names or it[2] or path in modules
            clause = CLAUSE.search(it[4])
            if is_shown and clause:
                yield path, line_of(text, it.start()), it[3], it[4][clause.start() :]
        for it in TRAIT.finditer(text):
            if it[1] in names:
                yield path, line_of(text, it.start()), it[1], it[2]


def cited(repository):
    """The declarations that public clauses cite, with the function that cites each first."""
    by_name = defaultdict(list)
    for it in repository.declarations():
        for name in it.names:
            by_name[it.path, name].append(it)
    found = {}
    for path, line, function, clauses in public_clauses(repository):
        imports = repository.imports.get(path, {})
        for dotted in DOTTED.findall(clauses):
            first, _, after = dotted.partition(".")
            for it in imports.get(first, ()):
                name = it.name or after.partition(".")[0]
                for declared in by_name.get((repository.path_of(it.module), name), ()):
                    found.setdefault((declared.path, declared.line), (declared, function))
    return found.values()


def sections(text):
    """The line and the title of each section, and the lines `Definitions:` in it."""
    found = []
    for number, line in enumerate(text.splitlines(), 1):
        if line.startswith("## "):
            found.append((number, line[3:], []))
        elif found and line.startswith(DEFINITIONS):
            found[-1][2].append((number, line))
    return found


def files_in(line, crates):
    """The paths of the files that a line `Definitions:` names."""
    crate = None
    for name in re.findall(r"`([^`]+)`", line):
        if name in crates:
            crate = name
        else:
            yield f"crates/{crate}/specs/{name}.antt"


def findings(repository):
    named = set()
    for number, title, lines in sections(repository.texts.get(RULES, "")):
        if not lines:
            what = f"'{title}' names no file of definitions"
            yield Finding("rule", RULES, number, title, what)
        for place, line in lines:
            files = list(files_in(line, repository.below))
            for path in files:
                if path not in repository.texts:
                    yield Finding("rule", RULES, place, path, f"there is no {path}")
            if not files and not line.startswith(NONE):
                yield Finding("rule", RULES, place, title, f"'{title}' names no file")
            named.update(files)
    for declared, function in cited(repository):
        if declared.path not in named and "/specs/" in declared.path:
            what = f"{function} cites {declared.name}, and no section of {RULES} names its file"
            yield Finding("unruled", declared.path, declared.line, declared.name, what)
