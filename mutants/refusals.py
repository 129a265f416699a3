"""Tries edits that the prover must refuse, many in one copy of a crate.

An edit changes the body of a function, and no contract. So what the prover says of that function
depends on no other edit in the copy. `rt check --only` proves the changed functions and what they
call, and names those without a proof. An edit is refused if its function has none, and either an
open goal of its own or no call of a function without a proof. Otherwise it is tried again. The
crate itself must be proved: nothing here looks at that."""

import contextlib
import os
import re
import shutil
import subprocess
from pathlib import Path

FUNCTION = re.compile(
    r'( *)(?:pub(?:\([^)]*\))? )?(?:(?:const|unsafe|extern "C") )*(?:fn|macro_rules!) (\w+)')
UNPROVED = re.compile(r"^fn \w+::(\S+): (?:no proof|not proved)(?:: )?(.*)", re.M)
PARTS = ("src", "specs", "proofs")


def enclosing(lines, at):
    """The name of the function or macro around line `at`, its indent and its line, or None."""
    indent = len(lines[at]) - len(lines[at].lstrip())
    for number in range(at, -1, -1):
        found = FUNCTION.match(lines[number])
        if found and (number == at or len(found[1]) < indent):
            return found[2], len(found[1]), number
    return None


def owner(lines, at):
    """The type and trait of the `impl` around line `at`, as the prover spells them. A type that
    stands where others have a parameter is part of the name."""
    start = next(it for it in range(at, -1, -1) if re.match(r"(pub )?(impl|trait)\b", lines[it]))
    head = " ".join(lines[start:at]).split("{")[0]
    head = re.sub(r"^impl (\w+)<(\w+)>(?! for )", r"impl \1+\2", head)
    before = None
    while before != head:
        before, head = head, re.sub(r"<[^<>]*>", "", head.replace("->", ""))
    found = re.search(r"\bimpl\s+(?:(\S+) for )?&?(?:mut )?(\S+)", head)
    if not found:
        return head.split()[-1].rstrip(":")
    return found[2].split("::")[-1] + (found[1] or "").split("::")[-1]


def function_at(folder, file, place):
    """The end of the name of the function at this place of a source file: that of a method begins
    with its type, since the `impl` may be in another module. For a macro it is the first function
    that uses it."""
    modules = [it for it in Path(file).with_suffix("").parts[1:] if it not in ("lib", "main")]
    text = (folder / file).read_text(encoding="utf-8")
    lines, at = text.split("\n"), text.count("\n", 0, place)
    found = enclosing(lines, at)
    if found is None:
        return "::".join(modules)
    name, indent, start = found
    if "macro_rules!" in lines[start]:
        return first_use(folder, name)
    return "::".join([owner(lines, start), name] if indent else [*modules, name])


def first_use(folder, macro):
    for path in sorted(folder.glob("src/**/*.rt")):
        found = re.search(rf"\b{macro}! ?[({{]", path.read_text(encoding="utf-8"))
        if found:
            return function_at(folder, path.relative_to(folder), found.start())
    return ""


class Edit:
    """An edit of a crate: its pairs of texts by file, and the functions that it changes."""

    def __init__(self, fault, folder, name):
        self.name, self.fault = name, fault
        text = (folder / fault.file).read_text(encoding="utf-8")
        start, _ = fault.piece(text)
        self.functions = {function_at(folder, fault.file, text.find(old, start))
                          for old, _ in fault.pairs}

    def refusal(self, said):
        """Why its function has no proof of its own, or None."""
        for name, why in UNPROVED.findall(said):
            own, calls, _ = why.partition("it calls `")
            is_own = not calls or "`search` did not prove `" in own
            if is_own and any(is_in(name, it) for it in self.functions):
                return f"{name} has no proof: {own}"
        return None


def is_in(name, path):
    """Whether this is the function or module of the path, or in it. All is in the crate, whose path
    is empty. A closure has a `fn::` before its function's path."""
    plain = "::".join(it for it in name.split("::") if it != "fn")
    return not path or f"::{path}::" in f"::{plain}::"


def together(edits):
    """The first of these edits that can be in one copy, and the rest."""
    chosen, left, functions = [], [], set()
    for it in edits:
        fits = functions.isdisjoint(it.functions)
        (chosen if fits else left).append(it)
        functions |= it.functions
    return chosen, left


def link(source, target):
    """Links a file, or copies it to another file system."""
    try:
        os.link(source, target)
    except OSError:
        shutil.copy2(source, target)


class Copy:
    """A copy of the crates, with the libraries that are built."""

    def __init__(self, top, room):
        self.top, self.room = top, room
        shutil.copy(top / "crates.txt", room)
        for crate in (it for it in (top / "crates").iterdir() if (it / "src").is_dir()):
            for part in PARTS:
                if (crate / part).is_dir():
                    shutil.copytree(crate / part, room / "crates" / crate.name / part)
            if (crate / "out/rlib/stamp").is_file():
                shutil.copytree(crate / "out/rlib", room / "crates" / crate.name / "out/rlib",
                                copy_function=link)

    def check(self, crate, edits):
        """What the prover says of the functions of these edits, with the edits made. An edit that
        doesn't fit beside the others is left out."""
        folder, before = self.room / "crates" / crate, {}
        try:
            for it in edits:
                file = folder / it.fault.file
                text = file.read_text(encoding="utf-8")
                before.setdefault(file, text)
                with contextlib.suppress(ValueError):
                    file.write_text(it.fault.put(text), encoding="utf-8")
            paths = sorted({path for it in edits for path in it.functions})
            only = [word for path in paths for word in ("--only", path)] if all(paths) else []
            done = subprocess.run(["rt", "check", "--jobs", "1", *only], cwd=folder, text=True,
                                  stdout=subprocess.PIPE, stderr=subprocess.STDOUT,
                                  stdin=subprocess.DEVNULL, errors="replace")
            if only and "\nonly=" not in done.stdout:
                print(f"{crate}: no answer about {', '.join(paths)}: {done.stdout[-300:]}")
            return done.stdout
        finally:
            for file, text in before.items():
                file.write_text(text, encoding="utf-8")

    def outcomes(self, crate, edits):
        """Yields each edit with why the prover refuses it, or None. Those that are not refused in
        one copy with others are tried again with fewer, and alone once that refuses none."""
        alone = False
        while edits:
            tried, edits = (edits[:1], edits[1:]) if alone else together(edits)
            said, left = self.check(crate, tried), []
            for it in tried:
                why = it.refusal(said)
                if why or len(tried) == 1:
                    yield it, why
                else:
                    left.append(it)
            alone = left == tried
            edits = left + edits
