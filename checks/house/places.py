"""Files in the wrong folder, and rules for each file. Laws are files of `specs/`. A file of
`specs/` is needed by a clause, by a crate above, or by another such file. Code has 100 columns. A
source file says first what it contains. An error type has the name of one."""

import re

from findings import Finding
from sources import IN_CODE, code_without_comments, crate_of, line_of

COLUMNS = 100
LONG_LINES = (".rt", ".antt", ".c", ".cc", ".go", ".h", ".hpp", ".rs", ".py", ".js", ".ts")
# Lines that rt fmt joins, of any length: imports and attributes.
JOINED = re.compile(r"\s*(?:(?:ghost|pub|pub\(crate\)) )*use |\s*#!?\[")


# The error type of a `Result`, and the declaration of a type with variants or fields.
ERROR = re.compile(r"\bResult<[^;{]*?, (\w+)>")
# The text for memory that ran out. No crate is below all that have it.
OF_MEMORY = re.compile(r'\bOutOfMemory (?:=>|=) (?:f\.write_str\(|codes )?"([^"]*)"')
DECLARED = re.compile(r"^(?:pub(?:\(crate\))? )?(?:enum|struct) (\w+)[^;\n]*\{", re.M)


def is_of_specs(path):
    return path is not None and "/specs/" in path


def needed(repository):
    """The files of `specs/` that code or a crate above needs, and those that these need."""
    left = []
    for path, text in repository.code():
        own = f"crates/{crate_of(path)}/specs/"
        for found in repository.imports.get(path, {}).values():
            targets = {repository.path_of(it.module) for it in found}
            left += [
                it for it in targets
                if is_of_specs(it) and (path.endswith(".rt") or not it.startswith(own))
            ]
        if path.endswith(".rt"):
            for it in IN_CODE.finditer(code_without_comments(text)):
                module = f"Rattle.{crate_of(path)}.{it[1].replace('::', '.')}"
                left.append(repository.path_of(module))
    seen = set()
    while left:
        path = left.pop()
        if path in seen or not is_of_specs(path):
            continue
        seen.add(path)
        for found in repository.imports.get(path, {}).values():
            left += [repository.path_of(it.module) for it in found]
    return seen


def of_folders(repository):
    wanted = needed(repository)
    for path, _ in repository.code(".antt"):
        name = path.rpartition("/")[2].removesuffix(".antt")
        if "/proofs/" in path and name.endswith("Laws"):
            yield Finding("place", path, 1, name, "laws are files of specs/, for crates above")
        if "/specs/" in path and name != "Lib" and path not in wanted:
            what = "no clause, no crate above and no other such file of specs/ needs it"
            yield Finding("place", path, 1, name, what)


def of_lines(repository):
    for path, text in repository.texts.items():
        if not (path.endswith(LONG_LINES) or text.startswith("#!")):
            continue
        for number, line in enumerate(text.split("\n"), 1):
            if len(line) > COLUMNS and not (path.endswith((".rt", ".antt")) and JOINED.match(line)):
                yield Finding("long", path, number, "", f"{len(line)} columns")


def of_first_lines(repository):
    for path, text in repository.code(".rt"):
        if not text.startswith("//! "):
            yield Finding("first", path, 1, "", "no //! line says first what is in it")


def of_errors(repository):
    """A type of errors is a `..Fault`, or the `Reason` in one. One that says nothing but that it is
    there, a struct without fields, is named for that."""
    errors = {
        (crate_of(path), it[1]) for path, text in repository.code(".rt")
        for it in ERROR.finditer(code_without_comments(text))
    }
    for path, text in repository.code(".rt"):
        for it in DECLARED.finditer(text):
            is_error = (crate_of(path), it[1]) in errors
            if is_error and not it[1].endswith(("Fault", "Reason")):
                what = "an error type is a ..Fault, or the Reason in one"
                yield Finding("fault", path, line_of(text, it.start()), it[1], what)
    for path, text in repository.code():
        for it in OF_MEMORY.finditer(text):
            if it[1] != "out of memory":
                what = "other fault types say 'out of memory'"
                yield Finding("fault", path, line_of(text, it.start()), "OutOfMemory", what)


def findings(repository):
    yield from of_folders(repository)
    yield from of_lines(repository)
    yield from of_first_lines(repository)
    yield from of_errors(repository)
