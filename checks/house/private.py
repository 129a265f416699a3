"""Names that a crate above must not use: those of a `proofs` module, and of a type or a constant
that the crate does not export. It must not look into a value of such a type either."""

import re

from findings import Finding
from sources import WORD, crate_of, line_of, without_comments

OF_PROJECT = re.compile(r"\bRattle\.(\w+)\.(proofs|specs)\b([\w.+]*)(?:\.\{([^}]*)\})?")
TYPE_IN_CODE = re.compile(r"^(?:pub(?:\([a-z]+\))? )?(?:struct|enum|trait|type|union) (\w+)", re.M)
FIELDS_IN_CODE = re.compile(r"^(?:pub(?:\([a-z]+\))? )?struct (\w+)[^{;(]*\{(.*?)^\}", re.M | re.S)
FIELD = re.compile(r"^ +(?:pub(?:\([a-z]+\))? )?(\w+):", re.M)
CONSTRUCTOR = re.compile(r"^\s+(\w+) : (.*)→")
ARGUMENTS = re.compile(r"\(([^():]+) : ([^()]*)\)|([^→]+)→?")


def shown(repository, crate):
    """The names that a crate exports: those of `pub use` in its root, and all of its `pub mod`."""
    root = repository.texts.get(f"crates/{crate}/src/lib.rt", "")
    names = set()
    for used in re.findall(r"\bpub use ([^;]*);", root):
        names |= set(re.findall(r"\w+", used))
    for module in re.findall(r"\bpub mod (\w+);", root):
        text = repository.texts.get(f"crates/{crate}/src/{module}.rt", "")
        names |= set(TYPE_IN_CODE.findall(text))
    return names


def private_types(repository, crate):
    """The types that a crate does not export, each with its fields."""
    seen = shown(repository, crate)
    fields = {}
    for path, text in repository.code(".rt"):
        if crate_of(path) == crate:
            fields |= {name: set() for name in TYPE_IN_CODE.findall(text) if name not in seen}
            for name, inside in FIELDS_IN_CODE.findall(text):
                if name not in seen:
                    fields[name] = set(FIELD.findall(inside))
    return fields


def private_in(after, names, seen):
    """The private name in a path after `Rattle.BELOW.specs`, or among the names in braces after it,
    given the exported names. None if all are exported."""
    parts = after.strip(".").split(".")
    if "declared" not in parts:
        return None
    for part in parts[parts.index("declared") + 1 :]:
        if part == "TheConstants":
            hidden = [it for it in names if it not in seen]
            return hidden[0] if hidden else None
        if part[:1].isupper():
            return None if part in seen else part
    return None


def of_paths(repository):
    """Paths that name a `proofs` module or a private type of a crate below."""
    seen = {crate: shown(repository, crate) for crate in repository.below}
    for path, text in repository.code():
        crate = crate_of(path)
        told = set()
        for it in OF_PROJECT.finditer(text):
            below, module, after, names = it[1], it[2], it[3], it[4] or ""
            if below == crate or below not in repository.below:
                continue
            line = line_of(text, it.start())
            names = [name.partition(" as ")[0].strip() for name in names.split(",")]
            if module == "proofs":
                name, what = f"{below}.proofs", f"names the proofs of {below}"
            elif name := private_in(after, names, seen[below]):
                what = f"names {name}, which {below} does not show"
            else:
                continue
            if (name, line) not in told:
                told.add((name, line))
                yield Finding("private", path, line, name, what)


def stand_ins(repository):
    """The constructors of definitions that contain a value of a private type. For the file and name
    of each: its type, the place of such a value, and the value's fields."""
    found = {}
    for crate in repository.below:
        private = private_types(repository, crate)
        for it in repository.declarations():
            inside = it.path.startswith(f"crates/{crate}/specs/")
            if not inside or not re.search(r"\bdata\b", it.lines[0]):
                continue
            for line in it.lines[1:]:
                if constructor := CONSTRUCTOR.match(without_comments(line)):
                    imports = repository.imports.get(it.path, {})
                    for place, words in enumerate(arguments(constructor[2])):
                        for word in words & set(private):
                            if any(".declared." in one.module for one in imports.get(word, ())):
                                found[it.path, constructor[1]] = (it.name, place, private[word])
    return found


def arguments(text):
    """The words in the type of each argument of a constructor."""
    found = []
    for it in ARGUMENTS.finditer(text):
        if it[1]:
            found += [set(WORD.findall(it[2]))] * len(it[1].split())
        elif it[3] and it[3].strip():
            found.append(set(WORD.findall(it[3])))
    return found


def of_cases(repository):
    """Cases on a definition that contains a value of a private type, and fields of such a value."""
    held = stand_ins(repository)
    for path, imports in repository.imports.items():
        for called, found in imports.items():
            for it in found:
                key = (repository.path_of(it.module), it.name)
                if key not in held or crate_of(key[0]) == crate_of(path):
                    continue
                of_type, place, fields = held[key]
                below = crate_of(key[0])
                cases = lines_with_cases(repository.texts[path], called, place)
                if cases:
                    yield Finding(
                        "cases", path, cases[0][0], of_type,
                        f"goes by cases on {of_type} of {below}, which holds a private type",
                    )
                for line, value, field in looks_into(repository.texts[path], cases, fields):
                    what = f"looks at .{field} of {value}, a value of a private type of {below}"
                    yield Finding("looks", path, line, f"{value}.{field}", what)


def lines_with_cases(text, constructor, place):
    """The lines with a constructor and names for its values, and the name at this place."""
    pattern = re.compile(rf"\b{constructor}((?: (?:\w+|_))+)")
    found = []
    for number, line in enumerate(text.splitlines(), 1):
        for it in pattern.finditer(without_comments(line)):
            values = it[1].split()
            if len(values) > place:
                found.append((number, values[place]))
    return found


def looks_into(text, cases, fields):
    """The fields of such values, from the line of the case up to the next line at its margin."""
    lines = text.splitlines()
    for number, value in cases:
        margin = len(lines[number - 1]) - len(lines[number - 1].lstrip())
        for at in range(number, len(lines) + 1):
            line = lines[at - 1]
            if at > number and line.strip() and len(line) - len(line.lstrip()) <= margin:
                break
            for field in re.findall(rf"\b{value}\.(\w+)", without_comments(line)):
                if field in fields:
                    yield at, value, field


def findings(repository):
    yield from of_paths(repository)
    yield from of_cases(repository)
