"""The definitions that clauses of public functions reach, and their lines.

It begins with the clauses `requires` and `ensures` of a function, and with the types in its
signature. A name leads to the definition that its file imports under that name. A definition leads
on by its own words. A type of the code leads to its declaration, and if contracts see it as another
value (`ghost Value`), to that. A type parameter leads to the trait that bounds it, whose ghost
members and clauses lead on. A line counts if it is neither blank nor a comment. Names of the
standard library end the way."""

import re
import sys
from dataclasses import dataclass
from pathlib import Path

sys.path.insert(0, str(Path(__file__).resolve().parent.parent / "house"))
from sources import WORD, code_without_comments, crate_of, without_comments  # noqa: E402

DECLARED_TYPE = re.compile(r"Rattle\.(\w+)\.specs\.declared\.((?:[a-z]\w*\.)*)(\w+)(?:\.|$)")
ITEM = r"^(?:pub(?:\([^)]*\))? )?(?:struct|enum|trait|const|type) {}\b"
CLAUSE = re.compile(r"^\s+(?:requires|ensures)\b")
TYPE = re.compile(r"\b[A-Z]\w+\b")


@dataclass(frozen=True)
class Place:
    """A counted piece: its file, its first line and its name."""

    path: str
    line: int
    name: str


def counted(lines, mark):
    """How many of these lines are neither blank nor a comment."""
    return sum(1 for it in lines if it.strip() and not it.strip().startswith(mark))


def block(lines, at):
    """The lines of an item from this one on, to the end of its braces or its semicolon."""
    depth = 0
    for end in range(at, len(lines)):
        said = re.sub(r"//.*", "", lines[end])
        depth += said.count("{") - said.count("}")
        if depth == 0 and said.rstrip().endswith(("}", ";")):
            return lines[at:end + 1]
    return lines[at:]


def names_of(declaration):
    """The name of a declaration, and the constructors of a `data`, but no field of a record."""
    is_data = re.match(r"(?:\w+ )*data\b", declaration.lines[0].strip())
    return declaration.names if is_data else {declaration.name}


class Reach:
    """What is reached so far: the counted lines of each piece."""

    def __init__(self, repository):
        self.repository = repository
        self.lines = {}
        self.types = {}
        for path, text in repository.code(".rt"):
            for it in re.finditer(r"^pub (?:struct|enum|trait) (\w+)", text, re.M):
                self.types[crate_of(path), it[1]] = path

    def words(self, path, words):
        imports = self.repository.imports.get(path, {})
        for word in sorted(words):
            self.declared(path, word)
            for it in imports.get(word.partition(".")[0], ()):
                found = DECLARED_TYPE.match(it.module + ("" if it.name is None else "." + it.name))
                if found:
                    self.item(found[1], found[2], found[3])
                elif it.name is not None:
                    self.declared(self.repository.path_of(it.module), it.name)

    def declared(self, path, name):
        """A definition of this name in a file of `specs`."""
        for it in self.repository.cut.get(path, ()):
            place = Place(it.path, it.line, it.name)
            if name in names_of(it) and place not in self.lines:
                self.lines[place] = counted(it.lines, "--")
                self.words(path, set(WORD.findall(without_comments("\n".join(it.lines)))))

    def item(self, crate, modules, name):
        """A type or constant of the code."""
        path = f"crates/{crate}/src/{modules.rstrip('.').replace('.', '/') or 'lib'}.rt"
        text = self.repository.texts.get(path)
        if text and name != "TheConstants":
            self.type_at(path, name)

    def type_at(self, path, name):
        lines = self.repository.texts[path].split("\n")
        for at, line in enumerate(lines):
            if not re.match(ITEM.format(re.escape(name)), line):
                continue
            place = Place(path, at + 1, name)
            if place in self.lines:
                return
            body = block(lines, at)
            is_trait = " trait " in f" {line}"
            value = self.value_of(path, name)
            self.lines[place] = 0 if value and not is_trait else counted(body, "//")
            if value and not is_trait:
                self.words(path, set(WORD.findall(value)))
            else:
                said = code_without_comments("\n".join(body))
                self.words(path, set(WORD.findall(said)))
                self.named_types(path, said)

    def value_of(self, path, name):
        """What contracts see a type as, if it is another value."""
        text = self.repository.texts[path]
        found = re.search(rf"Model for {name}\b.*?ghost Value = \{{(.*?)\}};", text, re.S)
        return found[1] if found else None

    def named_types(self, path, said):
        """The types of the repository in a piece of code, by what its file uses."""
        for name in sorted(set(TYPE.findall(said))):
            for crate in (crate_of(path), *self.crates_used(path, name)):
                found = self.types.get((crate, name))
                if found:
                    self.type_at(found, name)
                    break

    def crates_used(self, path, name):
        text = self.repository.texts[path]
        for it in re.finditer(r"^use (\w+)::([^;]+);", text, re.M):
            if it[1] != "crate" and re.search(rf"\b{name}\b", it[2]):
                yield it[1]

    def function(self, path, name, clauses):
        """A public function: its signature, and those of its clauses that are named, or all."""
        lines = self.repository.texts[path].split("\n")
        at = next(n for n, it in enumerate(lines) if re.search(rf"\bfn {name}\b", it))
        signature, found, takes = [], [], False
        for line in lines[at:]:
            if line.strip() == "{":
                break
            if CLAUSE.match(line):
                takes = not clauses or line.split()[1] in clauses
            if takes:
                found.append(line)
            elif not CLAUSE.match(line) and not found:
                signature.append(line)
        said = code_without_comments("\n".join(signature + found))
        self.lines[Place(path, at + 1, name)] = counted(found, "//")
        self.words(path, set(WORD.findall(said)))
        around = "\n".join(it for it in lines[:at] if it.startswith("impl"))
        self.named_types(path, said + around)
