"""The files of the repository as text, and what names alone tell about them: the declarations of a
file of definitions or proofs, and the origin of each name in it."""

import re
import subprocess
from collections import defaultdict
from dataclasses import dataclass
from pathlib import Path

READ = {".rt", ".antt", ".c", ".cc", ".cs", ".go", ".h", ".hpp", ".rs", ".py", ".js",
        ".ts", ".md", ".txt", ".help"}

WORD = re.compile(r'[^\s(){}\[\],;.:`"]+')
IMPORT = re.compile(
    r"\buse (Rattle\.[\w.+]+?)(?:\.\{([^}]*)\}| as (\w+)| *;| *$)", re.M
)
# a name in an attribute or a clause of code, as crate::specs::Tag::is_tag
IN_CODE = re.compile(r"\bcrate::((?:specs|proofs)(?:::[\w+]+)*)::([^\s,);:]+)")
MODIFIERS = r"(?:(?:unfoldable|opaque|pub|private|abbrev|data|record|def|rec|mutual)\s+)*"
DECLARED = re.compile(MODIFIERS + r'([^\s(){}\[\],;.:"]+)')
IS_TYPE = re.compile(r"(?:(?:unfoldable|opaque|pub|private)\s+)*(?:data|record)\b")
MEMBER = re.compile(r"\s+(?:pub\s+)?([^\s(){}\[\],;.:]+)\s*:")
# Words that begin a line which continues the declaration above it.
GOES_ON = {None, "unfolding", "where", "let", "in"}


@dataclass
class Import:
    """An imported name: `name` of `module`, or the whole module if `name` is missing."""

    module: str
    name: str | None
    line: int


@dataclass
class Declaration:
    """A lemma or a definition: its first line, its names (for a type also its constructors or
    fields), its lines, and the heads of the modules around it."""

    path: str
    line: int
    names: set
    lines: list
    heads: list

    @property
    def name(self):
        return DECLARED.match(self.lines[0].strip())[1]

    @property
    def words(self):
        return set(WORD.findall(without_comments("\n".join([*self.heads, *self.lines]))))


def without_comments(text):
    """The text of definitions or proofs without comments."""
    return re.sub(r"(?m)(^|\s)--( .*)?$", "", text)


def code_without_comments(text):
    """The text of code without comments, with the same lines."""
    return re.sub(r"(?m)(^|\s)//.*$", "", text)


def line_of(text, place):
    return text.count("\n", 0, place) + 1


class Repository:
    """All files that the check reads: a text for each path. `all` has those of every other kind
    too; what holds a NUL has none."""

    def __init__(self, texts, more=()):
        self.texts, self.all = texts, {**texts, **dict(more)}
        self.below = {}
        for line in texts.get("crates.txt", "").splitlines():
            before, colon, after = line.partition(":")
            if colon and not line.startswith("#"):
                self.below[before.split()[0]] = set(after.split())
        for crate in self.below:
            self.below[crate] &= set(self.below)
        self.imports = {path: imports_of(text) for path, text in self.code() if "use " in text}
        self.cut = {path: declarations(path, text) for path, text in self.code(".antt")}

    @classmethod
    def at(cls, top):
        texts = {True: {}, False: {}}
        for file in files_of(top):
            is_read = file.suffix in READ or is_script(file)
            data = file.read_bytes()
            text = "" if b"\0" in data else data.decode(errors="replace")
            texts[is_read][str(file.relative_to(top))] = text
        return cls(texts[True], texts[False])

    def code(self, *suffixes):
        """The paths and texts of code, definitions and proofs."""
        for path, text in self.texts.items():
            if path.startswith("crates/") and path.endswith(suffixes or (".rt", ".antt")):
                yield path, text

    def declarations(self):
        for cut in self.cut.values():
            yield from cut

    def path_of(self, module):
        """The file of a module of definitions or proofs, as Rattle.t0_core.specs.Front, if any."""
        path = "crates/" + module.removeprefix("Rattle.").replace(".", "/") + ".antt"
        return path if path in self.texts else None


def files_of(top):
    """The files that git tracks, or all, if this is no repository."""
    # the checkout may belong to another user
    command = ["git", "-C", top, "-c", "safe.directory=*", "ls-files", "-z"]
    listed = subprocess.run(command, capture_output=True, text=True, check=False)
    if listed.returncode or not listed.stdout:
        return sorted(it for it in Path(top).rglob("*") if it.is_file())
    files = [Path(top, name) for name in listed.stdout.split("\0")]
    return sorted(it for it in files if it.is_file())


def is_script(file):
    if file.suffix or not file.is_file():
        return False
    with file.open("rb") as opened:
        return opened.read(2) == b"#!"


def crate_of(path):
    return path.split("/")[1]


def imports_of(text):
    """The origin of each name that a file imports."""
    found = defaultdict(list)
    for it in IMPORT.finditer(text):
        line = line_of(text, it.start())
        if it[2] is None:
            found[it[3] or it[1].rpartition(".")[2]].append(Import(it[1], None, line))
            continue
        for name in it[2].split(","):
            name, _, called = (part.strip() for part in name.partition(" as "))
            found[called or name].append(Import(it[1], name, line))
    return found


def declarations(path, text):
    """Cuts a file into its declarations. Each begins at the margin (inside a module with
    parameters, at that module's) with a new name, since equations repeat the name before."""
    found = []
    margins = [0]
    heads = [[]]
    in_head = False
    for number, line in enumerate(text.split("\n"), 1):
        said = line.strip()
        if not said or said.startswith("--") or line.startswith("use "):
            continue
        indent = len(line) - len(line.lstrip())
        closes = said[0] in "})|,]-"
        while margins[-1] is not None and indent < margins[-1] and not closes:
            margins.pop()
            heads.pop()
        if in_head or said.startswith("module "):
            if not in_head:
                heads.append([*heads[-1]])
                margins.append(None)
            heads[-1].append(line)
            in_head = not said.endswith("where")
            continue
        if margins[-1] is None:
            margins[-1] = indent
        named = DECLARED.match(said) if indent == margins[-1] and not closes else None
        name = named[1] if named else None
        if name in GOES_ON or (found and name in found[-1].names):
            if found:
                found[-1].lines.append(line)
                member = MEMBER.match(line)
                if member and IS_TYPE.match(found[-1].lines[0].strip()):
                    found[-1].names.add(member[1])
        else:
            found.append(Declaration(path, number, {name}, [line], heads[-1]))
    return found
