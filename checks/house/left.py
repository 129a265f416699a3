"""What nothing uses, by names alone. Equal names hide a finding. It finds

- a name that code declares and that occurs nowhere else, or in a product only in tests besides
- a file that no other file names
- an option of a program in Python that none of them reads
- a row of packages.txt that no check names."""

import re
from collections import Counter, defaultdict
from pathlib import PurePath

from findings import Finding
from sources import line_of

PACKAGES = "checks/packages.txt"
# What a line of a language declares.
DECLARED = {
    "py": r"^ *(?:async )?def (\w+)|^ *class (\w+)|^([A-Za-z]\w*)(?:: [^=\n]+)? = ",
    "c": r"^(?:[A-Za-z_][\w *]*?[ *])(\w+)\([^;{]*\)\s*\{|^#define (\w+)"
         r"|^    ([A-Z][A-Z_\d]+)(?: =|,)",
    "rs": r"(?<!\]\n)^ *(?:pub(?:\([a-z]+\))? )?(?:const |unsafe |extern \"C\" )*fn (\w+)"
          r"|(?<!\]\n)^ *(?:pub(?:\([a-z]+\))? )?(?:const|static|type) (\w+)"
          r"|^ *(?:pub(?:\([a-z]+\))? )?(?:struct|enum|trait) (\w+)",
    "Makefile": r"^([A-Za-z]\w*) *[:?+]?= *|^([a-z]\w*):(?!=)",
    "sh": r"^(\w+)\(\) \{",
    "js": r"^(?:export )?(?:async )?(?:function|class|const|let) (\w+)"
          r"|^ {4}(?:async |get )?(?!if|for|while|switch|catch)(\w+)\([^;]*\) \{$",
}
DECLARED = {kind: re.compile(text, re.M) for kind, text in DECLARED.items()}
KINDS = {".py": "py", ".c": "c", ".h": "c", ".cc": "c", ".hpp": "c", ".rs": "rs", ".rt": "rs",
         ".sh": "sh", ".js": "js"}
# Lists of wrong lines, and of findings that may stay, use no name. One page is made of sources.
LISTS = (".faults", ".edit", "house/stays.txt", "js/play.html")
# What a program finds without the name.
FOUND = re.compile(r"_|test_|pytestmark$|main$|constructor$")
FILES_FOUND = re.compile(r".*/cases/|(?:.*/)?(?:test_\w+\.py|\w+\.test\.js|\.gitignore|README\.md"
                         r"|[^/]+\.(?:antt|edit|faults|mdoc|verdict|in|install))$")
OPTION = re.compile(r'\badd_argument\("--((?!version)[\w-]+)"')
# Where a product is: what only tests name there is left over.
PRODUCT = re.compile(r"crates/(?!proved_calls|library_use)|bindings/(?:python/src|c/tools)/")
TESTS = re.compile(r".*/tests/|checks/|mutants/|crates/(?:proved_calls|library_use)/")


def kind_of(path, text):
    """The language of a file."""
    first = text.partition("\n")[0]
    if first.startswith("#!"):
        return "py" if "python" in first else "sh"
    name = PurePath(path)
    return "Makefile" if name.name == "Makefile" else KINDS.get(name.suffix)


def of_names(repository):
    """Names in code that occur nowhere else, or only in tests."""
    words = {path: Counter(re.findall(r"[A-Za-z_]\w*", text))
             for path, text in repository.all.items() if not path.endswith(LISTS)}
    users = defaultdict(list)
    for path, found in words.items():
        for name in found:
            users[name].append(path)
    for path, text in repository.all.items():
        for it in DECLARED.get(kind_of(path, text), re.compile("(?!)")).finditer(text):
            name = it[it.lastindex]
            if FOUND.match(name) or words.get(path, {}).get(name, 0) > 1:
                continue
            others = [other for other in users[name] if other != path]
            line = line_of(text, it.start(it.lastindex))
            if not others:
                yield Finding("left", path, line, name, f"nothing else names {name}")
            elif PRODUCT.match(path) and all(TESTS.match(other) for other in others):
                yield Finding("left", path, line, name, f"only tests name {name}")


def of_files(repository):
    """Files that no other file names: code also without its suffix. A file goes with one that has
    another suffix beside it."""
    words = {path: set(re.findall(r"[\w-]+(?:\.[\w-]+)*", text))
             for path, text in repository.all.items() if not path.endswith(LISTS)}
    users = defaultdict(set)
    for path, found in words.items():
        for name in found:
            users[name].add(path)
    beside = defaultdict(set)
    for path in repository.all:
        beside[str(PurePath(path).with_suffix(""))].add(path)
    for path, text in repository.all.items():
        name = PurePath(path)
        group = beside[str(name.with_suffix(""))]
        called = {PurePath(it).name for it in group}
        called |= {name.stem} if kind_of(path, text) else set()
        if not FILES_FOUND.match(path) and not any(users[it] - group for it in called):
            yield Finding("left", path, 1, name.name, f"no other file names {name.name}")


def of_options(repository):
    """Options of programs in Python that none of them reads."""
    for path, text in repository.all.items():
        for it in OPTION.finditer(text) if kind_of(path, text) == "py" else ():
            name = it[1].replace("-", "_")
            if not any(re.search(rf"\.{name}\b", other) for where, other in repository.all.items()
                       if where.endswith(".py") or where == path):
                line = line_of(text, it.start())
                yield Finding("left", path, line, name, f"no program reads --{it[1]}")


def of_packages(repository):
    """Rows of the list of packages that no check names."""
    for number, line in enumerate(repository.all.get(PACKAGES, "").splitlines(), 1):
        thing = line.partition(": ")[0].removeprefix("module ")
        if not line.startswith("#") and not any(
                thing in text for path, text in repository.all.items() if path != PACKAGES):
            yield Finding("left", PACKAGES, number, thing, f"no check names {thing}")


def findings(repository):
    yield from of_names(repository)
    yield from of_files(repository)
    yield from of_options(repository)
    yield from of_packages(repository)
