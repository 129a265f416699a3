"""Names of the sources in docs/TOUR.md, in its text and its pictures."""

import re
from pathlib import PurePath

from findings import Finding
from sources import WORD, code_without_comments, line_of, without_comments

TOUR = "docs/TOUR.md"
BLOCK = re.compile(r"^```.*?^```$", re.M | re.S)
PICTURE = re.compile(r"^```picture$.*?^```$", re.M | re.S)
# a crate, or a type whose name has several words
IN_PICTURE = re.compile(r"\b(?:[a-z]\w*_\w+|[A-Z][a-z]+[A-Z]\w*)\b")
SPAN = re.compile(r"`([^`\n]+)`")
IS_NAME = re.compile(r"[A-Za-z]\w*(::\w+)*")
# `lemma`, `other` of `File`
OF_FILE = re.compile(r"((?:`\w+`, )*`\w+`) of `(\w+(?:Lemmas|Laws))`")


def findings(repository):
    text = repository.texts.get(TOUR, "")
    words = words_of(repository)
    for picture in PICTURE.finditer(text):
        for it in IN_PICTURE.finditer(picture[0]):
            if it[0] not in words:
                line = line_of(text, picture.start() + it.start())
                yield Finding("name", TOUR, line, it[0], f"there is no {it[0]}")
    blocks = " ".join(BLOCK.findall(text))
    # the same lines, without what blocks show
    text = BLOCK.sub(lambda it: "\n" * it[0].count("\n"), text)
    # a file at the top that the check does not read
    known = words | {"HANDLES", *re.findall(r"\w+", blocks)}
    for it in SPAN.finditer(text):
        if IS_NAME.fullmatch(it[1]):
            wrong = [name for name in it[1].split("::") if name not in known]
        elif "/" in it[1] and it[1].split("/")[0] in repository.below:
            wrong = [] if is_path(repository, f"crates/{it[1]}") else [it[1]]
        else:
            continue
        for name in wrong:
            yield Finding("name", TOUR, line_of(text, it.start()), name, f"there is no {name}")
    for it in OF_FILE.finditer(text):
        declared = {name for path, all_of in repository.cut.items()
                    if PurePath(path).stem == it[2] for each in all_of for name in each.names}
        for name in set(re.findall(r"\w+", it[1])) - declared:
            what = f"{it[2]} has no {name}"
            yield Finding("name", TOUR, line_of(text, it.start()), name, what)


def words_of(repository):
    """The words of code and definitions, and of the names of files."""
    words = set()
    for path, text in repository.texts.items():
        words.update(re.findall(r"\w+", path))
        if path.startswith("crates/") and path.endswith(".rt"):
            words.update(re.findall(r"\w+", code_without_comments(text)))
        elif path.startswith("crates/") and path.endswith(".antt"):
            words.update(WORD.findall(without_comments(text)))
    return words


def is_path(repository, path):
    """Whether this is a file, or a folder, maybe without the end `.antt`."""
    return any(it in (path, f"{path}.antt") or it.startswith(f"{path}/") for it in repository.texts)
