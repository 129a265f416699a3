"""Public functions that require something of a caller. If no proved code calls such a function,
nothing shows that a caller can meet what it requires.

This goes by names alone: a method's caller names its type, and a function's caller in another crate
names that crate."""

import re

from findings import Finding
from sources import code_without_comments, crate_of, line_of

FUNCTION = re.compile(r"(?m)^(?P<margin> *)pub (?:const )?fn (?P<name>\w+)")
OWNER = re.compile(r"(?m)^impl\b[^;{]*?(?:\bfor )?(?P<name>\w+)(?:<[^{;]*>)? \{$")


def owner(text, place):
    """The type whose methods are here, if any."""
    found = [it["name"] for it in OWNER.finditer(text, 0, place)]
    return found[-1] if found else None


def that_require(text):
    """Yields line, type (None without one) and name of each."""
    for it in FUNCTION.finditer(text):
        end = re.compile(rf"(?m)^{it['margin']}(?:\{{$|\}}|pub |fn )|\{{$").search(text, it.end())
        if re.search(r"\brequires\b", text[it.end() : end.start() if end else len(text)]):
            of = owner(text, it.start()) if it["margin"] else None
            yield line_of(text, it.start()), of, it["name"]


def is_called(crate, of, name, other, text):
    """Whether code of a crate calls the function."""
    if of:
        return re.search(rf"\b{of}\b", text) and re.search(rf"(?<!fn )\b{name}\b *[(:]", text)
    if other == crate:
        return re.search(rf"(?<!fn )(?<![\w.]){name}\(", text)
    return re.search(rf"\b{crate}::(?:\w+::)*(?:\{{[^}}]*)?\b{name}\b", text)


def findings(repository):
    texts = {path: code_without_comments(text) for path, text in repository.code(".rt")}
    for path, text in texts.items():
        crate = crate_of(path)
        above = {it for it, below in repository.below.items() if it == crate or crate in below}
        for line, of, name in that_require(text):
            if not any(is_called(crate, of, name, crate_of(it), texts[it])
                       for it in texts if crate_of(it) in above):
                what = f"no proved code calls {f'{of}::' if of else ''}{name}"
                yield Finding("uncalled", path, line, name, what)
