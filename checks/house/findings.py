"""Findings of the check, and the list of findings that are allowed."""

from dataclasses import dataclass


@dataclass(frozen=True)
class Finding:
    """A finding: its kind, its place, the name that the list allows it by, and its text."""

    kind: str
    path: str
    line: int
    name: str
    said: str

    def __str__(self):
        return f"{self.path}:{self.line}: {self.kind}: {self.said}"


@dataclass
class Stay:
    """An entry of the list: a kind, and a file, a folder (with a stroke at its end), a name, or a
    place and a name."""

    line: int
    kind: str
    path: str
    name: str
    fits: int = 0

    def is_of(self, finding):
        in_path = self.path in ("", finding.path) or (
            self.path.endswith("/") and finding.path.startswith(self.path)
        )
        return self.kind == finding.kind and in_path and self.name in ("", finding.name)


def read_stays(path, text):
    """The entries of the list, and its errors. An entry is a line `KIND PLACE: REASON`. PLACE is a
    file, a file and a name, or a name. An indented line continues the reason."""
    stays, wrong = [], []
    for number, line in enumerate(text.splitlines(), 1):
        if not line.strip() or line.startswith(("#", " ")):
            continue
        place, colon, reason = line.partition(": ")
        words = place.split(" ", 1)
        if not colon or not reason.strip() or len(words) < 2:
            wrong.append(Finding("list", path, number, line, "not KIND PLACE: REASON"))
            continue
        kind, place = words
        file, _, name = place.partition(" ") if "/" in place.split(" ")[0] else ("", "", place)
        stays.append(Stay(number, kind, file, name))
    return stays, wrong


def without_stays(path, text, found):
    """The findings that the list does not allow, and the entries of the list that fit nothing."""
    stays, wrong = read_stays(path, text)
    left = []
    for finding in found:
        fitting = [it for it in stays if it.is_of(finding)]
        for it in fitting:
            it.fits += 1
        if not fitting:
            left.append(finding)
    return left + wrong + [
        Finding("list", path, it.line, it.name, f"fits nothing: {it.kind} {it.path} {it.name}")
        for it in stays
        if it.fits == 0
    ]
