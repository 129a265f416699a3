"""The report of a batch, as pages or as a table: each row that has begun, and totals."""

import contextlib
import csv
import heapq
import os
from array import array
from collections import Counter
from datetime import datetime
from html import escape
from itertools import islice
from statistics import median
from typing import Any, Iterator, Optional, TextIO

from ..pages import begin, table
from .cells import cells_of
from .journal import Entry, Journal, Run
from .script import counted

PAGE = 1000  # rows
POINTS = 600  # of a picture
HEAD = ["row", "key", "id", "reader", "station", "operator", "time", "seconds", "outcome", "reason"]
MORE = ["table", "script", "version"]  # in a table alone: a page has them above its rows


class Joined:
    """The rows of several journals as one. A card may have got a row of another journal later. By
    the clocks of the machines, its earlier row is lost: it is unsure."""

    def __init__(self, journals: list[Journal]) -> None:
        self.journals, self.lost, self._last = journals, set[int](), dict[str, tuple[Any, ...]]()
        self.runs = {run: it for journal in journals for run, it in journal.runs().items()}
        if len(journals) > 1:
            for it in journals:
                for card, row, at, _ in it.cards():
                    mine = (at, row, it.place)
                    self._last[card] = max(mine, self._last.get(card, mine))

    def begun(self) -> Iterator[Entry]:
        """Yields the rows that have begun, in their order."""
        def placed(of: Journal) -> Iterator[tuple[int, str, Entry]]:
            return ((it.number, of.place, it) for it in of.begun())

        before = (0, "")
        for number, place, row in heapq.merge(*map(placed, self.journals)):
            if number == before[0]:
                raise ValueError(f"row {number} is in {before[1]} and in {place}")
            before = number, place
            _, latest, other = self._last.get(row.card or "", (0, number, ""))
            if latest != number and row.state != "free":
                self.lost.add(number)
                why = f"its card got row {latest} of {other} later"
                row = row._replace(state="unsure", reason=why)
            yield row

    def undecided(self) -> Iterator[Entry]:
        """Yields the failed and unsure rows that no run is at."""
        if len(self.journals) == 1:
            return self.journals[0].undecided()
        return (it for it in self.begun() if it.state in ("failed", "unsure"))

    def counts(self) -> Counter[str]:
        """Counts the rows by their state."""
        found = sum((it.counts() for it in self.journals), Counter[str]())
        if len(self.journals) > 1:
            begun = Counter(it.state for it in self.begun())
            begun["free"] += found.total() - begun.total()
            return begun
        return found

    def of_run(self, row: Entry) -> Run:
        return self.runs.get(row.run or "", Run())


def write(path: Optional[str], journals: list[Journal]) -> None:
    """Writes a report, if it has a path. Each file is whole at each moment, with any writers."""
    if not path:
        return
    joined = Joined(journals)
    if path.endswith(".csv"):
        names = ", ".join(sorted({os.path.basename(it.heading.table) for it in journals}))
        with replaced(path) as file:
            writer = csv.writer(file)
            writer.writerow([*HEAD, *MORE])
            for it in joined.begun():
                run = joined.of_run(it)
                writer.writerow([*_line(it, run), names, run.script, run.version])
    else:
        _write_pages(path, joined)


@contextlib.contextmanager
def replaced(path: str) -> Iterator[TextIO]:
    """Opens a file that replaces the one with this path once it is whole and on disk."""
    made = f"{path}.{os.getpid()}.new"
    try:
        with open(made, "w", -1, "utf-8", "backslashreplace", "") as file:
            yield file
            file.flush()
            os.fsync(file.fileno())
        os.replace(made, path)
    finally:
        with contextlib.suppress(OSError):
            os.unlink(made)  # a part, if the disk is full


class Totals:
    """What a first page has above its rows. It keeps two numbers of each row that is done."""

    def __init__(self, joined: Joined) -> None:
        self.joined, self.used = joined, set[Run]()
        self.times, self.ends = array("d"), array("d")

    def add(self, it: Entry) -> Entry:
        self.used.add(self.joined.of_run(it))
        if it.state == "done":
            self.times.append(_seconds(it))
            self.ends.append(it.ended or 0)
        return it

    def text(self) -> str:
        counts = self.joined.counts()
        all_of = counted(counts.total(), "row")
        lines = [f"{counts['done']:,} of {all_of} done, {counts['failed']} failed, "
                 f"{counts['unsure']} unsure"]
        tables = {os.path.basename(it.heading.table) for it in self.joined.journals}
        named = [("table", tables), *((name, {getattr(it, name) for it in self.used})
                                      for name in ("script", "version", "station", "operator"))]
        lines += ["; ".join(f"{name} {', '.join(sorted(filter(None, found)))}"
                            for name, found in named if any(found))]
        return "".join(f"<p>{escape(it)}</p>\n" for it in lines) + picture(self.times, self.ends)


def _write_pages(path: str, joined: Joined) -> None:
    """Writes pages of 1,000 rows. The first one, with the totals, is the last that is written."""
    totals, (stem, end) = Totals(joined), os.path.splitext(path)
    rows = map(totals.add, joined.begun())
    first, number = [*islice(rows, PAGE)], 1
    following = next(rows, None)
    while following:
        part, number = [following, *islice(rows, PAGE - 1)], number + 1
        following = next(rows, None)
        after = f"{stem}-{number + 1}{end}" if following else ""
        before = path if number == 2 else f"{stem}-{number - 1}{end}"
        _write_page(f"{stem}-{number}{end}", joined, part, "", [before, after])
    after = f"{stem}-2{end}" if number > 1 else ""
    _write_page(path, joined, first, totals.text(), ["", after])


def _write_page(path: str, joined: Joined, rows: list[Entry], above: str, ways: list[str]) -> None:
    links = " ".join(f'<a href="{escape(os.path.basename(to))}">{word}</a>'
                     for to, word in zip(ways, ("before", "after")) if to)
    lines = [(it.state, _line(it, joined.of_run(it))) for it in rows]
    with replaced(path) as file:
        file.write(f"{begin('Batch')}{above}{table(HEAD, lines)}\n<p>{links}</p></html>\n")


def time_of(seconds: Optional[float], between: str = " ") -> str:
    return datetime.fromtimestamp(seconds or 0).astimezone().isoformat(between, "seconds")


def _line(it: Entry, run: Run) -> list[str]:
    seconds = f"{took:.1f}" if (took := _seconds(it)) else ""
    return [str(it.number), it.key or "", it.card or "", it.reader or "", run.station,
            run.operator, time_of(it.begun), seconds, it.state, it.reason]


def _seconds(it: Entry) -> float:
    """Returns how long a row took, or 0 if that is unknown, as after a clock that went back."""
    return max((it.ended or 0) - (it.begun or 0), 0)


def picture(times: "array[float]", ends: "array[float]") -> str:
    """Returns how long rows took, and how many were done over time."""
    if not ends:
        return ""
    known, sorted_ends = [*filter(None, times)] or [0.0], sorted(ends)
    whole, step = sorted_ends[-1] - sorted_ends[0] or 1, 150 / len(ends)
    shown = sorted({*range(0, len(ends), len(ends) // POINTS + 1), len(ends) - 1})
    points = " ".join(f"{(sorted_ends[at] - sorted_ends[0]) / whole * 600:.1f},"
                      f"{150 - (at + 1) * step:.1f}" for at in shown)
    first, last = (datetime.fromtimestamp(sorted_ends[at]).astimezone() for at in (0, -1))
    return f"""<p>a card took {median(known):.1f} s (median), {max(known):.1f} s at most</p>
<svg width="600" height="150" viewBox="0 0 600 150" role="img" \
aria-label="rows done over time"><polyline fill="none" stroke="var(--to)" points="{points}"/></svg>
<p>{counted(len(ends), "row")} done, from {first:%F %R %z} to {last:%F %R %z}</p>
"""


def export(path: str, journal: Journal) -> None:
    """Writes a table of all rows: their cells as they were imported, and how they ended."""
    joined, columns = Joined([journal]), journal.heading.columns
    with replaced(path) as file:
        writer = csv.writer(file)
        writer.writerow([*columns, *HEAD])
        for it in journal.all():
            cells = cells_of(journal, it.cells)
            line = _line(it, joined.of_run(it))
            if it.begun is None:
                line[6] = ""  # no time
            writer.writerow([*(cells[name] for name in columns), *line])


def history(journal: Journal, row: int) -> Iterator[str]:
    """Yields a line for each step of a row, and one for what it is now."""
    runs = journal.runs()
    for _, at, run, word, note in journal.history(row):
        who = ", ".join(filter(None, runs.get(run, Run())[:2]))
        yield f"{time_of(at)} {word}, {who}{note and f': {note}'}"
    it = journal.entry(row)
    key, card = it.key and f", key {it.key}" or "", it.card and f", card {it.card}" or ""
    yield f"row {row}{key}{card}: {'in progress' if it.state == 'begun' else it.state}"
