"""What trials show: lines of text, and files of JSON, HTML and JUnit."""

import html
import json
import re
from collections.abc import Iterable, Iterator
from dataclasses import asdict
from itertools import groupby
from xml.etree import ElementTree

from ..pages import begin, table
from .dialogue import FAULT
from .measured import LEGEND
from .trial import VERDICTS, Trial

HEAD = ["Trial", "Fault", "Verdict", "What happened", "What a good terminal does", "Clause"]
STAR = "* the fault can't strike this terminal, as the list says, so it does not count"


def verdict(it: Trial) -> str:
    """The verdict, with a star if it does not count."""
    return f"{it.verdict}*" if it.is_missed else it.verdict


def as_text(it: Trial) -> str:
    """The lines of a trial."""
    return (f"{verdict(it):7}  {it.name}\n"
            f"         expected: {it.expected}\n"
            f"         happened: {it.ending}\n{measured(it)}         clause: {it.clause}")


def measured(it: Trial) -> str:
    """The line of what was measured, if something was."""
    return f"         measured: {it.measured}\n" if it.measured else ""


def counts(results: Iterable[Trial]) -> str:
    """How many trials have which verdict."""
    counted = [it.verdict for it in results if not it.is_missed]
    return ", ".join(f"{counted.count(it)} {it}" for it in VERDICTS if it in counted)


def by_command(results: Iterable[Trial]) -> Iterator[tuple[str, list[Trial]]]:
    """The trials at each command of any job, under a line that counts them."""
    found = [it for it in results if it.command]
    for number, group in groupby(found, key=lambda it: it.command):
        trials = list(group)
        silent = sum(it.is_silent for it in trials)
        yield (f"at command {number}, {trials[0].title}, {silent} of {len(trials)} faults pass"
               f" silently: {counts(trials)}"), trials


def summary(results: list[Trial]) -> str:
    """The last lines."""
    lines = [line for line, _ in by_command(results)]
    lines.append(counts(results))
    if any(it.is_missed for it in results):
        lines.append(STAR)
    if any(it.measured for it in results):
        lines.append(LEGEND)
    return "\n".join(lines)


def rows(results: Iterable[Trial]) -> str:
    """The table of a page."""
    found = [(it.verdict if it.is_bad else "",
              [it.name, f"{it.atr} {it.faults}".strip(), verdict(it),
               f"{it.ending}; {it.measured}" if it.measured else it.ending, it.expected,
               it.clause]) for it in results]
    return table(HEAD, found, has_ends=False)


def dialogue(it: Trial) -> str:
    """The explained dialogue of a trial, with its fault marked, behind a line to open it."""
    text = re.sub(rf"(?m)^(?:\| )?({FAULT}.*)$", r"<mark>\1</mark>", html.escape(it.dialogue))
    name = html.escape(f"{it.name}: {it.verdict}")
    return f"<details><summary>{name}</summary><pre>{text}</pre></details>\n"


def as_html(results: list[Trial]) -> str:
    """The results as a page."""
    groups = list(by_command(results))
    parts = [begin("Trials"), rows(it for it in results if not it.command)]
    parts += [dialogue(it) for it in results if it.dialogue and not it.command]
    for line, trials in groups:
        parts += [f"<h2>{html.escape(line)}</h2>\n", rows(trials), "\n"]
        parts += [dialogue(it) for it in trials if it.dialogue]
    notes = [STAR, LEGEND] if any(it.measured for it in results) else [STAR]
    return "".join([*parts, *(f"<p>{it}" for it in notes), "</html>\n"])


def as_json(results: list[Trial]) -> str:
    """The results as JSON."""
    return json.dumps([asdict(it) for it in results], indent=1) + "\n"


def as_junit(results: list[Trial]) -> str:
    """The results in the form that most servers of continuous integration read."""
    suite = ElementTree.Element("testsuite", name="trials", tests=str(len(results)),
                                failures=str(sum(it.is_bad for it in results)),
                                skipped=str(sum(it.is_missed for it in results)))
    for it in results:
        group = f"command {it.command}, {it.title}" if it.command else "trials"
        case = ElementTree.SubElement(suite, "testcase", classname=group, name=it.name,
                                      time=str(it.seconds))
        if it.is_missed:
            ElementTree.SubElement(case, "skipped", message=STAR)
        elif it.is_bad:
            said = ElementTree.SubElement(case, "failure", type=it.verdict, message=it.ending)
            said.text = as_text(it)
        else:
            ElementTree.SubElement(case, "system-out").text = as_text(it)
    return ElementTree.tostring(suite, "unicode", xml_declaration=True) + "\n"
