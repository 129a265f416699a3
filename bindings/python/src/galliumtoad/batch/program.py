"""The command line of a batch: its words, and what it prints at the start and at the end."""

import argparse
import contextlib
import os
import sys
from dataclasses import replace
from typing import Any, Iterator, Optional

from . import report
from ..mistakes import CONTROLS, number, program
from ..handle import within
from ..terminal import Put
from .cells import MOST, Checked, Imported, Rows, secrets_of, text_of
from .journal import Heading, Journal, Run, create, is_file, place_of, refuse_a_second
from .script import Script, Step, check_of, counted, read, tag

_ABOUT = "Personalises cards by the hundred: each card that is inserted gets one row of a table."
_HELP = """In a script `@{column}` is a column's text, `{column}` its digits: put 5F20 @{name}. Of
these only the first in this list is done: --import; --backup, --export and --row; --status, --done
and --again; --check; --look; a run."""
_SHOWN = 20  # mistakes
_PACKAGES = {
    "smartcard": "pyscard is missing: install the package python3-pyscard, or pyscard with pip",
    "psycopg2": "psycopg is missing: install the package python3-psycopg2, or psycopg2 with pip",
}


def part(text: str) -> tuple[int, int]:
    at, of = map(count, text.split("/"))
    return within(at, 1, of, "a part"), of


def count(text: str) -> int:
    return within(number(text), 1, sys.maxsize, "a count")


def words_of_a_table(add: Any) -> None:
    add("script", help="operations as gt_pcsc takes them, or formats of columns, one a line")
    add("--rows", help="the table; its first line names the columns")
    add("--import", dest="brings", metavar="TABLE", help="add the rows of a table to the journal")
    add("--journal", action="append", required=True,
        help="a file, or postgresql://.. for many stations; several with --status")
    add("--new", action="store_true", help="create the journal; refuse an old one; not by --check")
    add("--id", type=tag, help="with --new: the tag of an object that tells cards apart: use it")
    add("--key", metavar="COLUMN", help="with --new: the column of the customer's key")
    add("--part", type=part, metavar="K/N", help="with --new: every Nth row, from row K, 1 to N")
    add("--allow-duplicates", action="store_true", help="allow equal rows and ids, and empty texts")
    add("--secret-from", metavar="FILE", help="a table with the key and the secret columns; or"
        " `|COMMAND`, which prints one for a key")


def words_of_a_run(add: Any) -> None:
    add("--reader", action="append", default=[], help="part of one name; once for each of several")
    add("--go", action="store_true", help="write cards that readers hold at the start or a return")
    add("--stop-after", type=count, metavar="N", help="end a run after N failed or unsure rows")
    add("--station", default="", help="this station's name in reports; without it the machine's")
    add("--operator", default="", help="a name for reports")
    add("--report", metavar="FILE", help="write begun rows: .html or .csv; not by --check, --look")
    add("--check", action="store_true", help="look for mistakes, and end")
    add("--status", action="store_true", help="print failed and unsure rows and a sum, and end")
    add("--look", type=count, metavar="ROW", help="compare one reader's card with a begun row")
    for word, what in (("done", "decide that ROW is done"), ("again", "decide that ROW is free")):
        add(f"--{word}", type=count, action="append", default=[], metavar="ROW", help=what)
    add("--row", type=count, help="print the steps of a row, and end")
    add("--export", metavar="FILE", help="write a .csv of all rows and their results, and end")
    add("--backup", metavar="FILE", help="copy the journal, also during a run, and end")


def parsed(words: Optional[list[str]]) -> argparse.Namespace:
    parser = argparse.ArgumentParser(prog="galliumtoad.batch", description=_ABOUT, epilog=_HELP)
    words_of_a_table(parser.add_argument)
    words_of_a_run(parser.add_argument)
    given = parser.parse_args(words)
    if wrong := next(_misfits(given), None):
        parser.error(wrong)
    return given


def _misfits(given: argparse.Namespace) -> Iterator[str]:
    """Yields why words don't go together."""
    files = [it for it in given.journal if is_file(it)]
    inputs = [os.path.realpath(it) for it in (given.script, given.rows, given.brings, *files) if it]
    for what, endings in (("report", (".html", ".csv")), ("export", (".csv",)), ("backup", ())):
        if path := getattr(given, what):
            if endings and os.path.splitext(path)[1] not in endings:
                yield f"{'an' if what == 'export' else 'a'} {what} ends in {' or '.join(endings)}"
            if os.path.realpath(path) in inputs:
                yield f"the {what} would replace what the batch reads"
    if len(given.journal) > 1 and (not given.status or given.done or given.again):
        yield "several journals go with --status alone"
    is_old = given.status or given.look or given.done or given.again or given.row
    if given.new and (is_old or given.export or given.backup):
        yield "a new journal has no row: --new goes with a run, --import or --check"
    if given.rows and given.brings:
        yield "--rows are read at each run, and --import once: one of them"
    if given.new and not (given.rows or given.brings):
        yield "a new journal needs a table: --rows or --import"


def finished(journals: list[Journal], path: Optional[str]) -> int:
    """Prints undecided rows and the sum, writes the report. Returns 0 if all are done, else 1."""
    joined, undecided = report.Joined(journals), 0
    for undecided, it in enumerate(joined.undecided(), 1):
        card = f"card {it.card}" if it.card else "a card without an id"
        when, why = report.time_of(it.begun)[:19], it.reason or "the run ended before the row did"
        print(f"row {it.number} {it.state}: {card}, {it.reader}, {when}: {why}".translate(CONTROLS))
        row = it.number
        then = f"--again {row}" if row in joined.lost else f"--done {row} or --again {row}"
        print(f"  --look {row} compares that card; then {then}")
    report.write(path, journals)
    counts = joined.counts()
    all_of = sum(counts.values())
    print(f"{counts['done']:,} of {counted(all_of, 'row')} done, {undecided} to decide", flush=True)
    return 0 if counts["done"] == all_of else 1


def start_lines(journal: Journal) -> Iterator[str]:
    """Yields how far the batch is, and what it can't do."""
    counts = journal.counts()
    more = "".join(f", {counts[it]} {it}" for it in ("failed", "unsure") if counts[it])
    begun = "continuing" if journal.has_begun() else "starting"
    all_of = counted(sum(counts.values()), "row")
    yield f"{begun}: {counts['done']:,} of {all_of} done{more}"
    if journal.base.notice:
        yield journal.base.notice
    if journal.heading.id_tag is None:
        yield "without --id it can't tell cards apart: a card inserted twice gets two rows"


def opened(given: argparse.Namespace, ends: contextlib.ExitStack) -> list[Journal]:
    """Opens the journals. Raises `ValueError` for one that does not fit."""
    looks = given.status or given.check or given.look or given.row or given.export or given.backup
    only_looks = bool(looks) and not (given.done or given.again or given.brings)
    who = Run(given.station, given.operator)
    return [ends.enter_context(contextlib.closing(fitting(it, given, only_looks, who)))
            for it in dict.fromkeys(given.journal)]


def fitting(path: str, given: argparse.Namespace, only_looks: bool, who: Run) -> Journal:
    """Opens a journal. Raises `ValueError` if it does not fit the words."""
    journal = Journal(path, only_looks, who)
    heading = journal.heading
    needs = f"{path} has no cells: it needs its table by --rows"
    cells = bool(heading.columns)
    has_cells = given.rows or given.brings or given.row or given.export or given.backup
    for is_wrong, why in [
        (given.rows and cells, f"{path} has imported its rows: it takes no --rows"),
        (given.brings and not cells or not (has_cells or cells), needs),
        (given.rows and heading.table != table_of(given.rows, path),
         f"{path} is the journal of the table {heading.table}"),
        (given.part not in (None, (heading.at, heading.of)),
         f"{path} is the journal of part {heading.at}/{heading.of}"),
        (given.id not in (None, heading.id_tag), f"{path} was created "
         + ("without --id" if heading.id_tag is None else f"with --id {heading.id_tag:X}")),
        (given.key not in (None, heading.key), f"{path} was created "
         + (f"with --key {heading.key}" if heading.key else "without --key")),
    ]:
        if is_wrong:
            raise ValueError(why)
    if given.rows and is_file(path) and not given.status:
        refuse_a_second(path, given.rows, heading.at, heading.of)
    return journal


def refuse_other_script(journal: Journal, script: Script) -> None:
    """Raises `ValueError` if rows were imported by a script with another meaning."""
    heading = journal.heading
    for what, mine, its in zip(("script", "formats of columns"), script.sums(),
                               (heading.script, heading.formats)):
        if mine != its:
            raise ValueError(f"{journal.place} has rows of another {what}: sum {its}, not {mine}")


def of_table(given: argparse.Namespace, key: str) -> tuple[Checked, list[Any], list[Any]]:
    """Reads the table at the start of a run. Returns the script with its rows, and their keys."""
    checked, rows, keys = Checked(given.rows, given, key, later=False), list[Any](), list[Any]()
    for row, steps in checked:
        rows.append(steps)
        keys.append(row[key] if key else None)
    return checked, rows, keys


def refuse_stored(given: argparse.Namespace, steps: list[Step]) -> None:
    """Raises `ValueError` if the script stores what is to tell cards apart."""
    if given.id and any(isinstance(it.operation, Put) and it.operation.tag == given.id
                        for it in steps):
        raise ValueError(f"{given.script} stores {given.id:X}, so that can't tell cards apart")


def table_of(path: str, journal: str) -> str:
    """Returns what a journal names a table. On a server its folder does not matter."""
    return place_of(path) if is_file(journal) else os.path.basename(path)


def new_heading(given: argparse.Namespace, table: str, checked: Checked) -> Heading:
    """Returns the heading of a journal that is to be created. Raises `ValueError`."""
    (at, of), path = given.part or (1, 1), given.journal[0]
    if is_file(path):
        refuse_a_second(path, table, at, of)
    made = Heading(at, of, given.id, given.key or "", os.urandom(16).hex(), table_of(table, path))
    if not given.brings:
        return made
    columns = tuple(it for it in checked.table.columns if it not in checked.script.secrets)
    script, formats = checked.script.sums()
    return replace(made, columns=columns, script=script, formats=formats)


def brings(given: argparse.Namespace, ends: contextlib.ExitStack) -> int:
    """Imports a table: all of its rows, or none."""
    path, journal = given.journal[0], None if given.new or given.check else opened(given, ends)[0]
    key = journal.heading.key if journal else given.key or ""
    checked = Checked(given.brings, given, key, later=True)
    if checked.script.wrong or given.check:
        print(f"{counted(sum(1 for _ in checked), 'row')}, and no mistake", flush=True)
        return 0
    heading = new_heading(given, given.brings, checked)
    if journal is None:
        create(path, heading)
        journal = ends.enter_context(contextlib.closing(Journal(path)))
    refuse_other_script(journal, checked.script)
    if heading.columns != journal.heading.columns:
        raise ValueError(f"{path} has rows of other columns")

    def rows() -> Iterator[tuple[Optional[str], str]]:
        for row, steps in checked:
            refuse_stored(given, steps)
            yield row[checked.key] if checked.key else None, text_of(row, heading.columns)

    try:
        print(f"{counted(journal.add(rows()), 'row')} imported", flush=True)
    except BaseException:
        if given.new:
            journal.base.drop()
        raise
    return 0


def begun(given: argparse.Namespace, journals: list[Journal], ends: contextlib.ExitStack
          ) -> tuple[Rows, Script]:
    """Returns the rows that a run writes, with the script, after all mistakes were looked for.
    Creates a new journal. Raises `ValueError` for a journal that does not fit."""
    if not given.rows:
        script = Script(given.script, read(given.script), [*journals[0].heading.columns])
        if script.wrong:
            raise ValueError("\n".join(script.wrong))
        for it in journals:
            refuse_other_script(it, script)
        names_readers(given)
        secrets = secrets_of(given, journals[0].heading.key, script)
        return Imported(journals[0], script, secrets), script
    checked, rows, keys = of_table(given, journals[0].heading.key if journals else given.key or "")
    names_readers(given)
    for steps in rows:
        refuse_stored(given, steps)
    if given.new:
        create(given.journal[0], new_heading(given, given.rows, checked), given.check)
        if not given.check:
            journals += opened(given, ends)
    for journal in journals:
        refuse_changed(journal, rows)
        journal.sync(keys)
    return rows, checked.script


def names_readers(given: argparse.Namespace) -> None:
    """Raises `ValueError` or `OSError` if a run has not its readers."""
    if given.status or given.done or given.again:
        return
    from . import desk  # which needs PC/SC

    if given.reader or not given.check:
        desk.chosen(given.reader)


def refuse_changed(journal: Journal, rows: list[list[Step]]) -> None:
    """Raises `ValueError` if a row that has begun is no longer what it was."""
    for it in journal.begun():
        if it.number > len(rows):
            raise ValueError(f"{journal.place}: row {it.number} has begun, and the table has "
                             f"{counted(len(rows), 'row')}")
        if it.state != "free" and it.digest != check_of(rows[it.number - 1], journal.heading.salt):
            what = "has begun with other cells or another script"
            raise ValueError(f"{journal.place}: row {it.number} {what}")


def asked(given: argparse.Namespace, journal: Journal) -> int:
    """Copies a journal, or prints a row of it, or writes the results of all."""
    if given.backup:
        journal.base.backup(given.backup)
    elif given.export:
        report.export(given.export, journal)
    else:
        print("\n".join(report.history(journal, given.row)).translate(CONTROLS), flush=True)
    return 0


def work(given: argparse.Namespace, ends: contextlib.ExitStack) -> int:
    """Does what the words say. Returns the exit status. Raises `ValueError` and `OSError`."""
    if given.brings:
        return brings(given, ends)
    journals = [] if given.new else opened(given, ends)
    if given.backup or given.export or given.row:
        return asked(given, journals[0])
    rows, script = begun(given, journals, ends)
    if given.status or given.done or given.again:
        for row, word in [(it, word) for word in ("done", "again") for it in getattr(given, word)]:
            journals[0].decide(row, word)
        return finished(journals, given.report)
    if given.check:
        print(f"{counted(len(rows), 'row')}, and no mistake", flush=True)
        return 0
    from . import desk

    if given.look:
        return desk.look(rows, journals[0], given)
    journals[0].start(script.sums()[0])
    report.write(given.report, journals)
    print("\n".join(start_lines(journals[0])), flush=True)
    run = desk.Desk(rows, journals[0], given)
    run.run()
    print(*(f"{it}\n" for it in run.faults), sep="", end="", file=sys.stderr)
    try:
        return finished(journals, given.report) or int(bool(run.faults))
    except OSError:
        if run.faults:
            return 2  # for the same reason
        raise


@program
def main(words: Optional[list[str]] = None) -> int:
    """Runs the program. Returns its exit status."""
    given = parsed(words)
    try:
        with contextlib.ExitStack() as ends:
            return work(given, ends)
    except ImportError as error:
        if (package := _PACKAGES.get((error.name or "").partition(".")[0])) is None:
            raise
        lines = [package]
    except (ValueError, OSError, KeyboardInterrupt) as error:
        lines = (str(error) or "interrupted").split("\n")
    if (more := len(lines) - _SHOWN) > 0:
        more_than = "more than " if len(lines) > MOST else ""
        lines[_SHOWN:] = [f"and {more_than}{more} more mistakes"]
    text = "\n".join(f"galliumtoad.batch: {line}" for line in lines)
    print(text.translate(CONTROLS), file=sys.stderr)
    return 2
