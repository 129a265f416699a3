"""What a batch writes to cards: operations as gt_pcsc takes them, with columns of a table in the
words; and how it does so. A `ValueError` has all mistakes, one a line, without a value."""

import functools
import re
from datetime import datetime
from hashlib import blake2b
from pathlib import Path
from typing import Any, Callable, Iterator, Mapping, NamedTuple, Optional

from ..errors import Error
from ..terminal import Get, Level, Operation, Put, Select, Send, Terminal, Transport

_COLUMN = re.compile(r"\{([^{}]*)\}")
VALUE_LIMIT = 64 * 255  # the data of 64 commands
Row = Mapping[str, str]


class Step(NamedTuple):
    """An operation for one row. `shown` has no value. A hidden header may contain a cell."""

    line: int
    shown: str
    hides_header: bool
    is_secret: bool
    operation: Operation


def read(path: str) -> str:
    """Reads a file. A byte that is not UTF-8 becomes a character that no value can contain."""
    data = Path(path).read_bytes()
    if data[:2] in (b"\xff\xfe", b"\xfe\xff"):
        raise ValueError(f"{path} is in UTF-16: save it in UTF-8")
    return data.decode("utf-8-sig", "surrogateescape")


def counted(number: int, what: str) -> str:
    return f"{number:,} {what}{'' if number == 1 else 's'}"


def _text(text: str) -> str:
    if "\0" in text:
        raise ValueError("a NUL character")
    if re.search("[\ud800-\udfff]", text):
        raise ValueError("not UTF-8")
    return text


def digits(text: str) -> bytes:
    if _text(text) == "":
        raise ValueError("empty, and the script needs a value")
    if text[:2] in ("0x", "0X"):
        raise ValueError("0x before the digits")
    if found := re.search("[^0-9A-Fa-f]", text):
        what = "a space" if found[0].isspace() else "no hexadecimal digit"
        raise ValueError(f"{what}, as character {found.start() + 1}")
    if len(text) % 2:
        raise ValueError(f"{counted(len(text), 'digit')}, an odd number")
    return bytes.fromhex(text)


def _begun(kind: Any, word: Any, fault: str = "") -> Any:
    """Returns a word that begins this operation. Raises `ValueError` for others."""
    try:
        with Terminal() as terminal:
            terminal.begin(kind(word))
    except (ValueError, Error) as error:
        raise ValueError(fault or str(error)) from None
    return word


def identifier(text: str) -> Any:
    found = digits(text)
    return _begun(Select, found, f"{counted(len(found), 'byte')}, but an identifier has 5 to 16")


def command(text: str) -> Any:
    return _begun(Send, digits(text))


def tag(text: str) -> Any:
    if (found := digits(text))[0] == 0:
        raise ValueError("a tag has no 00 in front")
    return _begun(Get, int.from_bytes(found, "big"), "not a tag that a command can name")


def value(text: str) -> bytes:
    if found := re.fullmatch(r"([0-9A-Fa-f]{2})\*([1-9][0-9]{0,4})", text):
        return bytes.fromhex(found[1]) * int(found[2])
    return b"" if text == "-" else digits(text)


def meaning(reads: Any, word: str, row: Row) -> Any:
    """Returns what a word means. As a value `@{column}` is the text of a cell, `@NAME` a file."""
    text = _COLUMN.sub(lambda it: row[it[1]], word)
    if reads is not value or word[0] != "@":
        found = reads(text)
    elif _COLUMN.fullmatch(word, 1):
        found = _text(text[1:]).encode()
    else:
        try:
            found = Path(_text(text[1:])).read_bytes()
        except OSError as error:
            raise ValueError(f"no file: {error.strerror}") from None
    if reads is value and len(found) > VALUE_LIMIT:
        raise ValueError(f"{len(found):,} bytes, more than the {VALUE_LIMIT:,} of a value")
    return found


# The operation of each first word, and what reads its other words.
_KINDS: dict[str, tuple[Any, ...]] = {"select": (Select, identifier), "send": (Send, command)}
_KINDS |= {"get": (Get, tag), "put": (Put, tag, value)}


# A line about a column: its name, whether it is secret, and its format with its size or form.
_SECRET = re.compile("(?m)^ *column +([^ ]+) +secret(?= |\r?$)")
_FORMAT = re.compile("column ([^ ]+)(?: secret)?(?: ((?:hex|digits|text)(?: [1-9][0-9]{0,4})?"
                     "|date(?: (?:YYYY|YY|MM|DD|[-./])+)?)|(?<= secret))")
_DAY = {"YYYY": "%Y", "YY": "%y", "MM": "%m", "DD": "%d"}
_SHORTENED = re.compile("-?[0-9]+([.,][0-9]*)?E[+-][0-9]+")  # by a spreadsheet


def misfit(cell: str, form: str) -> str:
    """Returns why a cell does not have this format, or an empty text."""
    kind, _, size = form.partition(" ")
    if kind == "date":
        wanted = re.sub("|".join(_DAY), lambda it: _DAY[it[0]], size or "YYYY-MM-DD")
        try:
            fits = datetime.strptime(cell, wanted).strftime(wanted) == cell
        except (ValueError, re.error):  # a form may have a part twice
            fits = False
    elif kind == "text":
        if _SHORTENED.fullmatch(cell):
            return "a number that a spreadsheet has shortened"
        fits = len(cell) <= int(size or len(cell))
    else:
        signs = "0-9" if kind == "digits" else "0-9A-Fa-f"
        fits = bool(re.fullmatch(f"[{signs}]{{{size or '1,'}}}", cell))
    return "" if fits else f"{counted(len(cell), 'character')}, not `{form}`"


class Script:
    """The operations of a file, one a line, the formats of columns, and the mistakes in them. The
    table may lack columns that are secret."""

    def __init__(self, path: str, text: str, columns: list[str]) -> None:
        self.lines, self.wrong, self._columns = dict[int, list[str]](), list[str](), columns
        self.formats, self.secrets = list[tuple[str, str]](), {*_SECRET.findall(text)}
        self._fixed = functools.cache(functools.partial(meaning, row={}))  # reads a file once
        for number, line in enumerate(text.replace("\r\n", "\n").split("\n"), 1):
            words = [it for it in line.split(" ") if it]
            faults = self._faults(number, words) if words and line[0] != "#" else ()
            self.wrong += [f"{path}:{number}: {it}" for it in faults]
        if not self.lines and not self.wrong:
            self.wrong.append(f"{path} has no operation")

    def _faults(self, number: int, words: list[str]) -> Iterator[str]:
        """Yields the mistakes of a line, and keeps its words if there are as many as it takes."""
        if (first := words[0]) == "column":
            if found := _FORMAT.fullmatch(" ".join(words)):
                if found[2]:
                    self.formats.append((found[1], found[2]))
                yield from self._unknown(found[1])
            else:
                what = "hex, digits, text or date, with its size"
                yield f"`column` takes a name and a format: {what}"
        elif first not in _KINDS:
            yield f"`{first}` is no operation: it is one of {', '.join(_KINDS)}"
        elif len(words) != len(_KINDS[first]):
            yield f"`{first}` has {counted(len(words) - 1, 'word')}, not {len(_KINDS[first]) - 1}"
        else:
            self.lines[number] = words
            for reads, word in zip(_KINDS[first][1:], words[1:]):
                try:
                    _COLUMN.search(word) or self._fixed(reads, word)
                except ValueError as error:
                    yield f"`{first}`: {reads.__name__}: {error}"
                for it in _COLUMN.findall(word):
                    yield from self._unknown(it)

    def sums(self) -> tuple[str, str]:
        """Returns the sum of the operations, with the files that they name, and that of the lines
        about columns."""
        said = [[words[0], *(it if _COLUMN.search(it) else self._fixed(reads, it)
                             for reads, it in zip(_KINDS[words[0]][1:], words[1:]))]
                for words in self.lines.values()]
        return digest(said).hex(), digest((self.formats, sorted(self.secrets))).hex()

    def _unknown(self, name: str) -> Iterator[str]:
        """Yields the mistake of a name that is not that of one column."""
        number = self._columns.count(name)
        if number != 1 and not (number == 0 and name in self.secrets):
            what = f"{number} columns" if number else "no column"
            listed = ", ".join(map(repr, filter(None, self._columns))) or "no columns"
            yield f"{what} '{name}': the table has {listed}"

    def steps(self, row: Row, where: str, wrong: list[str]) -> list[Step]:
        """Returns the steps for a row, whose place is `where`. Adds its mistakes to `wrong`."""
        cells = ((it, misfit(row[it], form)) for it, form in self.formats if it in row)
        faults = {it: fault for it, fault in cells if fault}
        wrong += [f"{where}, column {it!r}: {fault}" for it, fault in faults.items()]
        steps = []
        for line, words in self.lines.items():
            made, (kind, *readers) = [], _KINDS[words[0]]
            for reads, word in zip(readers, words[1:]):
                columns = _COLUMN.findall(word)
                try:
                    made.append(meaning(reads, word, row) if columns else self._fixed(reads, word))
                except (KeyError, ValueError) as error:
                    noun = "columns" if len(columns) > 1 else "column"
                    named = f"{noun} {', '.join(map(repr, columns))}"
                    is_known = isinstance(error, KeyError) or faults.keys() & columns
                    if columns and not is_known:  # without columns it is the script's
                        wrong.append(f"{where}, {named}: {error}")
            if len(made) == len(readers):
                shown = " ".join(words[:2] if words[0] in ("get", "put") else words[:1])
                hides = words[0] != "select" and bool(_COLUMN.search(words[1]))
                is_secret = bool(self.secrets.intersection(_COLUMN.findall(" ".join(words))))
                steps.append(Step(line, shown, hides, is_secret, kind(*made)))
        return steps


def texts_of(script: Script) -> list[str]:
    """Returns the columns whose texts a script stores."""
    words = [it for line in script.lines.values() for it in line if it[0] == "@"]
    return sorted({found[1] for it in words if (found := _COLUMN.fullmatch(it, 1))})


def digest(said: object, key: bytes = b"") -> bytes:
    return blake2b(repr(said).encode(), key=key, digest_size=8).digest()


def check_of(steps: list[Step], salt: str) -> str:
    """Returns a sum of what is sent for a row, without secrets, with a journal's salt."""
    said = [(type(it.operation).__name__, *sorted(vars(it.operation).items())) if not it.is_secret
            else it.shown for it in steps]
    return digest(said, bytes.fromhex(salt)).hex()


class Refused(Exception):
    """The card refused an operation, returned another object, or stored another value."""


class Recorder:
    """A transport that keeps what `trace_explain` reads, without data. It raises `ConnectionError`
    alone."""

    def __init__(self, transport: Transport) -> None:
        self.level = getattr(transport, "level", Level.TPDU)
        self.transport, self.lines, self.hides_header = transport, list[str](), False

    def __call__(self, data: bytes, /) -> bytes:
        shown = 0 if self.hides_header else 5
        self._add(">", bytes(data[:shown]), len(data) - shown)
        try:
            answer = bytes(self.transport(data))
        except Exception as error:
            self.lines.append(f"# {sentence(error)}")
            raise ConnectionError(sentence(error)) from error
        self._add("<", answer[-2:], len(answer) - 2)
        return answer

    def _add(self, sign: str, shown: bytes, hidden: int) -> None:
        if shown:
            self.lines.append(f"{sign} {shown.hex().upper()}")
        if hidden > 0:
            self.lines.append(f"# {sign} ** {hidden} bytes")


def sentence(error: BaseException) -> str:
    return " ".join(str(error).split()) or type(error).__name__


def stored(terminal: Terminal, reader: Transport, tag: int) -> tuple[Optional[bytes], str]:
    """Reads the value under a tag. Returns None and a reason if the card has none."""
    answer = terminal.run(reader, Get(tag))
    if found := answer.object(tag):
        return found.value, ""
    reading = f"its reading was answered {answer.status:04X} {answer.status.text}"
    return None, "read back nothing" if answer.status.is_ok else reading


def identity(terminal: Terminal, reader: Transport, tag: int) -> str:
    """Returns the digits of a card's identifier. Raises `Refused` if the card has none."""
    value, reason = stored(terminal, reader, tag)
    if not value:
        raise Refused(f"the card has no identifier {tag:X}: {reason or 'it is empty'}")
    return value.hex().upper()


def carry_out(
    steps: list[Step], reader: Recorder, identify: Callable[[Terminal], None] = lambda _: None
) -> tuple[str, str]:
    """Carries out a row's steps, and reads each put back. Calls `identify` before the first put or
    send, or at the end. Returns how the row ended, and why: `unused` if no put or send had begun,
    else `failed` if it was `Refused`, `unsure` if the reader failed or an answer did not fit."""
    has_written = False
    try:
        with Terminal() as terminal:
            for step in steps:
                if isinstance(step.operation, (Put, Send)) and not has_written:
                    identify(terminal)
                    has_written = True
                reader.lines.append(f"# line {step.line}: {step.shown}")
                reader.hides_header = step.hides_header
                if fault := _fault_of(terminal, reader, step):
                    raise Refused(f"{step.shown} was {fault}")
                reader.hides_header = False
            if not has_written:
                identify(terminal)
    except (Refused, ConnectionError, ValueError, Error) as error:
        word = "failed" if isinstance(error, Refused) else "unsure"
        return word if has_written else "unused", sentence(error)
    return "done", ""


def _fault_of(terminal: Terminal, reader: Transport, step: Step) -> str:
    operation, answer = step.operation, terminal.run(reader, step.operation)
    if not answer.status.is_ok:
        return f"answered {answer.status:04X} {answer.status.text}"
    if isinstance(operation, Get) and not answer.object(operation.tag):
        return "answered 9000, but not with this object"
    if isinstance(operation, Put):
        value, reason = stored(terminal, reader, operation.tag)
        if value != operation.value:
            return f"answered 9000, and {reason or 'read back another value'}"
    return ""


def compared(steps: list[Step], reader: Transport) -> str:
    """Compares a card with a row, and writes nothing. What `send` has done can't be read back."""
    wanted, application, sends, same, others = dict[tuple[bytes, int], bytes](), b"", 0, 0, 0
    for step in steps:
        if isinstance(it := step.operation, Select):
            application = bytes(it.aid)
        elif isinstance(it, Put):
            wanted[application, it.tag] = bytes(it.value)
        sends += isinstance(it, Send)
    if not wanted and not sends:
        return "unknown: the script stores nothing"
    for (application, tag), value in wanted.items():
        with Terminal() as terminal:
            selects = Select(application)
            is_there = not application or terminal.run(reader, selects).status.is_ok
            found = stored(terminal, reader, tag)[0] if is_there else None
        same += found == value
        others += found not in (None, value)
    partly = f"partly: {same} of {len(wanted)} objects"
    if sends:
        return f"{partly}, and {counted(sends, 'send')} can't be read back"
    if same:
        return "done" if same == len(wanted) else partly
    values = f"{counted(others, 'other value')} {'is' if others == 1 else 'are'}"
    return f"untouched, if {values} its own" if others else "untouched"
