"""The cases of `trace_explain`: input, words and expected output.

- checks/explain/cases/NAME.trace with NAME.out (the whole output), NAME.args (words), and NAME.err
  (standard error, if the status is 1). Those in captures/ are whole sessions.
- statuses.txt, uicc_statuses.txt: `HEADER STATUS SENTENCE`, the sentence for a status after such a
  command.
- titles.txt: the title of a command, as `HEADER | TITLE`, `HEADER > DATA | TITLE` (data of the
  terminal) or `HEADER < DATA | TITLE` (data of the card).
- secrets_told.py: traces with a secret, which the output must not show.
- long_traces.py: traces in which the interesting part comes late.
- stories.cases: several TPDUs. A case begins with `case`, or with `signed` if only the signs show
  who sent what. Its other lines begin with a word, too:
  - `in`: a line of the trace; `with`: a line of the second trace for `--diff`; `$`: the words.
    `file`: a line of the file for `--form-file`.
  - `out`: a line of the output. Rows of headers, procedure bytes, data and statuses are left out,
    except with a mask or `--diff`. Of a page only the part below its head is compared.
  - `refused`, `name` and `whole`: the lines of a GET DATA (`GETS`), as `refused #2 3` for its
    number and line, and then its time if it has one. `object` is its last rows (`OBJECT`).
  - `box #2 3 GET DATA of 50 | < 4142 | 9000`: a TPDU with its number, line, title, data and status.
    It may have the rows `| time ..`, `| blocks ..`, `| before ..`, `| header ..` and
    `| procedure ..`. Without the fourth, the header is the first five bytes of that line.
    Without the last one and blocks, the procedure of data is `all at once`. `/` separates lines
    of data and blocks. On a page the color comes first: `box well #2 3 ..`.
  - `answer 1 3B800181 T=1`: an answer to reset in line 1, or as `answer 1` that of 3B00. Rows with
    other values follow, as `| historical 43 / a proprietary form`, with `/` between their lines.
    `broken 1 3B cut at 1`: one at fault.
  - `pps 2 FF00FF T=0; ..`: a PPS request in line 2, with the same response and this meaning.
    Another response follows with its meaning, as `| FF01FE not agreed: ..`, or `| none`.
  - `unexpected 2 1 55 card a status` and `fault 1 00A404 6700 a reason`: an unexpected byte, or
    command and answer (`rows_of`).
  - `counts 1 | GET DATA: 1 | none other than 9000 | errors: 0`: the last block.
  - `bad LINE`: a case in which this line alone is refused as `bad hex`. In logs.cases it
    has `--tpdu`.
  - `err`: a line on standard error, in place of that for the first protocol error. `time`: the time
    in the last block.
  - `\\xHH` in a line is that byte.
- In the same form, with the whole output above the last block:
  - dialogues.cases: several TPDUs, with all rows; answers.cases: answers to reset and PPS.
  - lines.cases: the forms of lines, each also as a row `form`; times.cases: times before the signs.
  - bare.cases: commands without data whose card repeats INS.
  - unsigned.cases: lines without signs; logs.cases: logs of whole TPDUs.
  - loose.cases: headers and commands that a mask hides.
  - forms.cases: forms of logs of many programs, said and found, and of files.
  - commands.cases: joined TPDUs.
  - json.cases: objects of JSON, with the last one; blocks.cases: blocks of T=1.
  - names.cases: names of objects, and their values in words.

Only cases/ lists the last block. Elsewhere `block_of` counts what is above it. In the tables
a line that begins with `#` is a comment."""

import os
import re
import subprocess
import tempfile
from collections import Counter
from dataclasses import dataclass, field, replace
from itertools import chain, cycle, islice, zip_longest
from pathlib import Path

import long_traces
import secrets_told as secrets

HERE = Path(__file__).resolve().parent
CASES = HERE / "cases"
TITLE = re.compile(r"#\d+ (.*)  \(line \d+\)$")
STATUS = re.compile(r"  < status     ([0-9A-F]{4} .*)$")
# A name consists of words in capitals. What SELECT selects may also be in capitals.
COMMAND = re.compile(
    r"#\d+ (INS [0-9A-F]{2}|SELECT|part of a header|\*\*|[A-Z]+(?:[ /][A-Z]+)*)(?![A-Za-z])"
)
TIME = re.compile(r"^    time       (.*)$", re.MULTILINE)
PROTOCOL_ERRORS = ("unexpected byte  (", "unexpected command or answer  (")
AT_FAULT = re.compile(r"    fault      .* \(TS is at 0\)$")
BLOCK = "summary"
HEX = re.compile(r"\b(?:[0-9A-F]{2})+\b")
TITLES = "<h1>A trace, explained</h1>", "<h1>Two traces, compared</h1>"
ENDS = '<div class="ends"><span>Terminal</span><span>Card</span></div><div>'
ODD = re.compile(rb"\\x([0-9A-F]{2})")
# The program's signs, the longer ones first. A line has one after an optional time or count.
FORMS = (HERE.parents[1] / "crates/trace_explain/src/read/forms.rt").read_text(encoding="utf-8")
OF_CHARACTERS = FORMS.partition(": commands")[0]
# The forms of whole commands, and the options of a log of them.
OF_FORMS = re.findall(r"^form (\S+): commands$", FORMS, re.M)
OF_LOGS = {"--tpdu", *OF_FORMS}
SIGNS = re.findall(r"^(?:command|answer): (.+) \{bytes\}$", OF_CHARACTERS, re.M)
ANY_SIGN = "|".join(sorted(map(re.escape, SIGNS), key=len, reverse=True)).encode()
SIGNED = re.compile(
    rb"^((?:\xEF\xBB\xBF)?(?:\[ *[\d:.]+\] *|\+[\d:.]+ +[mu]?s +|\d+[:.][\d:.]* +)?)"
    rb"(?:" + ANY_SIGN + rb")(?: +|(?=\r?$))",
    re.M,
)
COUNTED = re.compile(rb"^\d+ +[^\d ]", re.M)
SPEAK_OF_SIGNS = {"--form", "--swap", "--unsigned", "--tpdu"}
# The directions of instructions that no table has.
WAYS = ["--to-card", "50,82,A8,AE,E2"]
# A word beside a hidden value of an object.
BESIDE = re.compile(r"^(?: {15}|  [<>] data {7}) *(?:[0-9A-F]{2})+ \*\*.")
WORDED = re.compile(r"^( *(?:[<>] data +)?(?:[0-9A-F]{2})+.*?)  [A-Za-z].*$")
ROW = re.compile(r"  [ <>] (header|procedure|data|status) ")
# The rows of a GET DATA of 5F20: one that the card refuses, one that brings a name, and the same as
# a whole command.
OF_NAME = ['  < data       4A4F45 "JOE"', "  < status     9000 normal processing"]
GETS = {
    "refused": ["  > header     00CA5F2001", "  < status     6A88 referenced data not found"],
    "name": ["  > header     00CA5F2003", "  < procedure  all at once", *OF_NAME],
    "whole": ["  > header     00CA5F2003", *OF_NAME],
}


# The rows of a whole GET DATA of 5F20 that brings the object.
OBJECT = ["  > header     00CA5F2000", '  < data       5F20 4A4F45 "JOE"  cardholder name',
          "  < status     9000 normal processing"]
# The rows of a TPDU that have a name in a row `box`.
NAMED = ("time ", "blocks ", "before ", "header ", "procedure ")
# The sentences of two statuses.
SENTENCES = {"9000": "9000 normal processing", "6A88": "6A88 referenced data not found"}


@dataclass
class Case:
    """The input, the words, and the expected output."""

    name: str
    given: bytes
    wanted: list
    words: list = field(default_factory=list)
    error: str = ""
    part: str = "all"
    secret: bytes = b""
    other: bytes = b""
    form: bytes = b""
    time: str = ""
    is_signed: bool = False

    def fault(self, out, err):
        """What is wrong with the output, or an empty text."""
        if self.secret:
            return self.leak(out, err)
        if err != self.error:
            return f"{self.name}: on standard error {err!r}, and not {self.error!r}"
        lines = out.splitlines()
        is_text = self.part not in ("page", "parts", "json")
        if is_text and not {"--summary", "--diff"} & set(self.words):
            lines, block = without_block(lines)
            for wanted, line in zip_longest(block_of(lines, self.time), block):
                if wanted != line:
                    return f"{self.name}: in the last block {line!r}, and not {wanted!r}"
        if self.part == "all":
            lines = out.splitlines()
        if self.part == "page" and TITLES["--diff" in self.words] not in lines:
            return f"{self.name}: no title"
        said = PARTS[self.part](lines)
        for wanted, line in zip(self.wanted, said):
            if wanted != line:
                return f"{self.name}: {line!r}, and not {wanted!r}"
        if len(said) != len(self.wanted):
            return f"{self.name}: {len(said)} lines, and not {len(self.wanted)}"
        wide = [it for it in out.splitlines() if is_text and len(it) > 100]
        wide = [it for it in wide if len(without_words(it)) > 100]
        return f"{self.name}: more than 100 columns: {wide[0]!r}" if wide else ""

    def statuses(self):
        """The allowed exit statuses. Cases with a secret test the output alone. The form that was
        found is no fault."""
        if self.secret:
            return 0, 1
        differ = "--diff" in self.words and "alike: " not in "".join(self.wanted)
        is_fault = any(not line.startswith("form: ") for line in self.error.splitlines())
        return (1,) if is_fault or differ else (0,)

    def leak(self, out, err):
        """The line that shows a byte of the secret, as digits or as text, or an empty text."""
        body = out.partition(ENDS)[2] if "--html" in self.words else out
        for line in (body + err).splitlines():
            for digits in HEX.findall(line):
                if any(byte in self.secret for byte in bytes.fromhex(digits)):
                    return f"{self.name} {self.words}: {line!r} tells of the secret"
            if any(pair in line for pair in ("Qz", "zx", "xv", "vT")) or BESIDE.search(line):
                return f"{self.name} {self.words}: {line!r} tells of the secret"
        if "**" in body or '"masked":true' in body or "--summary" in self.words:
            return ""
        return f"{self.name}: nothing is hidden"


def without_words(line):
    """A line of an object without the words that follow its digits, which don't wrap."""
    return WORDED.sub(r"\1", line)


def without_block(lines):
    """The lines above the last block, and those of the block."""
    begins = len(lines) - lines[::-1].index(BLOCK) - 1 if BLOCK in lines else len(lines)
    return lines[:begins], lines[begins:]


def block_of(lines, time):
    """The last block for these lines: the counts of what they show, and the time."""
    names = [it[1] for line in lines if (it := COMMAND.match(line))]
    commands = Counter(name.replace("RECORDS", "RECORD") for name in names)
    came = [it[1] for line in lines if (it := STATUS.match(line))]
    statuses = Counter(line.split()[0] for line in came if not line.startswith("9000 "))
    cut_off = commands.total() - len(came)
    of_them = f" (cut off: {cut_off})" if cut_off else ""
    at_fault = sum(bool(AT_FAULT.match(line)) for line in lines)
    return [
        BLOCK,
        *row("TPDUs", [f"{commands.total()}{of_them}"]),
        *(row("blocks", [marked(blocks)]) if (blocks := blocks_in(lines)) else []),
        *row("commands", counted(commands, rank) or ["none"]),
        *row("statuses", counted(statuses, str) or ["none other than 9000"]),
        *row("protocol", [f"errors: {sum(line.startswith(PROTOCOL_ERRORS) for line in lines)}",
                          *([f"answers to reset at fault: {at_fault}"] if at_fault else [])]),
        *(row("time", [time]) if time else []),
    ]


def blocks_in(lines):
    """The lines of blocks at T=1, also of those outside of TPDUs."""
    found, within = [], False
    for line in lines:
        within = line.startswith("    blocks     ") or (within and line.startswith(" " * 15))
        if within:
            found.append(line[15:])
        elif re.match(r"\| [<>] (?:[IRS]\(|damaged block |part of a block)", line):
            found.append(line[2:])
    return found


def marked(blocks):
    """How many blocks there are, and how many of them are marked."""
    again = sum(line.endswith(", again") for line in blocks)
    damaged = sum("damaged block" in line for line in blocks)
    lossy = sum("part of a block" in line or line.endswith("missing") for line in blocks)
    return f"{len(blocks)}: {again} again, {damaged} damaged, {lossy} in part or after a gap"


def counted(counts, order):
    """A line for each count."""
    return [f"{it}: {counts[it]}" for it in sorted(counts, key=order)]


def rank(command):
    """The order of commands: by name, those without a name, parts of headers, hidden ones."""
    return command == "**", command.startswith("part"), command.startswith("INS "), command


def row(label, lines):
    """The lines of a row of the last block."""
    return [f"    {label:<10} {lines[0]}", *(" " * 15 + line for line in lines[1:])]


def titles_in(lines):
    """The titles of the TPDUs."""
    return [found[1] for line in lines if (found := TITLE.match(line))]


def statuses_in(lines):
    """The statuses with their sentences. A sentence may continue in the next lines."""
    said = []
    open_row = False
    for line in lines:
        found = STATUS.match(line)
        if found:
            said.append(found[1])
        elif open_row and line.startswith(" " * 15):
            said[-1] += " " + line.strip()
        open_row = bool(found) or (open_row and line.startswith(" " * 15))
    return said


def page_in(lines):
    """The part of a page from below its head to its end."""
    return lines[lines.index(ENDS) + 1 : lines.index("</main>")]


def parts_in(lines):
    """The lines that begin and end the parts of a page of TPDUs."""
    return [line for line in lines
            if line.startswith('<details class="part"') or line == "</noscript></details>"]


def story_in(lines):
    """All lines except the rows that other tables test."""
    said = []
    within = False
    for line in lines:
        within = bool(ROW.match(line)) or (within and line.startswith(" " * 15))
        if not within:
            said.append(line)
    return said


PARTS = {
    "all": lambda lines: lines,
    "titles": titles_in,
    "statuses": statuses_in,
    "story": story_in,
    "page": page_in,
    "parts": parts_in,
    "shown": lambda lines: lines,
    "json": lambda lines: lines,
}


def rows(name):
    """The lines of a table, without comments."""
    lines = (HERE / name).read_text(encoding="utf-8").splitlines()
    return [line for line in lines if line.strip() and not line.startswith("#")]


def status_case():
    """Each status after its command, with a reset after it, in one trace."""
    given, wanted = [], []
    for line in [*rows("statuses.txt"), *rows("uicc_statuses.txt")]:
        header, status, _ = line.split(" ", 2)
        given += [f"> {header}", f"< {status}", "reset"]
        wanted.append(line.split(" ", 1)[1])
    return Case("statuses", lines_of(given), wanted, part="statuses")


def title_case():
    """Each whole command, with a reset after it, in one trace."""
    given, wanted = [], []
    for line in rows("titles.txt"):
        before, title = line.split("| ", 1)
        header, *data = before.split()
        given.append(f"> {header}")
        if data:
            sign, digits = data
            given += [f"< {header[2:4]}", f"{sign} {digits}"]
        given += ["< 6F00", "reset"]
        wanted.append(title)
    return Case("titles", lines_of(given), wanted, part="titles")


def rows_of(word, said):
    """The lines that a word stands for. One of GETS has its number, its line, and maybe its time.
    An answer to reset has its line. An unexpected byte has its place, itself, who sent it, and what
    was expected."""
    if word == "answer":
        return answer_of(said)
    if word == "pps":
        asked, _, answered = said.partition(" | ")
        line, characters, meaning = asked.split(" ", 2)
        rows_of_it = [f"PPS  (line {line})", f"  > request    {characters}", " " * 15 + meaning]
        characters, _, meaning = (answered or f"{characters} agreed: {meaning}").partition(" ")
        if not meaning:
            return [*rows_of_it, f"    response   {characters}"]
        return [*rows_of_it, f"  < response   {characters}", " " * 15 + meaning]
    if word == "broken":
        line, characters, fault = said.split(" ", 2)
        return [f"answer to reset  (line {line})", f"  < characters {characters}",
                f"    fault      {fault} (TS is at 0)"]
    if word == "fault":
        line, command, answer, fault = said.split(" ", 3)
        return [f"unexpected command or answer  (line {line})", f"    fault      {fault}",
                f"  > command    {command}", f"  < answer     {answer}"]
    if word == "unexpected":
        line, place, byte, end, expected = said.split(" ", 4)
        return [f"unexpected byte  (line {line})", f"    place      line {line}, character {place}",
                f"    expected   {expected}", f"    received   {byte} from the {end}"]
    number, line, *time = said.split(" ", 2)
    title = f"{number} GET DATA of 5F20  (line {line})"
    return [title, *(f"    time       {it}" for it in time), *GETS[word]]


def answer_of(said):
    """The lines of an answer to reset, by the protocols that it offers and the values that it
    changes."""
    about, *changed = said.split(" | ")
    line, characters, offered = [*about.split(), *("3B00", "T=0")[about.count(" "):]]
    names = offered.split(",")
    values = {
        "read": [], "convention": ["inverse" if characters.startswith("3F") else "direct"],
        "protocols": [", ".join(names)], "rate": ["Fi 372, up to 5000 kHz; Di 1"],
        "guard time": [f"{name}: 12 etu" for name in names],
        "waiting": ["T=0: 3571200 clock cycles"] if "T=0" in names else [],
        "historical": ["none"],
    }
    for it in changed:
        label = next((label for label in values if it.startswith(label)), it.split()[0])
        values[label] = it[len(label) + 1 :].split(" / ")
    return [f"answer to reset  (line {line})", f"  < characters {characters}",
            *(it for label, lines in values.items() if lines for it in row(label, lines))]


def box_of(said, case):
    """The lines of the TPDU of a row `box`. Its header is the first five bytes of its line, or of
    the block in it."""
    about, *parts, status = said.split(" | ")
    named = dict(it.split(" ", 1) for it in parts if it.startswith(NAMED))
    parts = [it for it in parts if not it.startswith(NAMED)]
    is_page = "--html" in case.words
    kind, about = about.split(" ", 1) if is_page else ("", about)
    number, line, title = about.split(" ", 2)
    given = SIGNED.sub(b"", case.given.splitlines()[int(line) - 1]).decode()
    digits = re.sub("[^0-9A-F]", "", given.upper())[6 if "blocks" in named else 0 :]
    header = named.get("header", title if title == "**" else digits[:10])
    shown = SENTENCES.get(status, status)
    pieces = [(" ", name, named[name]) for name in ("time", "blocks", "before") if name in named]
    pieces.append((">", "header", in_parts(header) if is_page else header))
    is_of_t0 = OF_LOGS.isdisjoint(case.words) and "blocks" not in named
    if "procedure" in named or (parts and is_of_t0):
        pieces.append(("<", "procedure", named.get("procedure", "all at once")))
    pieces += [(it[0], "Le", it[5:]) if " Le " in it else (it[0], "data", it[2:]) for it in parts]
    pieces.append((" " if shown.startswith("cut off") else "<", "status", shown))
    if not is_page:
        rows_of_it = (f"  {way} {name:<10} {text}".split(" / ") for way, name, text in pieces)
        further = ([first, *(" " * 15 + it for it in rest)] for first, *rest in rows_of_it)
        return [f"{number} {title}  (line {line})", *chain.from_iterable(further)]
    is_open = "" if kind == "well" else " open"
    word = "" if kind == "cut" else f'<b class="{kind}">{shown[:4]}</b> '
    beside = "".join(f"<span>{it[2:]}</span> " for it in parts if it[0] == "<" and "**" not in it)
    return [f'<details class="{kind}" id="t{number[1:]}"{is_open}><summary>{number} {title} {word}'
            f"{beside}<small>line {line}</small></summary>",
            *(line for way, name, text in pieces
              for line in piece(way, name, text.replace(" / ", "\n"))), "</details>"]


def in_parts(header):
    """The characters of a header, each with its name."""
    names = ("CLA", "INS", "P1", "P2", "P3")
    pairs = re.findall("..", header)
    return header if header == "**" else "  ".join(map(" ".join, zip(names, pairs)))


def piece(way, name, text):
    """The lines of a piece of a page, which one end sends, or neither."""
    kind, arrow = {">": ("t", "<i></i>"), "<": ("c", "<i></i>"), " ": ("n", "")}[way]
    return f'<div class="m {kind}"><b>{name}</b><pre>{text}</pre>{arrow}</div>'.split("\n")


def counts_of(said, case):
    """The lines of a row `counts`: the last block, as text or as a part of a page."""
    pieces = list(zip(("TPDUs", "commands", "statuses", "protocol"), said.split(" | ")))
    if "--html" not in case.words:
        return [BLOCK, *(it for name, text in pieces for it in row(name, text.split(", ")))]
    lines = (it for name, text in pieces for it in piece(" ", name, text.replace(", ", "\n")))
    return ["</div><section><h2>summary</h2>", *lines]


def error_of(case):
    """The text for the first protocol error that a case lists, and for how many there are."""
    places = [at for at, line in enumerate(case.wanted) if line.startswith(PROTOCOL_ERRORS)]
    if not places:
        return ""
    title, about, *rest = (it[15:] for it in case.wanted[places[0] : places[0] + 5])
    is_byte = case.wanted[places[0]].startswith(PROTOCOL_ERRORS[0])
    is_counted = not is_byte or "--resume" in case.words
    counted = f" (protocol errors: {len(places)})" if is_counted else ""
    if not is_byte:
        place = re.search(r"\((line \d+)\)", title)[1]
        return f"{place}: unexpected command or answer: {about}{counted}\n"
    byte, _, end = rest[1].partition(" from the ")
    hint = "".join(f"; {it}" for it in rest[2:] if case.wanted[places[0] + 4][4:8] == "hint")
    return (f"{about}: unexpected byte: the {end} sent {byte} in place of {rest[0]}{hint}"
            f"{counted}\n")


def form_cases(name, to, back, *others):
    """The cases of a form of lines, by its two signs. A line with a sign of another form is
    refused."""
    talk, said = [f"{to} 00CA5F2001", f"{back} 6A88"], ["--form", name]
    shown = rows_of("refused", "#1 1")
    fault = f"a sign of another form than {to} and {back}\n"
    cases = [
        (f"the signs {to} and {back}, alone too", [*talk, to, back], shown, [], ""),
        (f"the form {name}, said before", talk, shown, said, ""),
        (f"digits follow {to} and a space", [talk[0], f"{to} 0G"],
         [*shown[:2], "    status     cut off"], [], "line 2: bad hex\n"),
        (f"{back}00 is no sign, but a note", [f"{back}00", "# no character"],
         [f"| {back}00", "| # no character"], [], "no characters heard\n")
        if back.isalpha() else
        (f"a space follows {back}", [f"{back}00"], [], [], "line 1: bad hex\n"),
    ]
    for line in (f"{other} 00CA5F2001" for other in others):
        cases += [(f"after {to}: {line}", [*talk, line], shown, [], f"line 3: {fault}"),
                  (f"in the form {name}: {line}", [line], [], said, f"line 1: {fault}")]
    return [Case(title, lines_of(given), wanted, words, error, "shown")
            for title, given, wanted, words, error in cases]


def story_cases(name, part):
    """The cases of a file. `part` names the part of the output that the file lists."""
    found = []
    for line in rows(name):
        word, _, rest = line.partition(" ")
        if word in ("case", "signed"):
            found.append(Case(rest, b"", [], part=part, is_signed=word == "signed"))
        elif word == "bad":
            words = ["--tpdu"] if name == "logs.cases" else []
            found.append(Case(f"bad hex: {rest}", bytes_of(rest), [], words, "line 1: bad hex\n",
                              part))
        elif word == "form":
            found += form_cases(*rest.split())
        else:
            add_row(found[-1], word, rest, part)
    for it in found:
        it.error = it.error or error_of(it)
    return found


def add_row(case, word, rest, part):
    """Adds a row of a file to its case."""
    if word == "in":
        case.given += bytes_of(rest)
    elif word == "with":
        case.other += rest.encode() + b"\n"
    elif word == "file":
        case.form += rest.encode() + b"\n"
    elif word == "out":
        case.wanted.append(rest)
    elif word == "object":
        case.wanted += OBJECT
    elif word in ("box", "counts"):
        case.wanted += {"box": box_of, "counts": counts_of}[word](rest, case)
    elif word in (*GETS, "answer", "broken", "pps", "unexpected", "fault"):
        case.wanted += rows_of(word, rest)
    elif word == "err":
        case.error += rest + "\n"
    elif word == "time":
        case.time = rest
    elif word == "$":
        case.words = rest.split()
        is_shown = part != "json" and {"--mask", "--diff"} & set(case.words)
        case.part = "page" if "--html" in case.words else "shown" if is_shown else part
    else:
        raise ValueError(f"{case.name}: {word} {rest}")


def secret_cases(others=()):
    """Each trace or log with a secret, with a mask, in two ways. The first two of a name are also
    tried in all of the others, the next ones in one of them in turn. A log has no `--resume`."""
    turn, seen = cycle(others), Counter()
    for log, traces in ([], secrets.traces()), (["--tpdu"], secrets.of_logs()):
        for name, tags, lines in traces:
            seen[name] += 1
            more = others if seen[name] < 3 else islice(turn, 1)
            for words in (["--resume"], ["--json", "--commands"], *more):
                words = [word for word in words if word != "--resume" or not log]
                yield Case(name, lines_of(lines), [], [*log, *words, "--mask", *tags],
                           secret=secrets.BYTES)


def link_cases():
    """A page with more errors, and with more statuses, than it has links for."""
    for count, more in ((4, ""), (5, " and 1 more"), (7, " and 3 more")):
        given = ["> 00CA5F2000", "< 55"] * count
        links = [f'<a href="#e{it}">line {2 * it}</a>' for it in range(1, 5)]
        wanted = f"<p>faults in {' '.join(links)}{more}</p>"
        block = page_block(count, f" (cut off: {count})", "none other than 9000", count, wanted)
        error = (
            "line 2, character 1: unexpected byte: the card sent 55 in place of a procedure byte "
            f"or SW1 of the card (protocol errors: {count})\n"
        )
        words = ["--html", "--summary", "--resume"]
        yield Case(f"{count} protocol errors", lines_of(given), block, words, error, part="page")
    for count, more in ((8, []), (9, ["<p>1 more status</p>"]), (10, ["<p>2 more statuses</p>"])):
        words = [f"6A{0x80 + it:02X}" for it in range(count)] + ["6A80"] * 2
        given = [line for word in words for line in ("> 00CA5F2000", f"< {word}")]
        twice = f'<p>6A80, 3 times: <a href="#t1">first (#1)</a> <a href="#t{count + 1}">next '
        once = [
            f'<p>6A{0x7F + it:02X}, 1 time: <a href="#t{it}">first (#{it})</a></p>'
            for it in range(2, 9)
        ]
        wanted = [f"{twice}(#{count + 1})</a></p>", *once, *more]
        told = "6A80: 3\n" + "\n".join(f"6A{0x80 + it:02X}: 1" for it in range(1, count))
        block = [line for row in page_block(count + 2, "", told, 0, *wanted)
                 for line in row.splitlines()]
        words = ["--html", "--summary"]
        yield Case(f"{count} statuses", lines_of(given), block, words, part="page")


def part_cases():
    """Pages with as many TPDUs as are shown without a part, and with two parts beyond them."""
    for count, begun in ((2000, []), (2001, [2001]), (3001, [2001, 3001])):
        given = ["> 00CA5F2000", "< 6A88"] * count
        heads = [f'<details class="part"><summary>from #{it}</summary><noscript>' for it in begun]
        wanted = [line for head in heads for line in (head, "</noscript></details>")]
        yield Case(f"{count} on a page", lines_of(given), wanted, ["--html"], part="parts")


def page_block(count, cut_off, statuses, errors, *links):
    """The last block of a page with `count` GET DATA."""
    rows = {
        "TPDUs": f"{count}{cut_off}",
        "commands": f"GET DATA: {count}",
        "statuses": statuses,
        "protocol": f"errors: {errors}",
    }
    told = [f'<div class="m n"><b>{it}</b><pre>{rows[it]}</pre></div>' for it in rows]
    return ["</div><section><h2>summary</h2>", *told, *links, "</section>"]


def long_cases(traces):
    """Long traces. If rows are expected, all lines are compared."""
    for name, words, given, wanted, error in traces:
        other = []
        if "--diff" in words:
            given, other = given
        part = "shown" if any(ROW.match(line) for line in wanted) else "story"
        yield Case(name, lines_of(given), wanted, words, error, part, other=lines_of(other))


def whole_cases():
    """The cases of checks/explain/cases, which list the whole output."""
    for out in sorted(CASES.rglob("*.out")):
        text = {kind: there(out.with_suffix(f".{kind}")) for kind in ("out", "args", "err")}
        given = out.with_suffix(".trace").read_bytes()
        time = TIME.search(text["out"].rpartition(f"{BLOCK}\n")[2])
        yield Case(out.stem, given, text["out"].splitlines(), text["args"].split(), text["err"],
                   time=time[1] if time else "")


def unsigned_cases(signed):
    """The same cases without signs, except those in which only signs show who sent what."""
    for case in signed:
        words = {word for word in case.words if word.startswith("--")}
        if case.error or words & SPEAK_OF_SIGNS or case.is_signed or case.form:
            continue
        given, other = (SIGNED.sub(rb"\1", it) for it in (case.given, case.other))
        if given != case.given and not COUNTED.search(case.given + case.other):
            name = f"{case.name}, without signs"
            said = [*case.words, "--unsigned", *WAYS]
            yield Case(
                name, given, case.wanted, said, part=case.part, other=other, time=case.time
            )


def found_cases(cases):
    """The same logs without `--form`, since their first lines show it: as they are, in lines with
    CR and LF, and in UTF-16."""
    for case, code in zip(cases, cycle(("utf-16", "utf-16-le", "utf-16-be"))):
        form = " ".join(case.words).removeprefix("--form ")
        if form in OF_FORMS and not case.error:
            for end in (b"\n", b"\r\n"):
                yield replace(case, name=f"{case.name}, found, {end}", words=[],
                              given=case.given.replace(b"\n", end), error=f"form: {form}\n")
            if case.given.isascii():
                yield replace(case, name=f"{case.name}, found, {code}", words=[],
                              given=case.given.decode().encode(code), error=f"form: {form}\n")


def there(path):
    """The text of a file, or an empty text if it does not exist."""
    return path.read_text(encoding="utf-8") if path.exists() else ""


def bytes_of(line):
    """The bytes of a line of a table."""
    return ODD.sub(lambda it: bytes([int(it[1], 16)]), line.encode()) + b"\n"


def lines_of(lines):
    """The bytes of lines."""
    return "".join(f"{line}\n" for line in lines).encode()


def tables():
    """The cases of the tables, those of secrets, and the long ones."""
    others = [], ["--html"], ["--summary", "--resume"], ["--commands"]
    long = long_cases([*long_traces.traces(), *long_traces.at_limits()])
    return [*rows_and_stories(), *secret_cases(others), *long]


def rows_and_stories():
    """The cases of the tables, and whole sessions. Those with signs are also tried without, and
    logs without the name of their form."""
    signed = table_cases()
    return [*signed, *unsigned_cases(signed), *found_cases(signed)]


def table_cases():
    """The cases of the tables, and whole sessions."""
    return [
        status_case(),
        title_case(),
        *story_cases("stories.cases", "story"),
        *story_cases("dialogues.cases", "shown"),
        *story_cases("answers.cases", "shown"),
        *story_cases("lines.cases", "shown"),
        *story_cases("times.cases", "shown"),
        *story_cases("bare.cases", "shown"),
        *story_cases("unsigned.cases", "shown"),
        *story_cases("logs.cases", "shown"),
        *story_cases("loose.cases", "shown"),
        *story_cases("forms.cases", "shown"),
        *story_cases("damaged.cases", "shown"),
        *story_cases("commands.cases", "shown"),
        *story_cases("json.cases", "json"),
        *story_cases("blocks.cases", "shown"),
        *story_cases("names.cases", "shown"),
        *link_cases(),
        *part_cases(),
        *whole_cases(),
    ]


def all_cases():
    """All cases, the small ones first. Those with secrets are tried in two ways."""
    secret = secret_cases()
    long = long_cases(long_traces.traces())
    return [*rows_and_stories(), *secret, *long]


def some(cases):
    """All of these cases, or with CHECKS_BRIEF=yes each twentieth."""
    return list(cases)[:: 20 if os.environ.get("CHECKS_BRIEF") else 1]


def command_of(program, case, words, folder):
    """The program with these words. Writes the other files of the case to a folder."""
    command = [program, *words]
    if "--diff" in words:
        place = command.index("--diff") + 1
        command[place:place] = [f"{folder}/a", f"{folder}/b"]
        Path(folder, "a").write_bytes(case.given)
        Path(folder, "b").write_bytes(case.other)
    if case.form:
        command += ["--form-file", f"{folder}/form"]
        Path(folder, "form").write_bytes(case.form)
    return command


def refusal(program, case, seconds=None, **names):
    """What is wrong with a program's run on a case, or an empty text. `names` are added to the
    environment."""
    with tempfile.TemporaryDirectory() as folder:
        command = command_of(program, case, case.words, folder)
        run = subprocess.run(command, input=case.given, capture_output=True, check=False,
                             timeout=seconds, env={**os.environ, **names})
    said = case.fault(run.stdout.decode(errors="replace"), run.stderr.decode(errors="replace"))
    return said or ("" if run.returncode in case.statuses() else
                    f"{case.name}: status {run.returncode}")
