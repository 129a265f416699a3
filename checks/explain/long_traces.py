"""Traces in which the interesting part comes late: after 300 TPDUs, 250 lines or 70,000 characters,
or in hundreds of pieces or parts. Each is its name, the words, its lines (of both traces with
`--diff`), the expected lines, with all rows or none, and the expected standard error."""

HEADER_DUE = "a character of a header"
PROCEDURE_DUE = "a procedure byte or SW1 of the card"
# The most bytes of an answer or a dump in several lines, in lines of 16.
READ_LINES = 4_194_304 // 16
# With this name the title in behind_notes has 101 columns, with its line number.
NAME = "00112233445566778899AABBCCDD"


def traces():
    """All traces except those at limits, which are the longest."""
    yield behind_tpdus()
    yield "a chain of 300 pieces", [], *chain_of(300, "80" * 16, 1, 1), ""
    yield "a response in 300 parts", [], *response_of(300, "80" * 16, 1, 1), ""
    for made in (chain_of, response_of):
        yield f"65,790 bytes: {made.__name__}", [], *titles_of(made(258, "80" * 255, 1, 1)), ""
    yield behind_nulls(70_000)
    yield behind_notes()
    yield passed_over(250)
    yield alike()
    yield from long_logs()
    yield from heads()
    yield cut_line()
    yield two_heads()
    yield dropped_chains(16, "50 3132  application label \"12\"")
    yield dropped_chains(17, "**")


def at_limits():
    """Values in pieces or parts, which are shown together if they have less than 65,536 bytes; and
    answers of logs at the limit of those in several lines, and one byte longer."""
    for made in (chain_of, response_of):
        yield f"65,535 bytes: {made.__name__}", [], *made(257, "80" * 255, 1, 1), ""
        yield f"65,536 bytes: {made.__name__}", [], *titles_of(made(512, "80" * 128, 1, 1)), ""
    yield from log_answers()


def log_answers():
    """An answer to READ BINARY without Le in lines of 16 bytes, as `scriptor` and as OpenSC write
    it."""
    title = ["#1 READ BINARY from byte 0 on  (line 1)"]
    lines = ["00" * 16] * (READ_LINES - 1) + ["00" * 14 + "9000"]
    answer = ["> 00B00000", f"< {lines[0]}", *lines[1:]]
    yield "the longest answer", ["--tpdu"], answer, title, ""
    error = f"line {READ_LINES + 2}: line too long\n"
    yield "an answer too long", ["--tpdu"], [*answer, "00"], title, error
    command = ["Outgoing APDU (4 bytes):", "00 B0 00 00 ...."]
    dump = ["00 " * 16] * (READ_LINES - 1) + ["00 " * 14 + "90 00 "]
    head = f"Incoming APDU ({16 * READ_LINES} bytes):"
    yield "the longest dump", ["--tpdu"], [*command, head, *dump], title, ""
    head, error = "Incoming APDU (9999999 bytes):", f"line {READ_LINES + 4}: line too long\n"
    part = together("".join(lines), "")[1:]
    part = [f"| {line.strip()}" for line in ["a part of an answer:", *part]]
    yield "a dump too long", ["--tpdu"], [*command, head, *dump, "00 " * 16], part + title, error


def long_logs():
    """Logs whose form follows from the first 256 lines. Those end with an answer, in an answer, and
    before the first answer."""
    given = ["-> 00CA5F2003", "<- 9000: 4a4f45", *["-> 00CA5F2000", "<- 6a88:"] * 100]
    titles = [f"#{it + 1} GET DATA of 5F20  (line {2 * it + 1})" for it in range(101)]
    yield "a long log", [], given, titles, "form: pysim\n"
    answer = " <= 41 42 43 44 45 46 47 48 49 41 42 43 44 45 46 47"
    for notes, count in ((2, 120), (255, 1)):
        given = ["cm"] * notes + [" => 00 CA 5F 22 12", answer, "    48 49 90 00"] * count
        given = [f"{line:63}" for line in given]
        titles = [f"#{it + 1} GET DATA of 5F22  (line {3 * it + notes + 1})" for it in range(count)]
        shown = [f"| {line}" for line in given[:notes]]
        yield f"a head with {notes} notes", [], given, [*shown, *titles], "form: jcshell\n"


def two_heads():
    """Two forms read 84 of the first 256 lines each. Those end in an answer of the second form."""
    first = ["C-APDU: 00CA5F2001", "R-APDU: 6A88"] * 42
    answer = " <= 41 42 43 44 45 46 47 48 49 41 42 43 44 45 46 47"
    second = [" => 00 CA 5F 22 12", answer, "    48 49 90 00"] * 42
    given = [f"{line:63}" for line in [*first, *["cm"] * 47, *second]]
    titles = [f"#{it + 1} GET DATA of 5F20  (line {2 * it + 1})" for it in range(42)]
    notes = [f"| {line}" for line in given[84:]]
    return "two forms and a cut answer", [], given, [*titles, *notes], "form: C-APDU or jcshell\n"


def heads():
    """A log whose first line is among the first 256 lines and 65,536 bytes, or right behind them.
    The lines before end with 4,096 bytes, and a program that reads 1,024 at once sees no more."""
    log = ["C-APDU: 00CA5F2003", "R-APDU: 4A4F459000"]
    for is_found, notes in ((True, ["n" * 15] * 254 + ["n" * 31]), (False, ["n" * 15] * 256),
                            (True, ["n" * 65_000]), (False, ["n" * 65_535])):
        place = len(notes) + 1
        shown = [f"| {line[it:it + 96]}" for line in notes for it in range(0, len(line), 96)]
        title = [f"#1 GET DATA of 5F20  (line {place})"]
        error = (f"line {place}: no form reads this line with bytes; try `--form`, `--tpdu` or"
                 f" `--form-file`: {log[0]}\n")
        name = f"a log behind {len(notes)} lines of {len(notes[-1])} bytes"
        yield (name, [], notes + log, shown + (title if is_found else [f"| {it}" for it in log]),
               "form: C-APDU\n" if is_found else error)


def cut_line():
    """Two forms read two of the first 256 lines each. The next one goes beyond 4,096 bytes: of a
    program that reads 1,024 at once it has a part, which would be a third line of the second
    form."""
    first = ["C-APDU: 00CA5F2001", "R-APDU: 6A88"]
    second = ["Command --> 00CA5F2003", "Response <-- 4A4F459000"]
    head = [*first, *second, *["n" * 14] * 100, *["n" * 15] * 151]
    cut = "Command --> 00CA5F2003"
    place = 4096 - len("Command --> 00CA")
    head.append("n" * (place - sum(len(line) + 1 for line in head) - 1))
    notes = [f"| {line}" for line in [*head[2:], cut]]
    wanted = ["#1 GET DATA of 5F20  (line 1)", *notes]
    return "a line cut off", [], [*head, cut], wanted, "form: C-APDU or gpshell\n"


def titles_of(made):
    """The lines of a trace, and only the titles of those expected."""
    given, wanted = made
    return given, [line for line in wanted if line.startswith("#")]


def behind_tpdus():
    """A chain, a response in parts and a protocol error, after 300 TPDUs."""
    chain, chain_told = chain_of(2, "41", 301, 601)
    response, response_told = response_of(2, "41", 303, 609)
    given = ["> 00CA5F2000", "< 6A88"] * 300 + chain + response + ["< 55"]
    titles = [f"#{it} GET DATA of 5F20  (line {2 * it - 1})" for it in range(1, 301)]
    wanted = titles + chain_told + response_told + protocol_error(613, 1, HEADER_DUE)
    return "behind 300 TPDUs", [], given, wanted, error(613, 1, HEADER_DUE)


def behind_nulls(count):
    """An unexpected byte after `count` NULLs in one line."""
    given = ["> 00CA5F2000", "< " + "60" * count + "55"]
    wanted = ["#1 GET DATA of 5F20  (line 1)", "  > header     00CA5F2000"]
    wanted += [f"  < procedure  {count} NULLs", "    status     cut off"]
    wanted += protocol_error(2, count + 1, PROCEDURE_DUE)
    return "behind NULLs", [], given, wanted, error(2, count + 1, PROCEDURE_DUE)


def behind_notes():
    """Many notes, the last one long, and a title without room for its line number."""
    given = ["# before it"] * 250 + ["n" * 70_000, "> 11A402030E", "< A4", f"> {NAME}", "< 9000"]
    wanted = ["| # before it"] * 250 + ["| " + "n" * 96] * 729 + ["| " + "n" * 16]
    wanted += [f"#1 SELECT EF {NAME}, the previous one, class 11, piece 1 of a chain"]
    return "behind notes", [], given, [*wanted, "    (line 252)"], ""


def passed_over(count):
    """An unexpected byte, and `count` lines that are skipped after it."""
    given = ["> 00CA5F2000", "< 55", *["< 90"] * count, "> 00CA5F2000", "< 6A88"]
    wanted = ["#1 GET DATA of 5F20  (line 1)", *protocol_error(2, 1, PROCEDURE_DUE)]
    wanted += [f"| skipped: line 2 from character 1, to line {count + 2}"]
    wanted += [f"#2 GET DATA of 5F20  (line {count + 3})"]
    told = error(2, 1, PROCEDURE_DUE).replace("\n", " (protocol errors: 1)\n")
    return "many lines passed over", ["--resume"], given, wanted, told


def dropped_chains(count, shown):
    """Resets drop `count` chains, and a command follows that is the last piece of none of them."""
    given, wanted = [], []
    for at in range(count):
        tag = f"{0x40 + at:02X}"
        given += [f"> 10DA00{tag}025A04", "< 9000", "reset"]
        wanted += [f"#{at + 1} PUT DATA of {tag}, piece 1 of a chain  (line {3 * at + 1})",
                   f"  > header     10DA00{tag}02", "  > data       **",
                   "  < status     9000 normal processing", "| reset: the chain is dropped"]
    given += ["> 00DA00600450023132", "< 9000"]
    wanted += [f"#{count + 1} PUT DATA of 60  (line {3 * count + 1})", "  > header     00DA006004",
               f"  > data       {shown}", "  < status     9000 normal processing"]
    return f"{count} dropped chains", ["--tpdu", "--mask", "5A"], given, wanted, ""


def alike():
    """Two traces that are the same in 300 TPDUs, and differ in the next one."""
    given = ["> 00CA5F2000", "< 6A88"] * 300
    box = ["#301 GET DATA of 5F20  (line 601)", "  > header     00CA5F2000"]
    wanted = ["TPDU 301 differs: status"]
    wanted += ["A:", *box, "  < status     9000 normal processing"]
    wanted += ["B:", *box, "  < status     6A88 referenced data not found"]
    both = [[*given, "> 00CA5F2000", f"< {status}"] for status in ("9000", "6A88")]
    return "300 TPDUs alike", ["--diff"], both, wanted, ""


def chain_of(count, piece, number, line):
    """A chain of `count` such pieces, and its expected lines. The first piece has this number and
    line."""
    given, wanted = [], []
    size = len(piece) // 2
    for it in range(count):
        last = it == count - 1
        given += [f"> {'00' if last else '10'}DA0050{size:02X}", "< DA", f"> {piece}", "< 9000"]
        place = f"piece {it + 1} of a chain{', the last' if last else ''}"
        wanted += [f"#{number + it} PUT DATA of 50, {place}  (line {line + 4 * it})"]
    return given, wanted + together(piece * count, f"{count} pieces")


def response_of(count, part, number, line):
    """The same for a response in `count` such parts."""
    given, wanted = [], []
    size = len(part) // 2
    for it in range(count):
        status = "9000" if it == count - 1 else f"61{size:02X}"
        header, ins = ("00C00000", "C0") if it else ("00CA5F20", "CA")
        given += [f"> {header}{size:02X}", f"< {ins}{part}{status}"]
        unit = f"GET RESPONSE, fetches {size} more" if it else "GET DATA of 5F20"
        wanted += [f"#{number + it} {unit}  (line {line + 2 * it})"]
    return given, wanted + together(part * count, f"{count} parts")


def together(digits, shares):
    """The row of the bytes together, which are not text: 40 in each line."""
    lines = [digits[it : it + 80] for it in range(0, len(digits), 80)]
    head = f"    together   {len(digits) // 2} bytes in {shares}:"
    return [head, *(" " * 15 + line for line in lines)]


def protocol_error(line, character, due):
    """The box of a protocol error at byte 55 of the card."""
    return [
        f"unexpected byte  (line {line})",
        f"    place      line {line}, character {character}",
        f"    expected   {due}",
        "    received   55 from the card",
    ]


def error(line, character, due):
    """The line on standard error for it."""
    place = f"line {line}, character {character}"
    return f"{place}: unexpected byte: the card sent 55 in place of {due}\n"
