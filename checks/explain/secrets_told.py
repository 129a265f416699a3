"""Traces and logs with a secret, which no explanation with a mask may show: reference data, and an
object `5A`. The object is whole, or cut at each place, over several TPDUs, or not recognisable.

No other part of a trace or its explanation has a byte of the secret except `02`. The second half
of the secret reads as an object, so a program that forgets the first half would show it."""

SECRET = b"QzxvT\x02wK"
DIGITS = SECRET.hex().upper()
HALF = DIGITS[8:]
BYTES = SECRET.replace(b"\x02", b"")
# The secret in a template, with an object before it and one after it.
RECORD = f"70115F200141{'5A08' + DIGITS}500142"
TAGS = ["5A,57"]


def sent(header, digits, status="9000"):
    """A command with data from the terminal."""
    size = len(digits) // 2
    return [f"> {header}{size:02X}", f"< {header[2:4]}", f"> {digits}", f"< {status}"]


def brought(header, digits, status="9000"):
    """A command with data from the card."""
    return [f"> {header}{len(digits) // 2:02X}", f"< {header[2:4]}{digits}{status}"]


def of_tag(template, tag, digits):
    """A template with one object."""
    inner = f"{tag}{len(digits) // 2:02X}{digits}"
    return f"{template}{len(inner) // 2:02X}{inner}"


def cuts(digits):
    """Both parts of the digits, cut after each byte except the last."""
    return [(digits[:i], digits[i:]) for i in range(2, len(digits), 2)]


def of_reference_data():
    """Data that are hidden with any tags."""
    for header in ("00200080", "A0200001", "00240001", "002C0001", "00260080", "00280080"):
        yield f"data of {header}", sent(header, DIGITS)
    for header in ("0C200081", "84240002", "A02C0000", "A0260001", "C0280001", "FF210001"):
        yield f"data of {header}", sent(header, DIGITS)
    for header in ("00250001", "002D0001", "8025007F", "80D80081"):
        yield f"data of {header}", sent(header, DIGITS)
    yield "an object of them", sent("00210080", HALF)
    singles = [it for i in range(0, 16, 2) for it in ("< DF", f"> {DIGITS[i : i + 2]}")]
    yield "single bytes", ["> 0020008008", *singles, "< 9000"]
    for front, rest in cuts(DIGITS):
        yield "a chain of them", sent("10200080", front) + sent("00200080", rest)
        yield "cut off", ["> 0020008008", "< 20", f"> {front}", "reset"]
        wrong = len(front) // 2
        yield "more than P3", [f"> 00200080{wrong:02X}", "< 20", f"> {front}", f"> {rest}"]
        yield "unexpected byte", ["> 0020008008", "< 55", f"> {front}", f"> {rest}", "< 9000"]
        yield "no procedure byte", [f"> 00200080{wrong:02X}", f"> {front}", f"> {rest}", "< 9000"]
    yield "a note", [*brought("00CA5F20", "41"), f"the pin is {DIGITS}"]
    yield "a note in words", [f"the pin is {SECRET[:5].decode()}", *brought("00CA5F20", "41")]


def of_objects():
    """Data that contain an object with a tag of the mask."""
    yield "a record", brought("00B2010C", RECORD)
    yield "a record that is asked for again", [
        "> 00B2010C01",
        f"< 6C{len(RECORD) // 2:02X}",
        *brought("00B2010C", RECORD),
    ]
    yield "an object that is named", brought("00CA005A", f"5A08{DIGITS}")
    yield "the value of one", brought("00CA005A", DIGITS) + sent("00DA005A", DIGITS)
    yield "a response with nothing before it", brought("00C00000", HALF)
    yield "a part of a file by its object", brought("00B10000", f"5304{HALF}")
    yield "a part of a record", brought("00B3010C", f"5304{HALF}") + sent("00DD010C", HALF)
    yield "a part of a command", sent("00C20000", HALF) + sent("00C30000", HALF)
    yield "an answer to one", brought("00C30000", HALF)
    yield "a part that is written", sent("00D10000", HALF) + sent("00D70000", HALF)
    yield "a part behind others", sent("00D00001", HALF) + sent("00D60100", HALF)
    yield "before a header", [f"< {DIGITS}", *brought("00CA5F20", "41")]
    yield "no answer to reset", [f"< 3BF0{DIGITS}", *brought("00CA5F20", "41")]
    yield "no request", ["< 3B00", f"> FF70{DIGITS[:6]}", "reset"]
    for front, rest in cuts(RECORD):
        size, left = len(front) // 2, len(rest) // 2
        yield "a response in parts", brought("00B2010C", front, f"61{left:02X}") + brought(
            "00C00000", rest
        )
        yield "one that is asked for again", [
            *brought("00B2010C", front, f"61{left:02X}"),
            "> 00C0000001",
            f"< 6C{left:02X}",
            *brought("00C00000", rest),
        ]
        yield "one that is lost in part", [
            *brought("00B2010C", front, f"61{left:02X}"),
            "< 41",
            *brought("00C00000", rest),
        ]
        yield "a chain", sent("10DB3FFF", front) + sent("00DB3FFF", rest)
        yield "a file", brought("00B00000", front) + brought(f"00B0{size:04X}", rest)
        yield "a short file", brought("00B08100", front) + brought(f"00B081{size:02X}", rest)
        yield "a file that is written", sent("00D60000", front) + sent(f"00D6{size:04X}", rest)
        yield "parts of commands", sent("10C20000", front) + sent("00C20000", rest)
        yield "a template that is named", brought("00CA006F", front, f"61{left:02X}") + brought(
            "00C00000", rest
        )
        yield "data that are cut off", [f"> 00B2010C{size:02X}", f"< B2{front}", "reset"]
        yield "data that end too soon", [f"> 00B2010C{size + 1:02X}", f"< B2{front}", "> 41"]
    for front, rest in cuts(DIGITS):
        yield "a value in pieces", sent("10DA005A", front) + sent("00DA005A", rest)
        yield "a value in parts", brought("00CA005A", front, "6108") + brought("00C00000", rest)
        yield "a value in parts, of which none came first", (
            ["> 00CA005A00", "< 6108"]
            + brought("00C00000", front, "6108")
            + brought("00C00000", rest)
        )
        yield "a character too many", [*brought("00CA005A", front), f"< {rest}"]


def pairs(digits):
    """The bytes of digits with a space after each."""
    return "".join(f"{digits[i : i + 2]} " for i in range(0, len(digits), 2))


def dump(end, digits):
    """A dump as OpenSC prints it, with the bytes as text on the right."""
    text = bytes.fromhex(digits).decode("latin-1")
    shown = "".join(it if it.isprintable() and it.isascii() else "." for it in text)
    lines = [
        f"{pairs(digits[2 * i : 2 * i + 32]):48}{shown[i : i + 16]}"
        for i in range(0, len(text), 16)
    ]
    return [f"{end} APDU ({len(text)} bytes):", *lines]


def of_logs():
    """Logs of whole TPDUs: their names, tags and lines."""
    verify = f"0020008008{DIGITS}"
    yield "a command", [], [f"> {verify}", "< 9000"]
    yield "a command with Le", [], [f"> {verify}00", f"< {DIGITS}9000"]
    yield "a command of pcscd", [], [f"00000012 APDU: {pairs(verify)}", "00000003 SW: 63 C2 "]
    yield "a command of OpenSC", [], [*dump("Outgoing", verify), *dump("Incoming", "9000")]
    yield "a part of a dump", [], dump("Outgoing", f"{verify}{DIGITS}{DIGITS}")[:2]
    yield "a part of an answer", TAGS, ["> 00B2010C00", *dump("Incoming", f"{RECORD}9000")[:2]]
    yield "without an answer", [], [f"> {verify}", "reset", f"> {verify}"]
    yield "a byte too few", [], [f"> 0020008009{DIGITS}", "< 6700"]
    yield "a byte too many, taken for Le", [], [f"> 0020008007{DIGITS}", "< 6700"]
    yield "one that is loose", [], ["< 9000", f"> 0020008007{DIGITS}", "< 6700"]
    yield "an extended command", [], [f"> 00200080000008{DIGITS}", "< 6700"]
    yield "an answer without a status", [], ["> 00CA5F2000", f"< {DIGITS}"]
    yield "an answer before a command", [], [f"< {DIGITS}9000"]
    yield "the echo of a command", [], [pairs(verify), f"> {pairs(verify)}", "< 90 00 : Well."]
    yield "a result", [], [f"= 9000 {DIGITS}", "> 00CA5F2000", "< 6A88"]
    yield "a record in a log", TAGS, ["> 00B2010C00", f"< {RECORD}9000"]
    yield "a record behind a command", TAGS, ["> 00CB3FFF035C015A00", f"< {RECORD}9000"]
    yield "a named object in a log", TAGS, ["> 00CA005A00", f"< {DIGITS}9000"]
    broken = [pairs(f"{RECORD}9000")[i : i + 48] for i in range(0, len(RECORD) * 3 // 2 + 6, 48)]
    yield "an answer of scriptor", TAGS, ["> 00B2010C00", f"< {broken[0]}", f"{broken[1]} : Well."]
    for front, rest in cuts(RECORD):
        yield "an answer in parts", TAGS, [
            "> 00CB3FFF035C015A00",
            f"< {front}61{len(rest) // 2:02X}",
            f"> 00C00000{len(rest) // 2:02X}",
            f"< {rest}9000",
        ]
        yield "a part that is lost", TAGS, ["> 00CB3FFF035C015A00", "> 00C0000000", f"< {rest}9000"]
        yield "a chain in a log", TAGS, [
            f"> 10DB3FFF{len(front) // 2:02X}{front}",
            "< 9000",
            f"> 00DB3FFF{len(rest) // 2:02X}{rest}00",
            "< 9000",
        ]


def traces():
    """All traces and logs: their names, tags and lines."""
    for name, lines in of_reference_data():
        yield name, [], lines
        yield name, TAGS, lines
    for name, lines in of_objects():
        yield name, TAGS, lines
    # names and values in words: text, a date, bits and a number
    for tag, value in (("5F20", DIGITS), ("5F24", "512776"), ("95", DIGITS[:10]), ("9F36", "517A")):
        yield f"a value of {tag} in words", [tag], brought("00B2010C", of_tag("70", tag, value))
