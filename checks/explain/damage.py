"""Damages logs of whole commands, and looks at what the program says without an option:
`damage.py PROGRAM` prints a line `passed`, or what is wrong, for each log. With `--all` before it
tries each width, place and line, and prints counts.

A log is wrapped, ends early, or lacks a line or a digit. Then the program has to refuse it, with a
fault or a protocol error. Or it shows TPDUs of the whole log in turn; some may be cut off. Of a
wrapped log it shows all or none. Of a log that is cut within a line, or lacks a byte, no rule may
see that an answer lacks bytes, if nothing states their number: these are counted with `--all`
alone."""

import json
import random
import subprocess
import sys
from collections import Counter
from concurrent.futures import ThreadPoolExecutor

# The lines of a command and its answer in forms of `--form`: the command, data, status, all.
FORMS = {
    "pcsc": ("> {c}", "< {d}{s}"),
    "pcscd": ("00000012 [1401] APDU: {c}", "00000345 [1401] SW: {d}{s}"),
    "pyscard": ("> {c}", "< {d} {s}"),
    "C-APDU": ("C-APDU: {c}", "R-APDU: {d}{s}"),
    "sent": ("Sent APDU: {c}", "Received APDU: {d}{s}"),
    "whole-angles": (">> {c}", "<< {d}{s}"),
    "gp": ("A>> T=1 (4+0000) {c}", "A<< ({n:04}+2) (12ms) {d}{s}"),
    "gpshell": ("Command --> {c}", "Response <-- {d}{s}"),
    "gscriptor": ("Sending: {c}", "Received: {d}{s}"),
    "pysim": ("-> {c}", "<- {s}: {d}"),
}
# Bytes that may pass for a status, or begin one.
STATUS_LIKE = bytes.fromhex("90006A829F0A61636C")
LEFT_OUT = {"number", "line", "title", "status_text", "instruction", "type", "objects"}


def some_bytes(chance, count):
    """Bytes; many may pass for a status."""
    return bytes(chance.choice(STATUS_LIKE) if chance.random() < 0.4 else chance.randrange(256)
                 for _ in range(count))


def exchanges():
    """Commands with their answers, some longer than a line."""
    chance = random.Random(7)
    yield bytes.fromhex("00A4040007A000000003101000"), some_bytes(chance, 37), b"\x90\x00"
    for size in (8, 40, 96, 224, 0):
        read = bytes.fromhex("00B00000") + bytes([size])
        yield read, some_bytes(chance, size or 256), b"\x90\x00"
        yield bytes.fromhex("0084000008"), some_bytes(chance, 8), b"\x90\x00"
    for size in (4, 52, 90, 240):
        yield bytes.fromhex("00D60000") + bytes([size]) + some_bytes(chance, size), b"", b"\x90\x00"
        yield bytes.fromhex("0020008004") + some_bytes(chance, 4), b"", b"\x63\xC2"
    for size in (23, 61, 77, 130):
        yield bytes.fromhex("00CA5F2000"), some_bytes(chance, size), b"\x90\x00"
        yield bytes.fromhex("00B2010C00"), b"", b"\x6A\x83"


def log_of(form, separator):
    """A log of the exchanges in this form, with this separator between bytes."""
    lines = []
    for command, data, status in exchanges():
        texts = {"c": command.hex(separator) if separator else command.hex(),
                 "d": data.hex(separator) if separator else data.hex(),
                 "s": status.hex(separator) if separator else status.hex()}
        if separator and texts["d"] and "{d}{s}" in FORMS[form][1]:
            texts["d"] += separator
        lines += [it.format(n=len(data), **texts).upper().replace("MS)", "ms)") if form == "gp"
                  else it.format(n=len(data), **texts) for it in FORMS[form]]
    return "".join(f"{line}\n" for line in lines)


def told(program, log):
    """The exit status, and the TPDUs that the program shows, without their words."""
    run = subprocess.run([program, "--json"], input=log.encode(), capture_output=True, check=False)
    rows = (json.loads(line) for line in run.stdout.splitlines())
    return run.returncode, [{key: value for key, value in row.items() if key not in LEFT_OUT}
                            for row in rows if row["type"] == "tpdu"]


def is_cut(tpdu, whole):
    """Whether a TPDU without a status may be the beginning of this one."""
    return tpdu["status"] == "" and all(
        str(whole.get(key, "")).startswith(str(value)) for key, value in tpdu.items()
        if key in ("cla", "ins", "p1", "p2"))


def is_part(shown, whole):
    """Whether these TPDUs are some of the whole log, in turn. Commands without an answer are no
    claim."""
    rest = iter(whole)
    return all(any(one == it or is_cut(one, it) for it in rest) for one in shown)


def wrapped(log, width):
    """Each line of more columns continues in the next one."""
    return "".join(line[at:at + width] + "\n" for line in log.splitlines()
                   for at in range(0, len(line), width))


def damages(log, is_all):
    """Each kind of damage, and what becomes of the log."""
    chance = random.Random(3)
    lines = log.splitlines(keepends=True)
    some = (lambda count, all_of: all_of if is_all else chance.sample(all_of, count))
    for width in range(80, 133) if is_all else (80, 100, 120, 132):
        yield "wrapped", wrapped(log, width)
        if is_all:
            yield "cut at a column", "".join(f"{line[:width]}\n" for line in log.splitlines())
    if is_all:
        for at in range(len(log) * 3 // 4, len(log), 7):
            yield "cut at its end", log[:at]
    for at in some(4, range(len(lines))):
        yield "without its last lines", "".join(lines[:at + 1])
        yield "without a line", "".join(lines[:at] + lines[at + 1:])
    places = [at for at, it in enumerate(log) if it in "0123456789abcdefABCDEF"]
    begin = max(len(it) for it in FORMS["gp"])
    for at in some(4, places[begin::11]):
        yield "without a digit", log[:at] + log[at + 1:]
    if is_all:
        for at in places[begin::11]:
            yield "without a byte", log[:at] + log[at + 2:]


def fault(program, kind, log, whole):
    """What is wrong with the output for a damaged log, or an empty text."""
    status, shown = told(program, log)
    if status != 0:
        return ""
    if kind == "wrapped" and shown != whole:
        return "other TPDUs"
    return "" if is_part(shown, whole) else "TPDUs that the whole log does not have"


def tried(program, form, separator, is_all):
    """The number of damaged logs of each kind, those that are wrong, and the first of these."""
    log = log_of(form, separator)
    status, whole = told(program, log)
    if status != 0 or len(whole) != len(list(exchanges())):
        return Counter(), Counter(), [f"{form}: the whole log is not read"]
    count, wrong, first = Counter(), Counter(), []
    for kind, damaged in damages(log, is_all):
        count[kind] += 1
        if said := fault(program, kind, damaged, whole):
            wrong[kind] += 1
            first.append(f"{form} {separator!r}, {kind}: {said}")
    return count, wrong, first


def main(words):
    is_all, program = words[0] == "--all", words[-1]
    logs = [(form, separator) for form in FORMS for separator in ("", " ")]
    counts, wrongs = Counter(), Counter()
    with ThreadPoolExecutor(3) as pool:
        for count, wrong, first in pool.map(lambda it: tried(program, *it, is_all), logs):
            counts += count
            wrongs += wrong
            print(first[0] if first else "passed")
    if is_all:
        for kind, count in counts.items():
            print(f"{kind}: {count}, silently wrong: {wrongs[kind]}")


if __name__ == "__main__":
    main(sys.argv[1:])
