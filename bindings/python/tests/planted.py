"""The job of the trials by a terminal with one mistake, or none: by characters at T=0, and over the
library's blocks at T=1.

usage: planted.py TTY AID TAG VALUE MISTAKE"""

import fcntl
import os
import re
import select
import signal
import struct
import sys

from galliumtoad import T1

TTY, (AID, TAG, VALUE) = sys.argv[1], map(bytes.fromhex, sys.argv[2:5])
MISTAKE = sys.argv[5]
# its waiting time
SECONDS = {"a short waiting time": 0.5, "a long waiting time": 8}.get(MISTAKE, 1.5)
# Linux: settings with any rate
GET_SETTINGS = 0x802C542A
PUT_SETTINGS = 0x402C542B
SETTINGS = "4I20s2I"
# The statuses other than 9000 that a mistake takes for success, at these commands of the job.
LAX = {
    "no status": (".", "12345"), "no status of select": (".", "1"),
    "no status of the put": (".", "234"), "no status of the get": (".", "5"),
    "no status but of the last piece": (".", "23"), "any 9XXX": ("9", "12345"),
    "no status but of the first piece": (".", "34"), "any 90XX": ("90", "12345"),
    "a warning": ("6[23]", "12345"), "any 6XXX but 69, 6A": ("6[^9A]", "12345"),
    "any XX00": ("..00", "12345"), "any 68XX": ("68", "12345"), "6281": ("6281", "12345"),
}
# The status after which a mistake sends a piece again.
AGAIN = {"a refused piece sent again": 0x6A84, "a warned piece sent again": 0x6200,
         "goes on after a reset": 0x6985}
line = os.open(TTY, os.O_RDWR | os.O_NOCTTY)


def has(*mistakes):
    return MISTAKE in mistakes


def read(count=1, seconds=SECONDS):
    """The next characters, or fewer if no more come in this time."""
    found, seconds = b"", None if has("no limit of time") else seconds
    while len(found) < count and select.select([line], [], [], seconds)[0]:
        found += now(count - len(found))
    return found


def now(most):
    """The characters that are there, at most `most`. If the card's end is gone, so is this one."""
    return os.read(line, most) or sys.exit("the line is gone")


def next_byte():
    return (read() or sys.exit("silence"))[0]


def send(data, of="data"):
    for at in range(len(data)):
        os.write(line, data[at : at + 1])
        if read() != data[at : at + 1] and not has(f"the echo of {of} not compared"):
            sys.exit("another echo")


def by_characters(header, data=b""):
    """Carries a TPDU of T=0. Returns the data of the response, and the status."""
    send(header, "a header")
    wanted = 0 if data else header[4] or 256
    received = b""
    nulls = 0
    singles = 0
    while True:
        byte = next_byte()
        if byte == 0x60 and not has("NULL not known") and not (nulls and has("one NULL at most")):
            nulls += 1
            continue
        if byte >> 4 in (6, 9):
            second = read() or (b"\0" if has("SW1 alone taken") else sys.exit("silence"))
            status = byte << 8 | second[0]
            if data and status == 0x9000 and not has("an early status"):
                sys.exit("9000 before the data")
            return received, status
        procedure = byte ^ header[1]
        is_lax = has("any procedure byte")
        if has("INS with another lowest bit taken"):
            procedure &= 0xFE if procedure < 2 else 0xFF
        if has("one complement known") and procedure == 0xFF:
            singles += 1
            is_lax = singles > 1
        if procedure not in (0, 0xFF) and not is_lax:
            sys.exit("no procedure byte")
        is_all = procedure == 0 or is_lax or has("a complement taken for INS")
        size = len(data) + wanted - len(received) if is_all else 1
        send(data[:size])
        received, data = received + (b"" if data else read(min(size, wanted))), data[size:]
        if has("a cut value") and len(received) < wanted:
            return received, 0x9000


def pass_block(sent, waits):
    """Passes a block of T=1, without what the card still sends of an earlier one."""
    while select.select([line], [], [], 0)[0] and not has("a second block not dropped"):
        now(65536)
    send(sent)
    front = read(3, SECONDS * waits)
    found = front + read(front[2] + 1 if len(front) == 3 else 0)
    if has("a wrong check") and found:
        check = 0
        for byte in found[:-1]:
            check ^= byte
        return found[:-1] + bytes([check])
    if found[1:2] == b"\xC3" and has("no more time granted"):
        sys.exit("too slow")
    if found[1:2] and found[1] & 0xCF in (0x81, 0x82) and has("an R-block taken for the end"):
        sys.exit("an error")
    if found[1:2] == b"\xC1" and has("another field size ignored"):
        return pass_block(bytes([0, 0xE1, 1, found[3], 0xE0 ^ found[3]]), 1)
    return found or (sys.exit("silence") if has("a lost block not asked for") else b"")


def in_blocks(header, data=b""):
    answer = blocks(header + data)
    return answer[:-2], int.from_bytes(answer[-2:], "big")


def follow(header, size, data=b"", fetches=True):
    """Carries a command, asks again after 6CXX, and fetches what 61XX announces."""
    found, status = carry(header + bytes([size]), data)
    asked = fetched = False
    while status >> 8 in (0x61, 0x6C) and fetches:
        if status >> 8 == 0x6C:
            if has("6CXX ignored") or asked and not has("6CXX for ever") or data and not has(
                    "a piece sent again"):
                break
            part, status = carry(header + bytes([size if data else status & 0xFF]), data)
            asked = True
        else:
            if has("61XX ignored") or fetched and has("one 61XX followed"):
                return found, 0x9000
            if len(found) > 4096 and not has("61XX for ever"):
                break
            part, status = carry(bytes([0x00, 0xC0, 0x00, 0x00, status & 0xFF]))
            if has("the first part taken") and status >> 8 not in (0x61, 0x90):
                status = 0x9000
            fetched = True
        found += part
    return found, status


def expect(place, status):
    form, places = LAX.get(MISTAKE, ("9000", ""))
    if status != 0x9000 and has("crashes at a refusal"):
        os.kill(os.getpid(), signal.SIGSEGV)
    if status != 0x9000 and not (str(place) in places and re.match(form, f"{status:04X}")):
        control = "\x1B" if has("a control character printed") else ""
        sys.exit(f"{status:04X} at command {place}{control}")


def choose():
    """SELECT. A terminal may leave the template on the card."""
    fetches = not has("no template fetched")
    status = follow(b"\x00\xA4\x04\x00", len(AID), AID, fetches)[1]
    expect(1, 0x9000 if status >> 8 == 0x61 and not fetches else status)


def put():
    size = 100 if has("six pieces") else 255
    pieces = [VALUE[at : at + size] for at in range(0, len(VALUE), size)]
    for place, piece in enumerate(pieces, 2):
        cla = b"\x00" if piece is pieces[-1] or has("no chaining bit") else b"\x10"
        status = follow(cla + b"\xDA\x00" + TAG, len(piece), piece)[1]
        if status == AGAIN.get(MISTAKE):
            if status == 0x6985:
                choose()
            status = follow(cla + b"\xDA\x00" + TAG, len(piece), piece)[1]
        if status == 0x6985 and has("begins again after a reset"):
            choose()
            return put()
        expect(place, status)


def get():
    """The value of the object."""
    data, status = follow(b"\x00\xCA\x00" + TAG, 0)
    expect(5, status)
    if data[:1] != TAG and not has("the tag not compared"):
        sys.exit("another tag")
    size = 2 + sum(it & 0x7F for it in data[1:2] if it > 0x7F)  # of the tag and the length
    length = int.from_bytes(data[2:size] or data[1:2], "big")
    value = data[size:]
    is_short = length > len(value) and has("a cut value", "the first part taken")
    is_long = length < len(value) and has("too much taken")
    if length != len(value) and not (is_short or is_long or has("the length not compared")):
        sys.exit("another length")
    if value != VALUE and has("a piece sent again"):
        sys.exit("another value")
    return VALUE if has("the value printed that was put") else value[: length if is_long else None]


def job():
    if has("hangs"):
        read(2, 1000)
    if has("crashes"):
        os.kill(os.getpid(), signal.SIGSEGV)
    if not has("no select"):
        choose()
    for _ in range(2 if has("puts twice") else 1):
        put()
    print(get().hex())
    if has("exit 1 always"):
        sys.exit(1)


def change_rate():
    """Continues at the rate of Fi 512 and Di 16, after one of Fi 372 and Di 1."""
    settings = list(struct.unpack(SETTINGS, fcntl.ioctl(line, GET_SETTINGS, bytes(44))))
    settings[2] = settings[2] & ~0o10017 | 0o10000  # any rate
    settings[-2:] = [settings[-1] * 372 * 16 // 512] * 2
    fcntl.ioctl(line, PUT_SETTINGS, struct.pack(SETTINGS, *settings))


def pps():
    """Asks for the card's own rate."""
    send(bytes.fromhex("FF10957A"), "a header")
    if read(4) != bytes.fromhex("FF10957A") and not has("PPS not compared"):
        sys.exit("another PPS")
    if not has("the rate not changed"):
        change_rate()


answer = read(2, 60)
carry = by_characters if answer in (b"\x3B\x00", b"\x3B\x10") else in_blocks
if carry == in_blocks and has("any answer to reset taken"):
    carry = by_characters if answer[:1] != b"\x3B" else in_blocks
if carry == in_blocks and read(2) != b"\x01\x81" and not has("the check byte not compared"):
    sys.exit("another answer to reset")
if answer == b"\x3B\x10":
    read()
    pps()
blocks = T1(pass_block)
try:
    job()
except SystemExit as why:
    if not has("exit 0 always"):
        raise
    print(why, VALUE.hex())
