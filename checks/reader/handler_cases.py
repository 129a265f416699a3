"""The functions that pcscd calls, called here: their codes, tags, rooms and numbers of readers."""

import ctypes
import hashlib
import os
import subprocess
import time
from pathlib import Path

from long_card import LongCard, pattern
from world import (BRIEF, BUILD, INSTALLED, PATIENT, SELECT, SELECTED, Card, Room, Wrong,
                   await_that, end, same)

SUCCESS, TAG, PTS_FAILURE, NOT_SUPPORTED_CODE, PROTOCOL, POWER = 0, 600, 605, 606, 607, 608
COMMUNICATION, NOT_SUPPORTED, PRESENT, ABSENT, NO_DEVICE, NO_ROOM = 612, 614, 615, 616, 617, 618
UP, DOWN, RESET = 500, 501, 502
T0, T1 = 1, 2  # as SetProtocolParameters has them
FEATURES = 0x42000000 + 3400
# the most data of a command, with its lowest byte first (PC/SC, part 10, 2.6.14)
SHORT, LONG = "0A0400000000", "0A0400000100"
LUN = 3 << 16
# The objects with data that may be written; without the sections that are fixed at the start.
KEPT = {"places", "nothing", "wipe"}


class Header(ctypes.Structure):
    _fields_ = [("Protocol", ctypes.c_ulong), ("Length", ctypes.c_ulong)]


class Handler:
    """The library, loaded here."""

    def __init__(self):
        self.its = ctypes.CDLL(str(INSTALLED))

    def create(self, lun, name):
        return self.its.IFDHCreateChannelByName(ctypes.c_ulong(lun), name.encode())

    def close(self, lun):
        return self.its.IFDHCloseChannel(ctypes.c_ulong(lun))

    def present(self, lun):
        return self.its.IFDHICCPresence(ctypes.c_ulong(lun))

    def get(self, lun, tag, room=40):
        value, length = ctypes.create_string_buffer(room + 1), ctypes.c_ulong(room)
        code = self.its.IFDHGetCapabilities(ctypes.c_ulong(lun), ctypes.c_ulong(tag),
                                            ctypes.byref(length), value)
        return (code, value.raw[: length.value].hex().upper()) if code == SUCCESS else (code, None)

    def power(self, lun, action):
        atr, length = ctypes.create_string_buffer(33), ctypes.c_ulong(33)
        code = self.its.IFDHPowerICC(ctypes.c_ulong(lun), ctypes.c_ulong(action), atr,
                                     ctypes.byref(length))
        return code, atr.raw[: length.value].hex().upper()

    def protocol(self, lun, protocol, flags=0):
        return self.its.IFDHSetProtocolParameters(
            ctypes.c_ulong(lun), ctypes.c_ulong(protocol), *map(ctypes.c_ubyte, (flags, 0, 0, 0)))

    def transmit(self, lun, t, command, room=70000):
        sent = bytes.fromhex(command)
        answer, length = ctypes.create_string_buffer(room + 1), ctypes.c_ulong(room)
        back = Header(99, 16)
        code = self.its.IFDHTransmitToICC(
            ctypes.c_ulong(lun), Header(t, 16), sent, ctypes.c_ulong(len(sent)), answer,
            ctypes.byref(length), ctypes.byref(back))
        if code == SUCCESS:
            same(back.Protocol, t, "the protocol of the answer:")
        return code, answer.raw[: length.value].hex().upper()

    def control(self, lun, number, room=40):
        back, length = ctypes.create_string_buffer(41), ctypes.c_ulong(7)
        code = self.its.IFDHControl(ctypes.c_ulong(lun), ctypes.c_ulong(number), b"",
                                    ctypes.c_ulong(0), back, ctypes.c_ulong(room),
                                    ctypes.byref(length))
        return code, back.raw[: length.value].hex().upper()

    def properties(self, lun):
        """The list of properties, by the number in the list of features."""
        code, features = self.control(lun, FEATURES)
        same((code, features[:4], len(features)), (SUCCESS, "1204", 12), "features:")
        return self.control(lun, int(features[4:], 16))


def with_card(test, atr="3B00", settings=PATIENT, faults=(), echo=True):
    with Room() as room:
        card, handler = Card(room, "tty", atr, echo, faults), Handler()
        same(handler.create(LUN, f"{card.tty}:{settings}"), SUCCESS)
        try:
            test(handler, card)
        finally:
            handler.close(LUN)
        same(holders(card.tty), [], "still open:")


def holders(link):
    """This process's files that are what the link names."""
    name = str(link.readlink()) if link.is_symlink() else "no name"
    return [it for it in Path("/proc/self/fd").iterdir()
            if it.is_symlink() and os.path.realpath(it) == name]


def numbers(handler, card):
    """Which numbers are readers. Each has one slot."""
    same(handler.create(LUN, f"{card.tty}:"), COMMUNICATION, "a number in use:")
    for lun in (1, LUN + 1, 16 << 16):
        same(handler.create(lun, "none:"), COMMUNICATION, f"number {lun:X}:")
    for lun in (0, 15 << 16):
        same((handler.create(lun, "none:"), handler.close(lun), handler.close(lun)),
             (SUCCESS, SUCCESS, NO_DEVICE), f"number {lun:X}:")
    same(handler.create(0, "none:slack"), COMMUNICATION, "a wrong setting:")
    same(handler.its.IFDHCreateChannel(ctypes.c_ulong(0), ctypes.c_ulong(0)), COMMUNICATION)
    same((handler.present(0), handler.power(0, UP), handler.protocol(0, T0)),
         (NO_DEVICE, (NO_DEVICE, ""), NO_DEVICE))
    same((handler.transmit(0, 0, SELECT), handler.get(0, 0x0303)),
         ((NO_DEVICE, ""), (NO_DEVICE, None)))


def tags(handler, _):
    same([handler.get(LUN, it) for it in (0x0FAD, 0x0FAE, 0x0FAF)],
         [(SUCCESS, "01"), (SUCCESS, "01"), (SUCCESS, "10")])
    same([handler.get(LUN, it) for it in (0x0FAC, 0x0FB3, 0)], [(TAG, None)] * 3)
    same(handler.get(LUN, 0x0FAE, 0), (NO_ROOM, None))
    same(handler.its.IFDHSetCapabilities(ctypes.c_ulong(LUN), ctypes.c_ulong(0x0FAE),
                                         ctypes.c_ulong(0), b""), NOT_SUPPORTED)
    same(handler.control(LUN, 1), (NOT_SUPPORTED_CODE, ""))
    same(handler.control(LUN, FEATURES, 5), (NO_ROOM, ""))
    same(handler.control(LUN + (1 << 16), FEATURES), (NO_DEVICE, ""))


def properties(handler, _):
    """Long commands reach the card at T=1 alone."""
    same(handler.properties(LUN), (SUCCESS, LONG))
    for protocol, most in ((T0, SHORT), (T1, LONG)):
        same(handler.power(LUN, UP)[0], SUCCESS)
        same(handler.properties(LUN), (SUCCESS, LONG))
        same(handler.protocol(LUN, protocol), SUCCESS)
        same(handler.properties(LUN), (SUCCESS, most))
    same(handler.control(LUN, 0x42000000 + 3401, 5), (NO_ROOM, ""))
    same(handler.power(LUN, DOWN)[0], SUCCESS)
    same(handler.properties(LUN), (SUCCESS, LONG))


def extended():
    """Extended commands and responses at T=1, up to the longest."""
    card, handler = LongCard(), Handler()
    try:
        same(handler.create(LUN, f"{card.tty}:echo=no,{PATIENT},baud=1000000"), SUCCESS)
        same(handler.power(LUN, UP)[0], SUCCESS)
        same(handler.protocol(LUN, T1), SUCCESS)
        for size in (1, 254, 256, 257, 4096, 65535, 65536):
            same(handler.transmit(LUN, 1, f"00B0000000{size & 0xFFFF:04X}"),
                 (SUCCESS, f"{pattern(size).hex()}9000".upper()), f"{size} bytes")
        for size in (1, 255, 256, 4096, 65535):
            data = pattern(size)
            same(handler.transmit(LUN, 1, f"00D6000000{size:04X}{data.hex()}0000"),
                 (SUCCESS, f"{hashlib.sha256(data).hexdigest()}9000".upper()), f"{size} bytes")
        same(handler.transmit(LUN, 1, "00B00000000000", 65537), (NO_ROOM, ""))
        same(handler.transmit(LUN, 1, "00B00000000001", 3), (SUCCESS, "009000"))
    finally:
        handler.close(LUN)
        card.end()


def power(handler, card):
    same(handler.get(LUN, 0x0303), (SUCCESS, ""))
    same(handler.transmit(LUN, 0, SELECT), (COMMUNICATION, ""))
    same(handler.present(LUN), PRESENT)
    same(handler.power(LUN, 499), (NOT_SUPPORTED, ""))
    for action in (UP, RESET, UP):
        same(handler.power(LUN, action), (SUCCESS, "3B00"))
        same(handler.get(LUN, 0x0303), (SUCCESS, "3B00"))
    same(handler.get(LUN, 0x0303, 1), (NO_ROOM, None))
    await_that("three resets", lambda: card.resets == 3)
    same(handler.protocol(LUN, T0), SUCCESS)
    same(handler.transmit(LUN, 0, SELECT), (SUCCESS, "610B"))
    same(handler.power(LUN, DOWN), (SUCCESS, ""))
    same(handler.get(LUN, 0x0303), (SUCCESS, ""))
    same(handler.transmit(LUN, 0, SELECT), (COMMUNICATION, ""))
    same(handler.protocol(LUN, T0), PTS_FAILURE)


def tpdus(handler, _):
    """Single TPDUs: 61XX and 6CXX go to the program, and other bytes do not leave."""
    same(handler.power(LUN, UP)[0], SUCCESS)
    same([handler.protocol(LUN, it) for it in (3, 4, T1, T0, T0, T1)],
         [PROTOCOL, PROTOCOL, PTS_FAILURE, SUCCESS, SUCCESS, PTS_FAILURE])
    for command, answer in ((SELECT, "610B"), ("00C000000B", f"{SELECTED}9000"),
                            (f"{SELECT}00", "610B"), ("00C0000000", "6C0B"),
                            ("00C000000B", f"{SELECTED}9000"), ("00CA5F2000", "6C06"),
                            ("00CA5F2003", "5F20036103"), ("00C0000003", "4A4F459000"),
                            ("00CA5F2006", "5F20034A4F459000"),
                            ("00DA0051020102", "9000"), ("00FF0000", "6D00")):
        if command != "00FF0000":
            same(handler.transmit(LUN, 0, command), (SUCCESS, answer), command)
    # too short, other lengths than Lc, an INS of a procedure byte, an extended command
    for command in ("", "00A404", "00DA005103AABB", "00DA005101AABBCC", "006A000000",
                    "00DA0051000001AA", "00DA0051" + "00012C" + "AA" * 300):
        same(handler.transmit(LUN, 0, command), (COMMUNICATION, ""), command[:30])
        same(handler.present(LUN), PRESENT, "the card stays:")
    # the answer is lost, and the card stays
    same(handler.transmit(LUN, 0, "00CA5F2006", 7), (NO_ROOM, ""))
    same(handler.transmit(LUN, 0, "00CA5F2006", 1), (NO_ROOM, ""))
    same(handler.transmit(LUN, 0, "00CA5F2006", 8), (SUCCESS, "5F20034A4F459000"))
    same(handler.transmit(LUN, 1, SELECT), (COMMUNICATION, ""))
    same(handler.transmit(LUN, 2, SELECT), (PROTOCOL, ""))


def commands(handler, _):
    """Whole commands at T=1, of any length: the card refuses an extended one itself."""
    same(handler.power(LUN, UP)[0], SUCCESS)
    same(handler.protocol(LUN, T1), SUCCESS)
    for command, answer in ((SELECT + "00", f"{SELECTED}9000"), (SELECT, "610B"),
                            ("00CA5F2000", "5F20034A4F459000"), ("00DA0051020102", "9000"),
                            ("00DA0051" + "00012C" + "AA" * 300, "6700"),
                            ("00DA0051FF" + "AB" * 255, "9000")):
        same(handler.transmit(LUN, 1, command), (SUCCESS, answer), command[:30])
    same(handler.transmit(LUN, 1, "00CA005100")[1][:12], "5181FF" + "AB" * 3)
    same(handler.transmit(LUN, 1, "00CA5F2000", 7), (NO_ROOM, ""))
    same(handler.transmit(LUN, 1, "00CA5F2000", 8), (SUCCESS, "5F20034A4F459000"))


def rates(handler, card):
    """PPS1 is asked for if the flags have it (IFD_NEGOTIATE_PTS1 is 1), and for no other flag."""
    for flags, wanted in ((0, []), (2, []), (4, []), (1, ["> FF10947B"])):
        before = len(card.heard())
        same(handler.power(LUN, UP), (SUCCESS, "3B1094"))
        same(handler.protocol(LUN, T0, flags), SUCCESS)
        same(handler.transmit(LUN, 0, SELECT), (SUCCESS, "610B"))
        await_that("the trace", lambda: f"> {SELECT[10:]}" in card.heard()[before:])
        found = [it for it in card.heard()[before:] if it.startswith("> FF")]
        same(found, wanted, f"{flags}:")


def is_quiet(handler, _):
    """Without an echo the line is silent before each header, as long as the setting says."""
    same(handler.power(LUN, UP)[0], SUCCESS)
    began = time.monotonic()
    same(handler.transmit(LUN, 0, SELECT), (SUCCESS, "610B"))
    if time.monotonic() - began < 0.9:
        raise Wrong(f"a header after {time.monotonic() - began:.2f} s")


def has_pace(handler, _):
    """At 1200 baud 100 characters take 10 ms each, and the next command waits for them: a pseudo
    terminal has no pace of its own."""
    same(handler.power(LUN, UP)[0], SUCCESS)
    same(handler.transmit(LUN, 0, SELECT), (SUCCESS, "610B"))
    began = time.monotonic()
    for command in (f"00DA005164{'AB' * 100}", SELECT):
        same(handler.transmit(LUN, 0, command)[0], SUCCESS)
    if time.monotonic() - began < 1:
        raise Wrong(f"it takes {time.monotonic() - began:.2f} s")


def begins_itself(handler, _):
    """Without SetProtocolParameters the first command begins with its protocol."""
    same(handler.power(LUN, UP)[0], SUCCESS)
    same(handler.transmit(LUN, 1, SELECT), (SUCCESS, "610B"))
    same(handler.transmit(LUN, 0, SELECT), (COMMUNICATION, ""))


def has_patience(handler, _):
    """The time of a command and of a reset begins with it, and not with the session."""
    protocol = 0 if handler.power(LUN, UP)[1] == "3B00" else 1
    same(handler.transmit(LUN, protocol, SELECT), (SUCCESS, "610B"))
    time.sleep(4.2)
    same(handler.transmit(LUN, protocol, "00CA5F2006"), (SUCCESS, "5F20034A4F459000"))
    time.sleep(4.2)
    same(handler.power(LUN, RESET)[0], SUCCESS)


def has_patience_for_pps(handler, _):
    """So does the time of PPS."""
    same(handler.power(LUN, UP)[0], SUCCESS)
    time.sleep(4.2)
    same(handler.transmit(LUN, 1, SELECT), (SUCCESS, "610B"))


def waits(handler, card):
    """A card may take BWT, 1.6 s here."""
    same(handler.power(LUN, UP)[0], SUCCESS)
    same(handler.transmit(LUN, 1, SELECT), (SUCCESS, "610B"))
    same(handler.transmit(LUN, 1, "00CA5F2006"), (SUCCESS, "5F20034A4F459000"))
    same(card.struck(), True, "the fault has struck:")


def lose(handler):
    """A fault: the card waits for data, and the program for an answer. Returns when it ended."""
    same(handler.power(LUN, UP)[0], SUCCESS)
    same(handler.transmit(LUN, 0, SELECT), (SUCCESS, "610B"))
    same(handler.transmit(LUN, 0, "00DA005102"), (COMMUNICATION, ""))
    return time.monotonic()


def is_lost_for(handler):
    """How long the slot is empty after a fault, in seconds: less, if this process was held up."""
    began = lose(handler)
    await_that("the slot has a card", lambda: handler.present(LUN) == PRESENT)
    return time.monotonic() - began


def is_lost(handler, card):
    """After a fault the slot is empty for a second, and the card has no power."""
    same(any(is_lost_for(handler) > 0.9 for _ in range(4)), True, "a second:")
    lose(handler)
    same(handler.present(LUN), ABSENT)
    same(handler.transmit(LUN, 0, SELECT), (COMMUNICATION, ""))
    same(handler.get(LUN, 0x0303), (SUCCESS, ""))
    await_that("the slot has a card", lambda: handler.present(LUN) == PRESENT)
    same(handler.power(LUN, UP), (SUCCESS, "3B00"))
    same(handler.transmit(LUN, 0, "00CA5F2006"), (SUCCESS, "6985"), "no application is selected:")
    card.end()
    same(handler.transmit(LUN, 0, SELECT), (NO_DEVICE, ""))
    same(handler.present(LUN), NO_DEVICE, "the reader is removed:")
    same(handler.power(LUN, UP), (POWER, ""))
    # a tty that was never there is an empty slot
    same((handler.create(0, "none:"), handler.present(0), handler.close(0)),
         (SUCCESS, ABSENT, SUCCESS))


def refuses_pps(handler, card):
    """After PPS that failed the card has to be reset: the slot is empty, without power."""
    same(handler.power(LUN, UP)[0], SUCCESS)
    same(handler.protocol(LUN, T1), PTS_FAILURE)
    same(card.struck(), True, "the fault has struck:")
    same((handler.present(LUN), handler.get(LUN, 0x0303)), (ABSENT, (SUCCESS, "")))
    same(handler.transmit(LUN, 0, SELECT), (COMMUNICATION, ""))


def is_back_at_once(handler, card):
    """The name of the tty is that of another one before the first ends. The card there has no power
    yet."""
    same(handler.power(LUN, UP), (SUCCESS, "3B00"))
    same(handler.transmit(LUN, 0, SELECT), (SUCCESS, "610B"))
    with Room() as room:
        other, new = Card(room, "other", "3B1011"), room.path / "new"
        new.symlink_to(other.tty.readlink())
        new.replace(card.tty)
        end(card.process)
        same((handler.present(LUN), handler.get(LUN, 0x0303)), (ABSENT, (SUCCESS, "")))
        same(handler.transmit(LUN, 0, SELECT), (COMMUNICATION, ""))
        await_that("the slot has a card", lambda: handler.present(LUN) == PRESENT)
        same(handler.power(LUN, UP), (SUCCESS, "3B1011"))
        handler.close(LUN)


def no_state():
    """All that the library keeps is in its readers."""
    found = {name for name, section, _, _ in objects() if section in (".data", ".bss")
             and not name.startswith(("__", "completed"))}
    if found != KEPT:
        raise Wrong(f"it keeps {found ^ KEPT}")
    dynamic = subprocess.run(["nm", "-D", "--defined-only", INSTALLED], capture_output=True,
                             text=True, check=True).stdout.split()[2::3]
    same([it for it in dynamic if not it.startswith("IFDH")], [], "exported:")
    same(len(dynamic), 10)


def objects():
    """The library's objects with data: name, section, address and size of each."""
    listed = subprocess.run(["objdump", "-t", INSTALLED], capture_output=True, text=True,
                            check=True).stdout
    for row in (it.split() for it in listed.splitlines()):
        if len(row) > 4 and row[2] == "O":
            yield row[-1], row[3], int(row[0], 16), int(row[4], 16)


def copies(needle):
    """Where these bytes are, on this thread's stack and in the readers."""
    found, regions = [], []
    with open("/proc/self/maps", encoding="utf-8") as maps:
        rows = [it.split() for it in maps]
    base = next(int(it[0].split("-")[0], 16) for it in rows if it[-1] == str(INSTALLED.resolve()))
    regions += [(name, base + at, size) for name, _, at, size in objects() if name == "places"]
    stack = next(it[0] for it in rows if it[-1] == "[stack]")
    start, end = (int(at, 16) for at in stack.split("-"))
    regions.append(("the stack", start, end - start))
    with open("/proc/self/mem", "rb", buffering=0) as memory:
        for name, at, size in regions:
            memory.seek(at)
            found += [name] * memory.read(size).count(needle)
    return sorted(found)


def no_copy(handler, _):
    """What a command and its answer brought is wiped from the readers and the stack."""
    protocol = 0 if handler.power(LUN, UP)[1] == "3B00" else 1
    secret = bytes.fromhex("A1B2C3D4E5F60718")
    for command, answer in ((SELECT, "610B"), (f"00DA005108{secret.hex()}", "9000"),
                            ("00CA00510A", f"5108{secret.hex().upper()}9000")):
        same(handler.transmit(LUN, protocol, command), (SUCCESS, answer))
        same(copies(secret[2:]), [], f"after {command[:4]} the secret is in")


def no_copy_of_a_fault(handler, card):
    """Nor does what a command brought stay if the card falls silent."""
    protocol = 0 if handler.power(LUN, UP)[1] == "3B00" else 1
    secret = bytes.fromhex("A1B2C3D4E5F60718")
    same(handler.transmit(LUN, protocol, SELECT), (SUCCESS, "610B"))
    same(handler.transmit(LUN, protocol, f"00DA005108{secret.hex()}"), (COMMUNICATION, ""))
    same(card.struck(), True, "the fault has struck:")
    same(copies(secret[2:]), [], "the secret is in")


class Memory(ctypes.Structure):
    """What glibc's mallinfo2 returns."""
    _fields_ = [(name, ctypes.c_size_t) for name in (
        "arena", "ordblks", "smblks", "hblks", "hblkhd", "usmblks", "fsmblks", "uordblks",
        "fordblks", "keepcost")]


def keeps_no_memory(handler, card):
    """Readers, sessions and commands free what they take."""
    ask = ctypes.CDLL(None).mallinfo2
    ask.restype = Memory
    protocol = 0 if handler.power(LUN, UP)[1] == "3B00" else 1

    def sessions(count):
        for _ in range(count):
            same((handler.close(LUN), handler.create(LUN, f"{card.tty}:{PATIENT}")), (0, 0))
            same(handler.power(LUN, UP)[0], SUCCESS)
            for _ in range(4):
                same(handler.transmit(LUN, protocol, SELECT), (SUCCESS, "610B"))
    found = []
    for _ in range(2):
        sessions(4)
        found.append(ask().uordblks + ask().hblkhd)
    same(max(found[1] - found[0], 1000), 1000, "bytes more:")


def settings():
    done = subprocess.run([BUILD / "standin/settings"], capture_output=True, text=True)
    same((done.returncode, done.stderr), (0, ""), done.stdout)


def group(case):
    case("settings", settings)
    case("numbers of readers", lambda: with_card(numbers))
    case("tags, features", lambda: with_card(tags))
    case("properties", lambda: with_card(properties, "3B9011800100"))
    case("extended commands", extended)
    case("power", lambda: with_card(power))
    # an answer to reset of three bytes might be taken for one to the first command
    case("TPDUs", lambda: with_card(tpdus, "3B1011"))
    case("commands", lambda: with_card(commands, "3B800181"))
    case("commands after PPS", lambda: with_card(commands, "3B9011800100"))
    case("PPS by the flags", lambda: with_card(rates, "3B1094"))
    case("the pace of the setting",
         lambda: with_card(has_pace, settings=f"{PATIENT},baud=1200"))
    for atr in ("3B00", "3B800181"):
        case(f"no memory is kept, {atr}", lambda atr=atr: with_card(keeps_no_memory, atr))
    case("silence by the setting",
         lambda: with_card(is_quiet, settings=f"{PATIENT},echo=no,quiet=900", echo=False))
    case("no SetProtocolParameters", lambda: with_card(begins_itself, "3B9011800100"))
    case("no copy of a secret at T=0", lambda: with_card(no_copy))
    case("no copy of a secret at T=1", lambda: with_card(no_copy, "3B800181"))
    for atr in ("3B00", "3B8081210323"):
        case(f"no copy of a secret after a fault, {atr}",
             lambda atr=atr: with_card(no_copy_of_a_fault, atr, BRIEF, ["command 2, mute"]))
    case("a card that takes most of BWT",
         lambda: with_card(waits, "3B800181", "slack=400", ["command 2, delay 1s"]))
    for atr in ("3B00", "3B800181"):
        case(f"a session of more than the patience, {atr}",
             lambda atr=atr: with_card(has_patience, atr, f"{PATIENT},patience=4"))
    case("PPS after more than the patience", lambda: with_card(
        has_patience_for_pps, "3B9011800100", f"{PATIENT},patience=4"))
    case("after a fault", lambda: with_card(is_lost, settings=BRIEF))
    case("after PPS that failed",
         lambda: with_card(refuses_pps, "3B9011800100", BRIEF, ["pps, mute"]))
    case("another tty at once", lambda: with_card(is_back_at_once))
    case("no state", no_state)
