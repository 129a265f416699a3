"""Tests a card of an application of your own, by each way to its line. Answers are by ISO/IEC
7816-3 and 7816-4 and the rules of the card."""

import itertools
import threading
from functools import partial
from types import SimpleNamespace

import pytest
from galliumtoad import (T1, Application, CallError, Command, CommandError, OwnCard, Session,
                         TransportError, own_card)
from galliumtoad._library import lib
from galliumtoad.edits import block


def made(count):
    """The first bytes of each response."""
    return bytes((at * 7 + at // 256 + 3) % 256 for at in range(count))


class Probe(Application):
    """INS A4, D6 and 20 take data. P1-P2 is the number of bytes of a response: to B0 and A4 9000
    follows them, to B2 6283. D6 and 20 have none: 9000 and 63C2. Of 5A P1-P2 is the status. It asks
    as often for more time as `multiple` says, which counts down."""

    def __init__(self):
        self.log, self.fault, self.answer, self.multiple = [], None, None, 0

    def note(self, *words):
        self.log.append(words)
        if self.fault == words[0]:
            raise KeyboardInterrupt(words[0])

    def takes_data(self, header):
        if self.fault == "header":
            raise KeyboardInterrupt("header")
        return header[1] in (0xA4, 0xD6, 0x20)

    def more_time(self, command):
        if self.fault == "time":
            raise KeyboardInterrupt("time")
        multiple = self.multiple
        if multiple:
            self.note("waits", command.header.hex(), command.data, command.le, multiple)
            self.multiple -= 1
        return multiple

    def carry_out(self, command):
        self.note("did", command.header.hex(), command.data, command.le)
        if self.answer:
            return self.answer
        ins, number = command.header[1], int.from_bytes(command.header[2:], "big")
        data = made(number) if ins in (0xB0, 0xB2, 0xA4) else b""
        words = {0xB0: 0x9000, 0xA4: 0x9000, 0xD6: 0x9000, 0xB2: 0x6283, 0x20: 0x63C2, 0x5A: number}
        return words.get(ins, 0x6D00), data

    def settle(self):
        self.note("settled")

    def reset(self):
        self.note("reset")


def own():
    return OwnCard(Probe())


def log(card):
    """What reached the application since the last call."""
    seen, card.application.log = card.application.log, []
    return seen


def done(header, data=b"", le=0):
    return [("did", header, data, le), ("settled",)]


# What a terminal sends by TPDUs, the card's answer, and the command that it carries out. The rules
# are proved, and bindings/c tests them: here is what the package passes on.
AT_T0 = [
    ("00B0000505", made(5) + b"\x90\x00", done("00b00005", le=5)),
    ("00B0000500", b"\x6c\x05", done("00b00005", le=256)),
    ("00B0000505", made(5) + b"\x90\x00", []),
    ("80B2000503", made(3) + b"\x61\x02", done("80b20005", le=3)),
    ("00C0000002", made(5)[3:] + b"\x62\x83", []),
    ("00A4001003414243", b"\x61\x10", done("00a40010", b"ABC")),
    ("00C0000010", made(16) + b"\x90\x00", []),
    ("00200001020102", b"\x63\xc2", done("00200001", b"\x01\x02")),
    ("0060000002", b"\x6d\x00", []),
]


def talked(card, digits):
    """Passes a TPDU by characters, as a terminal at T=0 does. Returns data, SW1 and SW2."""
    tpdu = bytes.fromhex(digits if len(digits) > 8 else f"{digits}00")
    assert card.receive_bytes(tpdu[:5]) == 5
    left, answer, asked = tpdu[5:], b"", tpdu[4] or 256
    while (byte := card.send_bytes(1)[0]) in (tpdu[1], tpdu[1] ^ 0xFF):
        count = (len(left) or asked) if byte == tpdu[1] else 1
        if left:
            assert card.receive_bytes(left[:count]) == count
            left = left[count:]
        else:
            answer += card.send_bytes(count)
            asked -= count
    return answer + bytes([byte]) + card.send_bytes(1)


def test_at_t0():
    with own() as card:
        for sent, answer, seen in AT_T0:
            assert talked(card, sent) == answer, sent
            assert (card.send_bytes(), log(card)) == (b"", seen), sent


# By whole commands a command settles at once.
COMMANDS = [
    ("00B0000500", made(5) + b"\x90\x00", done("00b00005", le=256)),
    ("80B2000503", made(3) + b"\x61\x02", done("80b20005", le=3)),
    ("00C0000000", made(5)[3:] + b"\x62\x83", []),
    ("00B00005", b"\x61\x05", done("00b00005", le=256)),
    ("00A400100341424300", made(16) + b"\x90\x00", done("00a40010", b"ABC")),
    ("00B000050141", b"\x67\x00", []),
    ("00B0100000", made(256) + b"\x61\x00", done("00b01000", le=256)),
]


def test_by_commands():
    with own() as card:
        for sent, answer, seen in COMMANDS:
            assert (card.apdu(bytes.fromhex(sent)), log(card)) == (answer, seen), sent
        for sent, name in (("0060000000", "GT_INVALID_INS"), ("001000", "GT_TOO_SHORT")):
            with pytest.raises(CommandError) as found:
                card.apdu(bytes.fromhex(sent))
            assert (found.value.name, log(card)) == (name, [])


def at_t1(card):
    """A terminal's end over a line at T=1, on which each second block to the card is cut off."""
    card.begin_t1()
    count = itertools.count()
    return T1(lambda data, waits: card.block(data[next(count) % 2 :]) if data else b"")


def test_at_t1():
    """The same over T=1, where bytes that are no command have an answer too."""
    none = [("0060000000", b"\x6d\x00", []), ("001000", b"\x67\x00", [])]
    with own() as card, at_t1(card) as end:
        # S(IFS request), and its response
        assert card.block(bytes.fromhex("00C101FE3E")).hex() == "00e101fe1e"
        for sent, answer, seen in COMMANDS + none:
            assert (end(bytes.fromhex(sent)), log(card)) == (answer, seen), sent
        for call in (card.begin_t1, card.send_bytes, partial(card.apdu, bytes(5))):
            with pytest.raises(CallError) as found:
                call()
            assert (found.value.name, log(card)) == ("GT_STATE", [])
        card.reset()
        assert log(card) == [("reset",)]
        with pytest.raises(CallError):
            card.block(b"")


UPDATE = bytes.fromhex("00D600000141")
WAITED = [("waits", "00d60000", b"A", 0, 2), ("waits", "00d60000", b"A", 0, 1)]
WAITED += done("00d60000", b"A")


def until_it_listens(card):
    """What each call of `send_bytes` returns, up to the first one without characters."""
    return list(iter(card.send_bytes, b""))


def test_more_time_by_characters():
    """A NULL for each time that the application asks, and then the answer (ISO/IEC 7816-3, 10.3.3).
    The data of the command stay."""
    with own() as card:
        card.application.multiple = 2
        card.receive_bytes(UPDATE[:5])
        assert until_it_listens(card) == [b"\xd6"]
        card.receive_bytes(UPDATE[5:])
        assert until_it_listens(card) == [b"\x60", b"\x60", b"\x90\x00"]
        assert log(card) == WAITED


def test_a_reset_while_the_application_has_more_time():
    with own() as card:
        card.application.multiple = 3
        card.receive_bytes(bytes.fromhex("00B0000202"))
        assert card.send_bytes() == b"\x60"
        card.reset()
        assert log(card) == [("waits", "00b00002", b"", 2, 3), ("reset",)]
        card.receive_bytes(UPDATE[:5])
        assert until_it_listens(card) == [b"\xd6"]
        card.receive_bytes(UPDATE[5:])
        assert b"".join(until_it_listens(card)) == b"\x60\x60\x90\x00"


@pytest.mark.parametrize("way", [OwnCard.tpdu, OwnCard.apdu])
def test_no_more_time_for_what_came_whole(way):
    with own() as card:
        card.application.multiple = 2
        assert (way(card, UPDATE), log(card)) == (b"\x90\x00", done("00d60000", b"A"))


def test_more_time_at_t1():
    """S(WTX request) with the multiple, again after a block that is lost (ISO/IEC 7816-3,
    11.6.2.3)."""
    with own() as card:
        card.begin_t1()
        card.application.multiple = 2
        for came, answer in [
            (block(0, 0x00, UPDATE), block(0, 0xC3, b"\x02")),
            (b"", block(0, 0xC3, b"\x02")),
            (block(0, 0xE3, b"\x02"), block(0, 0xC3, b"\x01")),
            (block(0, 0xE3, b"\x01"), block(0, 0x00, b"\x90\x00")),
        ]:
            assert card.block(came) == answer
        assert log(card) == WAITED


@pytest.mark.parametrize(("multiple", "error"), [(256, ValueError), (-1, ValueError),
                                                 ("1", TypeError), (None, TypeError)])
def test_a_multiple_that_no_application_asks_for(multiple, error):
    with own() as card:
        card.application.more_time = lambda command: multiple
        card.receive_bytes(bytes.fromhex("00B0000505"))
        with pytest.raises(error):
            card.send_bytes()
        del card.application.more_time
        is_as_after_a_reset(card)


DEADLOCKS = [
    ("00D6000002", "GT_WANTS_DATA", []),
    ("00B000050141", "GT_SENDS_DATA", [("did", "00b00005", b"", 1)]),
]


@pytest.mark.parametrize(("tpdu", "name", "seen"), DEADLOCKS)
def test_a_deadlock_resets_the_application_once(tpdu, name, seen):
    with own() as card:
        with pytest.raises(TransportError) as found:
            card.tpdu(bytes.fromhex(tpdu))
        assert (found.value.name, log(card)) == (name, [*seen, ("reset",)])
        assert card.apdu(bytes.fromhex("00B00005")) == b"\x61\x05"
        log(card)
        with pytest.raises(TransportError, match="."):  # without a question
            card.tpdu(bytes.fromhex("00C000000141"))
        assert log(card) == [("reset",)]
        assert card.apdu(bytes.fromhex("00B0000100")) == made(1) + b"\x90\x00"
        assert log(card) == done("00b00001", le=256)


@pytest.mark.parametrize("code", [lib.GT_WANTS_DATA, lib.GT_SENDS_DATA])
def test_a_deadlock_before_a_question_resets_the_application(monkeypatch, code):
    """The card is reset by the library, which a stand-in replaces here."""
    with own() as card:
        monkeypatch.setattr(own_card, "lib", SimpleNamespace(
            gt_card_tpdu=lambda *_: code, **{it: getattr(lib, it) for it in dir(lib)
                                             if it.startswith("GT_")}))
        with pytest.raises(TransportError):
            card.tpdu(UPDATE)
        assert log(card) == [("reset",)]


READS = [
    ("00B0000202", 2, b"\xb0" + made(2) + b"\x90\x00"),
    ("00B0000201", 1, b"\xb0" + made(1) + b"\x61\x01"),
    ("00B0000203", 3, b"\x6c\x02"),
]


@pytest.mark.parametrize(("tpdu", "le", "sent"), READS)
def test_a_command_settles_with_its_last_byte(tpdu, le, sent):
    """A reset before SW2 drops it."""
    for passed in range(len(sent) + 1):
        with own() as card:
            assert card.receive_bytes(bytes.fromhex(tpdu) + b"\x00") == 5
            assert log(card) == []
            assert card.send_bytes(passed) == sent[:passed]
            seen = done("00b00002", le=le)
            assert log(card) == seen[: (passed > 0) + (passed == len(sent))]
            card.reset()
            assert log(card) == [("reset",)]
            assert talked(card, "00C0000001") == b"\x69\x85"
            assert talked(card, "00D600000141") == b"\x90\x00"
            assert log(card) == done("00d60000", b"A")


def by_room(room):
    """A way of a command at a card: by as many characters at once."""

    def carry(card, command):
        card.receive_bytes(command)
        while card.send_bytes(room):
            pass

    return carry


def by_blocks(card, command):
    with at_t1(card) as end:
        end(command)


WAYS = {"characters": by_room(1), "buffers": by_room(1024), "TPDUs": OwnCard.tpdu,
        "commands": OwnCard.apdu, "blocks": by_blocks}


def is_as_after_a_reset(card):
    """The application was reset once, nothing waits, and the next command is carried out."""
    assert [it for it in log(card) if it[0] == "reset"] == [("reset",)]
    card.application.fault = card.application.answer = None
    assert talked(card, "00C0000002") == b"\x69\x85"
    assert talked(card, "00D600000141") == b"\x90\x00"
    assert log(card) == done("00d60000", b"A")


FAULTS = [(fault, way) for fault in ("header", "did", "settled") for way in WAYS]
# a whole TPDU or command asks for no more time
FAULTS += [("time", way) for way in WAYS if way not in ("TPDUs", "commands")]


@pytest.mark.parametrize(("fault", "way"), FAULTS)
def test_an_exception_resets_the_card(way, fault):
    with own() as card:
        assert talked(card, "00B0000503")[3:] == b"\x61\x02"
        log(card)
        card.application.fault = fault
        with pytest.raises(KeyboardInterrupt, match=fault):
            WAYS[way](card, bytes.fromhex("00B0000505"))
        is_as_after_a_reset(card)


WRONG = [((word, b""), CallError) for word in (0x6100, 0x61FF, 0x6C05, 0x60FF, 0x5FFF, 0xA000)]
WRONG += [((0x9000, bytes(4097)), CallError), ((0x10000, b""), ValueError)]
WRONG += [((-1, b""), ValueError), ((0x9000, "text"), TypeError), (("9000", b""), TypeError)]
WRONG += [((0x9000,), ValueError), (0x9000, TypeError)]


@pytest.mark.parametrize("way", WAYS)
@pytest.mark.parametrize(("answer", "error"), WRONG)
def test_what_no_application_answers(way, answer, error):
    with own() as card:
        card.application.answer = answer
        with pytest.raises(error) as found:
            WAYS[way](card, bytes.fromhex("00B0000505"))
        assert error is not CallError or found.value.name == "GT_ARGUMENT"
        is_as_after_a_reset(card)


def test_a_refused_call_changes_nothing():
    with own() as card:
        assert card.receive_bytes(bytes.fromhex("00B000050512")) == 5
        for call, data, error in (
            (card.receive_bytes, "text", TypeError),
            (card.send_bytes, -1, ValueError),
            (card.send_bytes, (1 << 30) + 1, ValueError),
            (card.tpdu, "text", TypeError),
            (card.apdu, "text", TypeError),
            (Session, card, TypeError),
        ):
            with pytest.raises(error):
                call(data)
        assert (card.receive_bytes(b"A"), card.send_bytes(0), log(card)) == (0, b"", [])
        assert card.send_bytes() == b"\xb0" + made(5) + b"\x90\x00"


def test_a_closed_card():
    card = own()
    card.close()
    calls = (card.receive_bytes, card.tpdu, card.apdu, card.block)
    by_bytes = [partial(it, bytes(5)) for it in calls]
    for call in (*by_bytes, partial(card.plan, ""), card.send_bytes, card.begin_t1, card.reset):
        with pytest.raises(CallError) as found:
            call()
        assert found.value.name == "GT_EMPTY"
    assert log(card) == []


@pytest.mark.parametrize("where", ["here", "in another thread"])
def test_the_application_has_the_card_alone(where):
    """A call of the card from its application, or meanwhile from another thread, is refused."""
    with own() as card:
        found = []

        def use():
            for call in (card.reset, card.send_bytes, card.close):
                try:
                    call()
                except RuntimeError as error:
                    found.append(str(error))

        def settle():
            thread = threading.Thread(target=use)
            thread.start() if where != "here" else use()
            thread.join() if where != "here" else None

        card.application.settle = settle
        assert talked(card, "00B0000505") == made(5) + b"\x90\x00"
        assert found == ["another call of this handle is in progress"] * 3


def test_what_shows():
    command = Command(bytes.fromhex("00200081"), b"1234", 0)
    assert repr(command) == f"{command}" == "Command(00200081, <4 bytes>, le=0)"
    assert "1234" not in repr([command])


def test_an_application_needs_two_functions():
    class Half(Application):
        def takes_data(self, header):
            return True

    with pytest.raises(TypeError, match="carry_out"):
        Half()

    class Two(Half):
        def carry_out(self, command):
            return 0x9000, command.data

    with OwnCard(Two()) as card:
        assert talked(card, "00100000024142") == b"\x61\x02"
        card.reset()
        assert card.application.settle() is card.application.reset() is None
