"""Tests arguments, errors and handles: what each call takes, and what it raises."""

import enum
import gc
import itertools
import sys
import threading
from contextlib import contextmanager
from dataclasses import FrozenInstanceError
from decimal import Decimal
from types import SimpleNamespace
from unittest.mock import Mock

import pytest
from galliumtoad import (Answer, Application, Atr, AtrError, AtrT1, BlockError, BuildError,
                         CallError, Card, Code, CommandError, Due, Edc, Entry, Exchange, Get, Level,
                         LineError, ObjectsError, OutOfMemory, Outcome, OwnCard, Pps, PpsError, Put,
                         Refused, Select, Send, Session, Status, T1, Terminal, TransportError, find,
                         head, objects)
from galliumtoad._library import ffi, lib
from galliumtoad.errors import checked
from galliumtoad.handle import Handle

AID = bytes.fromhex("A0000000031010")
SELECT = bytes.fromhex("00A4040007A000000003101000")


def card():
    return Card({AID: {0x5F20: b"JOE", 0x50: b"A" * 600}}, locked=iter([(AID, 0x50)]))


@contextmanager
def raises(kind, name, place=None):
    """Expects an error of exactly this kind, with the header's name and this place."""
    with pytest.raises(kind) as found:
        yield
    error = found.value
    assert (type(error), error.name, error.place) == (kind, name, place)
    assert error.code == getattr(lib, name)
    text = ffi.string(lib.gt_text(error.code)).decode()
    assert str(error) == (text if place is None else f"{text} at byte {place}")


def test_each_code_has_its_kind():
    codes = [getattr(lib, it) for it in dir(lib) if isinstance(getattr(lib, it), int)]
    faults = sorted({it for it in codes if it < 0}, reverse=True)
    assert len(faults) >= 50
    kinds = {}
    for code in faults:
        with pytest.raises(Exception) as found:
            checked(code)
        kinds.setdefault(-code // 10, set()).add(type(found.value))
    assert kinds == {
        0: {CallError, OutOfMemory},
        1: {CallError},
        2: {BuildError},
        3: {LineError},
        4: {ObjectsError},
        5: {CommandError},
        6: {TransportError},
        7: {AtrError},
        8: {PpsError},
        9: {BlockError},
    }
    with raises(OutOfMemory, "GT_MEMORY"):
        checked(lib.GT_MEMORY)
    assert issubclass(OutOfMemory, MemoryError) and issubclass(OutOfMemory, CallError)


def named(kind, prefix=""):
    """The members of an enumeration, which are numbers, with their names in the header."""
    assert issubclass(kind, enum.IntEnum)
    return {f"GT_{prefix}{it.name}": it.value for it in kind}


def test_numbers_have_the_names_of_the_header():
    numbers = {it: getattr(lib, it) for it in dir(lib) if it.startswith("GT_")}
    assert named(Code) == {name: it for name, it in numbers.items() if it < 0}
    assert named(Outcome) == {it: numbers[it] for it in named(Outcome)}
    assert named(Edc) == {"GT_RESERVED": 0, "GT_LRC": lib.GT_LRC, "GT_CRC": lib.GT_CRC}
    assert issubclass(Level, enum.IntEnum) and set(Level) == {Level.TPDU, Level.APDU}
    with raises(CallError, "GT_STATE"):
        Terminal().data_sent()
    with pytest.raises(CallError) as found:
        Terminal().send_bytes()
    assert found.value.code is Code.STATE


@pytest.mark.parametrize("outcome", [None, *Outcome])
def test_an_outcome_that_is_not_known_is_unknown(outcome):
    error = BlockError(Code.ABORTED, outcome)
    assert error.outcome is (Outcome.UNKNOWN if outcome is None else outcome)


@pytest.mark.parametrize("wrong", ["9000", 5, None, [1, 2], memoryview(b"P.A.")[::2]])
def test_a_list_of_objects_is_bytes(wrong):
    zeros = Card({bytes(5): {}})
    for call in (lambda: objects(wrong), lambda: find(wrong, 0x50), lambda: zeros.entries(wrong)):
        with pytest.raises(TypeError):
            call()


def test_what_is_wrong_is_refused_before_a_call(monkeypatch):
    terminal, held, session = Terminal(), card(), Session(card())
    terminal.run(held.tpdu, Select(AID))
    begun = terminal.answer()

    def called(*words, **more):
        raise AssertionError(words)

    monkeypatch.setattr(Handle, "_call", called)
    for call in [
        lambda: Session(5),
        lambda: Session(session),
        lambda: T1(5),
        lambda: terminal.run(5, Get(0x50)),
        lambda: terminal.run(SimpleNamespace(level=Level.TPDU), Get(0x50)),
        lambda: terminal.run(enum, Get(0x50)),  # it has a name, as a function has
        lambda: terminal.run(held.tpdu, Get),
        lambda: terminal.run(held.tpdu, Status(0x9000)),
        lambda: Card(5),
        lambda: Card({AID: 5}),
        lambda: Card({AID: {0x50: b"", 0x5F20: 5}}),
        lambda: Card({AID: {"50": b""}}),
        lambda: Card({AID: {0x50: b""}}, locked=5),
        lambda: Terminal(None),
        lambda: Exchange(5),
        lambda: Exchange(SELECT, None),
        lambda: held.plan(5),
    ]:
        with pytest.raises(TypeError):
            call()
    monkeypatch.undo()
    assert terminal.answer() == begun


# The most that a number may be, and a call with it.
NUMBERS = [
    (0xFFFFFF, lambda it: Terminal().begin(Get(it))),
    (0xFFFFFF, lambda it: find(b"", it)),
    (0xFFFFFF, lambda it: head(it, 0)),
    (0xFFFF, lambda it: head(0x50, it)),
    (0xFFFF, lambda it: card().plan("", it)),
    (15, Pps),
    (255, lambda it: T1(bytes, it)),
    (255, lambda it: T1(bytes, 1, it)),
    (255, lambda it: Status(0x9000).words(it)),
    (255, lambda it: Status(0x9000).words(0, it)),
    (1 << 30, lambda it: card().send_bytes(it)),
    (1 << 63, Terminal),
]


@pytest.mark.parametrize(("most", "call"), NUMBERS)
def test_a_number_is_an_integer_in_its_range(most, call):
    for error, wrong in ((TypeError, ("50", 5.0, None, Decimal(5))),
                         (ValueError, (-1, most + 1, 1 << 70))):
        for it in wrong:
            with pytest.raises(error):
                call(it)


def test_a_nul_does_not_end_a_plan():
    """C's text would end there, and the rest of the plan would be lost without a word."""
    for held in (card(), Session(card())):
        with pytest.raises(ValueError, match="a NUL character in the steps of a plan"):
            held.plan("o\0n")
    with raises(CallError, "GT_ARGUMENT"):
        held.plan("o0n")


def test_the_most_and_the_least_are_taken():
    assert Pps(15, 255, 0).request.hex().startswith("ff3fff00") and Pps(0).request
    for number in (-1, 256):  # None leaves the byte out
        with pytest.raises(ValueError):
            Pps(0, pps1=number)
    assert head(0xFF8101, 0xFFFF).hex() == "ff810182ffff"
    assert card().plan("", 1) is card().plan("", 256) is None


class Long(bytes):
    def __len__(self):
        return 40

    def __bytes__(self):
        return bytes(4)


def test_any_bytes_like_object_is_read():
    assert find(Long(b"P\0"), 0x50).encoded == b"P\0"
    assert Exchange(Long(SELECT)).tpdu().data == SELECT[:-1]
    assert Atr(Long(bytes.fromhex("3B02144E"))).historical == b"\x14N"
    session = Session(card())
    assert session.run(Select(bytearray(AID))).status.is_ok
    assert session.run(Put(0x5F20, memoryview(b"xANNx")[1:4])).status.is_ok
    assert session.run(Get(0x5F20)).object(0x5F20).value == b"ANN"
    with pytest.raises(TypeError):
        session.run(Put(0x5F20, memoryview(b"A.N.N.")[::2]))


class Tag:
    def __index__(self):
        return 0x50


def test_what_a_card_holds():
    assert Card({AID: {Tag(): b""}}, locked=[(AID, Tag())]).entries(AID) == [(0x50, b"", True)]
    held = card()
    assert held.applications == [AID] and held.selected is None
    assert held.entries(AID) == [(0x5F20, b"JOE", False), (0x50, b"A" * 600, True)]
    with pytest.raises(KeyError):
        held.entries(bytes(5))
    held.tpdu(SELECT[:-1])
    assert held.selected == AID
    held.reset()
    assert held.selected is None


@pytest.mark.parametrize(
    ("operation", "came", "sent"),
    [
        (Put(0x5F20, b"ANN"), ["9000"], False),
        (Put(0x5F20, b"ANN"), ["25", "25", "DA", "9000"], True),
        (Put(0x5F20, bytes(300)), ["DA", "9000", "9000"], False),
    ],
)
def test_data_that_have_left_and_have_not(operation, came, sent):
    """A card may end a command before it takes the data: then 9000 is no success."""
    with Terminal() as terminal:
        with raises(CallError, "GT_STATE"):
            terminal.data_sent()
        terminal.begin(operation)
        for characters in came:
            terminal.send_bytes()
            terminal.receive_bytes(bytes.fromhex(characters))
        assert terminal.answer().status.is_ok and terminal.data_sent() is sent


NAME = Put(0x5F20, b"ANN")


@pytest.mark.parametrize(
    ("operation", "came", "name", "place", "due", "sent"),
    [
        (NAME, "9000DA", "GT_AFTER_END", 2, "", False),
        (NAME, "DA9000", "GT_NOT_LISTENING", 1, "414E4E", True),
        (NAME, "259000", "GT_NOT_LISTENING", 1, "41", False),
        (Put(0x5F20, bytes(300)), "9000DA", "GT_NOT_LISTENING", 2, "00DA5F202D", False),
    ],
)
def test_a_status_and_a_procedure_byte_at_once(operation, came, name, place, due, sent):
    """A procedure byte after a status asks for nothing. A status after a procedure byte counts only
    once the data of that have left."""
    with Terminal() as terminal:
        terminal.begin(operation)
        terminal.send_bytes()
        with raises(LineError, name, place):
            terminal.receive_bytes(bytes.fromhex(came))
        assert terminal.send_bytes().hex().upper() == due
        if due:
            assert terminal.answer() is None
            terminal.receive_bytes(b"\x90\x00")
        with raises(LineError, "GT_AFTER_END", 0):
            terminal.receive_bytes(b"\xDA")
        assert (terminal.answer(), terminal.data_sent()) == ((0x9000, b""), sent)


@pytest.mark.parametrize(
    ("answer", "name"),
    [("9000DA", "GT_NO_STATUS"), ("DA9000", "GT_NOT_ASKED"), ("90009000", "GT_NOT_ASKED")],
)
@pytest.mark.parametrize(
    ("level", "due", "give"),
    [(Level.TPDU, "tpdu", Terminal.answered), (Level.APDU, "apdu", Terminal.responded)],
)
def test_a_byte_beside_the_status_of_an_answer(level, due, give, answer, name):
    """It is no procedure byte, and no part of the status. `run` sends nothing more."""
    with Terminal() as terminal:
        terminal.begin(NAME)
        asked = getattr(terminal, due)()
        with raises(TransportError, name):
            give(terminal, bytes.fromhex(answer))
        assert getattr(terminal, due)() == asked and terminal.answer() is None
        give(terminal, b"\x90\x00")
        assert terminal.answer() == (0x9000, b"")

        def transport(data):
            return left.pop(0)

        left, transport.level = [bytes.fromhex(answer), b"\x90\x00"], level
        with raises(TransportError, name):
            terminal.run(transport, NAME)
        assert left == [b"\x90\x00"] and terminal.answer() is None


def test_of_whole_tpdus_and_commands_no_data_are_known():
    for give in (Exchange.answered, Exchange.responded):
        with Exchange(bytes.fromhex("00DA5F200100")) as exchange:
            assert exchange.data_sent() is False
            give(exchange, bytes.fromhex("9000"))
            assert exchange.data_sent() is None


def test_faults_of_an_exchange():
    exchange = Exchange(SELECT, limit=10)
    assert exchange.tpdu() == (SELECT[:-1], 0)
    exchange.answered(bytes.fromhex("610B"))
    assert exchange.tpdu() == (bytes.fromhex("00C000000B"), 11)
    with raises(LineError, "GT_TOO_LONG"):
        exchange.answered(bytes(11) + b"\x90\x00")
    assert exchange.tpdu() is None and exchange.answer() is None
    with raises(CallError, "GT_FAILED"):
        exchange.send_bytes()
    exchange = Exchange(SELECT)
    exchange.send_bytes()
    with raises(LineError, "GT_BAD_PROCEDURE", 2):
        exchange.receive_bytes(b"\x60\x60\x00")


def test_a_terminal_is_reset_after_what_its_transport_raises():
    def failing(tpdu):
        sent.append(tpdu)
        raise OSError("pulled")

    sent, terminal = [], Terminal()
    with pytest.raises(OSError, match="pulled"):
        terminal.run(failing, Select(AID))
    assert sent == [SELECT[:-1]] and terminal.tpdu() is None
    with raises(TransportError, "GT_NO_STATUS"):
        terminal.run(lambda tpdu: b"", Select(AID))
    with pytest.raises(TypeError):
        terminal.run(lambda tpdu: "9000", Select(AID))
    assert terminal.run(card().tpdu, Select(AID)).status.is_ok
    terminal.begin(Get(0x50))
    with raises(CallError, "GT_STATE"):
        terminal.run(card().tpdu, Select(AID))
    assert terminal.tpdu() is not None


class Levelled:
    """What may be a transport: it keeps what it is given, and answers 9000."""

    def __init__(self, *level):
        self.sent = []
        if level:
            [self.level] = level

    def __call__(self, data, /):
        self.sent.append(data)
        return b"\x90\x00"


@pytest.mark.parametrize("level", [(), ("apdu",), (1,), (True,), (None,), (Mock(),), (Level,)])
def test_a_wrong_level_is_a_type_error(level):
    transport, terminal = Levelled(*level), Terminal()
    with pytest.raises(TypeError, match="^Levelled is neither .* `level`"):
        terminal.run(transport, Select(AID))
    assert transport.sent == [] and terminal.tpdu() is None
    for right, sent in ((Level.APDU, SELECT), (Level.TPDU, SELECT[:-1])):
        transport = Levelled(right)
        assert terminal.run(transport, Select(AID)).status.is_ok and transport.sent == [sent]


def test_a_terminal_is_reset_if_its_answer_is_lost(monkeypatch):
    def failing(status):
        raise MemoryError

    terminal = Terminal()
    monkeypatch.setattr("galliumtoad.terminal.Status", failing)
    with pytest.raises(MemoryError):
        terminal.run(lambda tpdu: b"\x90\x00", Get(0x50))
    monkeypatch.undo()
    assert terminal.answer() is None
    assert terminal.run(lambda tpdu: b"\x90\x00", Get(0x50)).status.is_ok


@pytest.mark.parametrize("number", [0x6110, 0x6282, 0x63C0, 0x6A82, 0x9001, 0x0000, 0xFFFF])
def test_every_status_but_9000_is_raised(number):
    answer = Answer(Status(number), b"JOE")
    with pytest.raises(Refused) as found:
        answer.raise_for_status()
    assert found.value.status is answer.status
    assert str(found.value) == f"{number:04X} {answer.status.text}"
    assert not isinstance(found.value, ValueError) and "JOE" not in repr(found.value)


def test_9000_is_not_raised():
    answer = Answer(Status(0x9000), b"JOE")
    assert answer.raise_for_status() is answer
    with Terminal() as terminal:
        terminal.run(card().tpdu, Select(AID)).raise_for_status()
        with pytest.raises(Refused, match="^6985 "):
            terminal.run(card().tpdu, Get(0x50)).raise_for_status()


def test_objects_and_their_faults():
    with raises(ObjectsError, "GT_VALUE_CUT", 0):
        objects(bytes.fromhex("5F2003414E"))
    with raises(ObjectsError, "GT_TAG_CUT", 4):
        find(bytes.fromhex("500141005F"), 0x84)
    assert find(b"", 0x84) is None and objects(b"") == []
    with raises(CallError, "GT_ARGUMENT"):
        find(b"", 0x5F)
    with raises(CallError, "GT_ARGUMENT"):
        head(0x5F, 1)
    assert Answer(Status(0x9000), b"JOE").object(0x5F20) is None


def test_the_fields_of_an_object():
    data = bytes.fromhex("006F0584034A4F45")
    outer, inner, last = objects(data + bytes.fromhex("5001AA"))
    assert (last.encoded, last.value) == (b"\x50\x01\xaa", b"\xaa")
    assert (outer.tag, outer.level, outer.is_constructed, outer.place) == (0x6F, 1, True, 1)
    assert (outer.encoded, outer.value) == (data[1:], data[3:])
    assert (inner.tag, inner.level, inner.is_constructed, inner.place) == (0x84, 2, False, 3)
    assert (inner.encoded, inner.value) == (data[3:], b"JOE")
    assert find(data + bytes(1), 0x6F, 0x84) == inner


def test_what_shows():
    assert repr(Put(0x5F20, b"secret")) == "Put(tag=24352)" and repr(Send(b"secret")) == "Send()"
    due, answer = Due(b"secret", 256), Answer(Status(0x9000), b"secret")
    for shown in ([repr(due), repr(answer)], [f"{due}", f"{answer}"], [str(due), "%s" % (answer,)]):
        assert shown == [
            "Due(data=<6 bytes>, most=256)",
            "Answer(status=Status(0x9000), data=<6 bytes>)",
        ]
    assert repr([answer]) == f"[{answer}]"
    assert repr(Answer(Status(0x9000), bytearray(3))) == repr(Answer(Status(0x9000), bytes(3)))
    inner = repr(objects(b"\x6f\x05\x84\x03JOE")[1])
    assert inner.startswith("Object(tag=132, level=2, is_constructed=False, place=2, ")
    assert inner.endswith(", encoded=<5 bytes>, value=<3 bytes>)")
    assert repr(Entry(0x50, b"VISA", True)) == "Entry(tag=80, value=<4 bytes>, is_locked=True)"
    assert all(Level)
    assert repr(Status(0x61)) == "Status(0x0061)" and not Status(0x6110).is_ok
    assert Status(0x9001).text == "no known meaning"
    assert Status(0x63C2).text == "a warning: a counter is at 2"
    assert Status(0x63C2).words(0x7F, 0x20) == "a warning: 2 tries are left"
    assert Status(0x63C2).words(0x20, 0x7F) == "a warning: a counter is at 2"
    assert Status(0x9F16).words(0xA0, 0xA4) == "22 bytes of the response wait"
    for number in (-1, 0x10000):
        with pytest.raises(ValueError):
            Status(number).text


def test_answers_to_reset_and_pps():
    with raises(AtrError, "GT_ATR_CUT", 1):
        Atr(b"\x3b")
    with raises(AtrError, "GT_ATR_NO_TS", 0):
        Atr(b"\x00")
    # a contactless storage card, by PC/SC part 3
    atr = Atr(bytes.fromhex("3B8F8001804F0CA0000003060300030000000068"))
    assert (atr.protocols, atr.fi, atr.di, atr.historical_count) == ((0, 1), 372, 1, 15)
    assert atr.historical == bytes.fromhex("804F0CA00000030603000300000000")
    # the defaults of ISO/IEC 7816-3, clause 11: IFSC 32, LRC, BWI 4, CWI 13
    t1 = atr.t1
    assert (t1.ifsc, t1.edc, t1.bwi, t1.cwi, t1.cwt_etu) == (32, lib.GT_LRC, 4, 13, 11 + 2**13)
    with pytest.raises(AttributeError):
        atr.colour
    assert Pps(1, 0x95).request == bytes.fromhex("FF11957B")
    with raises(PpsError, "GT_PPS_NO_PPSS"):
        Pps(0).is_agreed(b"\x00")
    assert not Pps(1, 0x95).is_agreed(bytes.fromhex("FF10957A"))


def test_an_answer_to_reset_has_the_fields_of_the_header():
    for kind, record in ((Atr, "gt_atr"), (AtrT1, "gt_atr_t1")):
        assert set(kind.__annotations__) == {name for name, _ in ffi.typeof(record).fields}
    # By ISO/IEC 7816-3, 8.2 and 8.3: TA1; TA2, the mode is specific; TA3, TB3 and TC3 for T=1; TA4
    # for T=15, the clock may stop at either level, classes A and B; one historical byte
    atr = Atr(bytes.fromhex("3B91959181F17D45011FC34343"))
    assert type(atr.specific) is type(atr.can_change) is bool and type(atr.t1.edc) is Edc
    assert (atr.length, atr.historical, atr.historical_count) == (13, b"\x43", 1)
    assert (atr.protocols, atr.protocol_count, atr.names_15) == ((1,), 1, True)
    assert (atr.rate_code, atr.fi, atr.di, atr.max_khz) == (0x95, 512, 16, 5000)
    assert (atr.specific, atr.specific_t, atr.can_change, atr.implicit) == (True, 1, False, False)
    assert (atr.clock_stop, atr.classes) == (lib.GT_STOP_EITHER, lib.GT_CLASS_A + lib.GT_CLASS_B)
    assert (atr.waiting_integer, atr.waiting_time) == (10, 10 * 960 * 512)
    assert atr.t1 == AtrT1(0x7D, Edc.CRC, 4, 5, 11 + 2**5, 11, 22, 2**4 * 960 * 372)
    with pytest.raises(FrozenInstanceError):
        atr.fi = 1


def test_a_closed_handle_raises():
    held = card()
    with held:
        held.tpdu(SELECT[:-1])
    with raises(CallError, "GT_EMPTY"):
        held.tpdu(SELECT[:-1])
    held.close()
    with raises(CallError, "GT_EMPTY"):
        held.tpdu(SELECT[:-1])
    moved = card()
    session = Session(moved)
    with raises(CallError, "GT_EMPTY"):
        moved.tpdu(SELECT[:-1])
    back = session.end()
    assert back.tpdu(SELECT[:-1]) == bytes.fromhex("610B")
    with raises(CallError, "GT_EMPTY"):
        session.run(Select(AID))


def test_a_second_thread_in_a_handle_is_refused():
    held, inside, leave = card(), threading.Event(), threading.Event()

    def stay():
        with held._alone():
            inside.set()
            # with a limit: a call that waits for this thread then continues, and the test fails
            leave.wait(10)

    first = threading.Thread(target=stay)
    first.start()
    inside.wait()
    for call in (lambda: held.tpdu(SELECT[:-1]), held.close, lambda: Session(held)):
        with pytest.raises(RuntimeError):
            call()
    leave.set()
    first.join()
    assert held.tpdu(SELECT[:-1]) == bytes.fromhex("610B")


def interrupted(call, place):
    """Makes a call whose `place`th call of a function in C is followed by an exception, as a
    signal's handler may raise it. Returns whether there was one."""
    returns = itertools.count(1)

    def look(frame, event, arg):
        if event == "c_return" and next(returns) == place:
            raise KeyboardInterrupt

    sys.setprofile(look)
    try:
        call()
    except KeyboardInterrupt:
        return True
    finally:
        sys.setprofile(None)
    return False


def test_an_interrupted_call_leaves_the_handle_free():
    class Own(Application):
        def takes_data(self, header):
            return False

        def carry_out(self, command):
            return 0x9000, bytes(5)

    ends = [card(), OwnCard(Own()), Terminal()]
    for end in ends[:2]:
        for place in itertools.count(1):
            is_in = interrupted(lambda: ends[2].run(end.tpdu, Get(0x5F20)), place)
            for it in ends:
                it.reset()
            if not is_in:
                break
        assert place > 10


def test_a_handle_keeps_no_bytes_between_its_calls():
    held, terminal, seen = card(), Terminal(), []

    def is_empty(handle):
        return bytes(handle._written) == bytes(lib.GT_RESPONSE_LIMIT)

    def carry(data):
        answer = held.tpdu(data)
        seen.extend((is_empty(held), is_empty(terminal)))
        return answer

    for operation, size in [(Select(AID), 11), (Get(0x50), 604), (Get(0x5F20), 6)]:
        assert len(terminal.run(carry, operation).data) == size
        assert is_empty(terminal)
    assert len(seen) >= 12 and all(seen)
    with pytest.raises(TransportError):
        held.tpdu(b"")
    assert held.tpdu(bytes.fromhex("00CA5F2006")) == bytes.fromhex("5F20034A4F459000")


def test_a_card_sends_16384_characters_at_once():
    with card() as held:
        held.tpdu(SELECT[:-1])
        held.plan("n" * 20000)
        assert held.receive_bytes(bytes.fromhex("00CA5F200600")) == 5  # it has more to send
        sent = [held.send_bytes(1 << 30) for _ in range(3)]
    assert [len(it) for it in sent] == [16384, 20009 - 16384, 0]
    assert b"".join(sent) == b"\x60" * 20000 + bytes.fromhex("CA5F20034A4F459000")


def resident():
    """The number of pages of this process in memory."""
    with open("/proc/self/statm") as file:
        return int(file.read().split()[1])


def test_ten_thousand_handles_leave_nothing():
    def some(count):
        for _ in range(count):
            Terminal().begin(Put(0x5F20, b"A" * 8192))
            Session(card()).run(Select(AID))
        gc.collect()

    some(500)
    before = resident()
    some(5000)
    # each pair takes at least 50 KB, and less than a byte of that is left
    assert resident() - before < 256
