"""Tests the loop of an operation over a transport: what the transport may return, and what it may
do to the terminal meanwhile."""

import gc
import signal
import sys
import threading

import pytest
from galliumtoad import (Card, CallError, Get, Level, LineError, Put, Select, Send, Terminal,
                         TransportError)
from galliumtoad._library import lib
from galliumtoad._operation import SEND, run
from galliumtoad.handle import plain

AID = bytes.fromhex("A0000000031010")
NAME = bytes.fromhex("5F20034A4F45")
OK = b"\x90\x00"


class Bytes(bytes):
    """Bytes of a derived class, whose length is another."""

    def __len__(self):
        return 1


def answering(answers):
    """A transport with these answers, and the list of what was sent."""
    sent, left = [], iter(answers)

    def transport(data):
        sent.append(data)
        return next(left)

    return transport, sent


@pytest.mark.parametrize("kind", [bytes, bytearray, memoryview, Bytes])
def test_each_kind_of_bytes_is_an_answer(kind):
    transport, sent = answering([kind(b"\x6C\x06"), kind(NAME + OK)])
    answer = Terminal().run(transport, Get(0x5F20))
    assert (answer.status, answer.data) == (0x9000, NAME)
    assert [it.hex() for it in sent] == ["00ca5f2000", "00ca5f2006"]
    assert {type(it) for it in sent} == {bytes}


@pytest.mark.parametrize("kind", [bytes, bytearray, memoryview, Bytes])
def test_each_kind_of_bytes_is_a_value(kind):
    transport, sent = answering([OK, OK])
    with Terminal() as terminal:
        assert terminal.run(transport, Put(0x5F20, kind(b"A" * 256))).status.is_ok
        terminal.begin(Put(0x5F20, kind(b"AN")))
        assert terminal.tpdu().data.hex() == "00da5f2002414e"
    assert [it.hex() for it in sent] == ["10da5f20ff" + "41" * 255, "00da5f200141"]


@pytest.mark.parametrize("wrong", ["9000", None, 0x9000, [0x90, 0x00], memoryview(b"9.0.")[::2]])
@pytest.mark.parametrize("level", list(Level))
def test_another_answer_is_a_type_error_and_resets(wrong, level):
    terminal = Terminal()
    with pytest.raises(TypeError):
        terminal.run(Carrier(level, lambda data: wrong), Select(AID))
    assert terminal.run(lambda tpdu: OK, Select(AID)).status.is_ok


class Carrier:
    """A transport of a level."""

    def __init__(self, level, carry):
        self.level, self.carry = level, carry

    def __call__(self, data):
        return self.carry(data)


@pytest.mark.parametrize("level, sent", [(Level.TPDU, ["00c0000000", "00c0000003"]),
                                         (Level.APDU, ["00c0000000", "00c0000003"])])
def test_a_response_is_fetched_at_each_level(level, sent):
    transport, seen = answering([b"\x01\x61\x00", b"\x02\x61\x03", b"\x03\x04\x05" + OK])
    answer = Terminal().run(Carrier(level, transport), Send(bytes.fromhex("8010000000")))
    assert (answer.status, answer.data) == (0x9000, bytes(range(1, 6)))
    assert [it.hex() for it in seen] == ["8010000000", *sent]


@pytest.mark.parametrize("answers, kind, name", [
    ([b"\x90"], TransportError, "GT_NO_STATUS"), ([b""], TransportError, "GT_NO_STATUS"),
    ([b"\x6C\x06", b"\x30\x31"], TransportError, "GT_NO_STATUS"),
    ([b"\x61\x01", b"\x61\x01"], LineError, "GT_STALLED")])
@pytest.mark.parametrize("level", list(Level))
def test_a_fault_of_the_card_resets_the_terminal(answers, kind, name, level):
    terminal, (transport, sent) = Terminal(), answering(answers)
    with pytest.raises(kind) as found:
        terminal.run(Carrier(level, transport), Get(0x5F20))
    assert found.value.code == getattr(lib, name) and len(sent) == len(answers)
    assert terminal.tpdu() is None and terminal.answer() is None
    assert terminal.run(lambda tpdu: OK, Select(AID)).status.is_ok


class DerivedGet(Get):
    """No operation: only the four classes are."""


@pytest.mark.parametrize("wrong", [Get, 5, None, DerivedGet(0x50)])
def test_what_is_no_operation_is_a_type_error(wrong):
    terminal, (transport, sent) = Terminal(), answering([OK])
    for call in (terminal.begin, lambda it: terminal.run(transport, it)):
        with pytest.raises(TypeError, match=r"^\w+ is not an operation$"):
            call(wrong)
    assert not sent


def test_an_operation_in_progress_stays():
    terminal, (transport, sent) = Terminal(), answering([])
    terminal.begin(Get(0x5F20))
    with pytest.raises(CallError, match="state") as found:
        terminal.run(transport, Select(AID))
    assert found.value.code == lib.GT_STATE and not sent
    assert terminal.tpdu().data.hex() == "00ca5f2000"


def test_a_transport_may_look_at_its_terminal():
    terminal, seen = Terminal(), []

    def transport(data):
        seen.append((terminal.tpdu().data == data, terminal.data_sent(), terminal.answer()))
        with pytest.raises(CallError) as found:
            terminal.run(transport, Get(0x50))
        assert found.value.code == lib.GT_STATE
        return OK

    assert terminal.run(transport, Put(0x50, b"A")).status.is_ok
    assert seen == [(True, False, None)]


@pytest.mark.parametrize("end, code", [("close", "GT_EMPTY"), ("reset", "GT_STATE")])
def test_a_transport_may_end_its_terminal(end, code):
    terminal = Terminal()

    def transport(data):
        getattr(terminal, end)()
        return OK

    with pytest.raises((CallError, TransportError)) as found:
        terminal.run(transport, Get(0x50))
    wanted = {getattr(lib, code), lib.GT_NOT_DUE} if end == "reset" else {getattr(lib, code)}
    assert found.value.code in wanted


def test_another_thread_may_use_the_terminal_while_the_transport_works():
    terminal, inside, leave = Terminal(), threading.Event(), threading.Event()
    answers = []

    def transport(data):
        inside.set()
        assert leave.wait(20)
        return OK

    worker = threading.Thread(
        target=lambda: answers.append(terminal.run(transport, Select(AID)).status))
    worker.start()
    assert inside.wait(20)
    assert terminal.tpdu().data.hex() == "00a4040007" + AID.hex()
    with pytest.raises(CallError):
        terminal.run(lambda data: OK, Select(AID))
    leave.set()
    worker.join(20)
    assert answers == [0x9000]


def test_a_call_of_another_thread_is_an_error_at_each_step():
    """A call is in progress after the first, or after the second exchange of a get."""
    for number in (1, 2):
        terminal, (transport, sent) = Terminal(), answering([b"\x6C\x06", NAME + OK])

        def busy(data):
            answer = transport(data)
            if len(sent) == number:
                terminal._calls.append("a call")
            return answer

        with pytest.raises(RuntimeError, match="^another call of this handle is in progress$"):
            terminal.run(busy, Get(0x5F20))
        assert len(sent) == number
        terminal._calls.clear()
        assert terminal.tpdu().data == sent[-1]  # the answer was not taken


@pytest.mark.parametrize("operation", [Get(0x015F20), Put(0x015F20, b"A"), Select(AID[:4])])
def test_what_no_command_can_name_is_an_error_before_anything_is_sent(operation):
    terminal, (transport, sent) = Terminal(), answering([OK])
    for call in (terminal.begin, lambda it: terminal.run(transport, it)):
        with pytest.raises(CallError) as found:
            call(operation)
        assert found.value.code == lib.GT_ARGUMENT
    assert not sent and terminal.tpdu() is None


def test_a_call_in_progress_is_an_error_before_anything_is_sent():
    terminal, (transport, sent) = Terminal(), answering([OK])
    terminal._calls.append("a call")
    for call in (lambda: terminal.begin(Select(AID)), lambda: terminal.run(transport, Select(AID))):
        with pytest.raises(RuntimeError, match="^another call of this handle is in progress$"):
            call()
    assert not sent
    terminal._calls.clear()
    assert terminal.run(transport, Select(AID)).status.is_ok


class Stop(Exception):
    """What a signal's handler raises."""


def stop(_terminal):
    raise Stop


def be_busy(terminal):
    """As if the handler had let another thread into the library."""
    terminal._calls.append("a call")


def interrupted(terminal, error):
    """What a loop has seen when a signal ends it. `dict.__getitem__` runs no line of Python, so
    only the loop looks at signals. The card gives one byte after another, 16,384 times."""
    command, fetch, seen = bytes.fromhex("8010000000"), bytes.fromhex("00C0000001"), []
    answers = {command: b"\x61\x01", fetch: b"\x00\x61\x01"}
    with pytest.raises(error):
        signal.setitimer(signal.ITIMER_REAL, 0.0005)
        run(terminal._address, terminal._calls, plain, (SEND, 0, command), answers.__getitem__,
            seen, True)
        raise error
    signal.setitimer(signal.ITIMER_REAL, 0)
    terminal._calls.clear()
    terminal.reset()
    return seen


@pytest.mark.parametrize("handler, error", [(stop, Stop), (be_busy, RuntimeError)])
def test_a_signal_ends_a_loop_over_a_transport_in_c(handler, error):
    terminal = Terminal()
    before = signal.signal(signal.SIGALRM, lambda *_: handler(terminal))
    try:
        # on a busy machine the signal may come before the loop
        assert any(0 < len(interrupted(terminal, error)) < 16_000 for _ in range(100))
    finally:
        signal.signal(signal.SIGALRM, before)
    assert terminal.run(lambda tpdu: OK, Select(AID)).status.is_ok


def test_what_was_seen_is_sw1_of_whole_commands():
    terminal = Terminal()
    for whole, wanted in ((True, [0, 0x61, 0x90]), (False, [0])):
        seen, (transport, _) = [], answering([b"\x01\x61\x01", b"\x02\x90\x00"])
        words = SEND, 0, bytes.fromhex("8010000000")
        found = run(terminal._address, terminal._calls, plain, words, transport, seen, whole)
        assert found == (0x9000, b"\x01\x02") and seen == wanted


def test_what_was_sent_is_not_kept():
    terminal, kept = Terminal(), []

    def transport(data):
        kept.append(data)
        return answers[len(kept) % 2]

    answers = [bytes(NAME) + OK, b"\x6C\x06"]
    for _ in range(4):
        terminal.run(transport, Get(0x5F20))
    gc.collect()
    # the list, the name of the loop, and the call of getrefcount
    assert [sys.getrefcount(it) for it in kept] == [3] * len(kept)


def test_a_loop_leaks_nothing():
    with Card({AID: {0x5F20: b"JOE", 0x50: bytes(600)}}) as card, Terminal() as terminal:
        put = Put(0x5F20, bytearray(b"ANN"))
        operations = [Select(AID), Get(0x5F20), put, Get(0x50), Get(0x51)]

        def all_once():
            for operation in operations:
                terminal.run(card.tpdu, operation)
            with pytest.raises(TypeError):
                terminal.run(lambda data: None, Get(0x50))
            gc.collect()
            return sys.getallocatedblocks()

        first = [all_once() for _ in range(5)][-1]
        assert max(all_once() for _ in range(50)) - first < 20
