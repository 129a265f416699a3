"""Tests the terminal's end at T=1: what its line is given, and that it gives up."""

import pytest
from galliumtoad import T1, Application, BlockError, Card, CallError, Get, Level, Outcome, OwnCard
from galliumtoad import Select, Send, Terminal
from galliumtoad.edits import block
from galliumtoad.simulate import Simulator
from line_in_memory import End, at_t1


def test_gives_up():
    """On a line that loses all. After a reset of the end it talks to a card."""
    end_of_card = End(Simulator(Card({bytes(5): {}}), b"\x3b\x80\x01\x81"), at_t1)
    lines = [lambda data, waits: b"", end_of_card.pass_block]
    with T1(lambda *words: lines[0](*words)) as end, Terminal() as terminal:
        with pytest.raises(BlockError) as error:
            terminal.run(end, Select(bytes(5)))
        assert error.value.outcome is Outcome.UNKNOWN
        with pytest.raises(CallError):
            terminal.run(end, Get(0x50))
        end.reset()
        del lines[0]
        assert terminal.run(end, Select(bytes(5))).status.is_ok


def test_another_check_or_size_is_refused():
    for words in ((2, 32), (1, 0), (1, 255)):
        with pytest.raises(CallError):
            T1(lambda data, waits: b"", *words)


def test_time_and_size():
    """Each block of the card comes in two parts."""
    seen, left = [], []

    def line(data, waits):
        if not data:
            assert waits == 1
            return left.pop()
        seen.append((data[1], data[2], waits))
        answers = {0xC1: (0xE1, data[3:-1]), 0x20: (0x90, b""), 0x40: (0xC3, b"\x03")}
        answer = block(0, *answers.get(data[1], (0x00, b"\x90\x00")))
        left.append(answer[2:])
        return answer[:2]

    with T1(line, ifsc=8) as end:
        assert end.level is Level.APDU
        assert end(bytes.fromhex("00DA005005") + b"VALUE") == b"\x90\x00"
    # S(IFS request), the command in two blocks, and the answer to the card's request for time
    assert seen == [(0xC1, 1, 1), (0x20, 8, 1), (0x40, 2, 1), (0xE3, 1, 3)]


class Counter(Application):
    """Counts the commands that it carries out, and answers each with 300 bytes."""

    count = 0

    def takes_data(self, header):
        return False

    def carry_out(self, command):
        self.count += 1
        return 0x9000, bytes(300)


COUNT = bytes.fromhex("8010000000")
NOT_DONE, UNKNOWN, IN_PART = Outcome
# S(IFS request), two blocks of the command, R for the rest of 256 bytes, two of GET RESPONSE
TOLD = [NOT_DONE, NOT_DONE, UNKNOWN, IN_PART, IN_PART, IN_PART]


def over(arrive):
    """A counter, and an end on whose line this many blocks arrive at it, and no more. Its IFSC is
    4, so that each command takes two blocks."""
    card, left = OwnCard(Counter()), [None] * arrive
    card.begin_t1()

    def line(data, waits):
        if not left:
            return b""
        left.pop()
        return card.block(data)

    return card.application, T1(line, ifsc=4)


def outcome(call, *words):
    with pytest.raises(BlockError) as error:
        call(*words)
    return error.value.outcome


@pytest.mark.parametrize("arrive, told", enumerate(TOLD))
def test_a_fault_speaks_of_the_operation(arrive, told):
    """GET RESPONSE may not be carried out, although the card has counted."""
    counter, end = over(arrive)
    assert outcome(Terminal().run, end, Send(COUNT)) is told
    assert counter.count == (arrive > 2)


def test_a_fault_speaks_of_no_earlier_operation():
    """The next operation, and a command alone, are another matter."""
    for is_alone in (False, True):
        counter, end = over(len(TOLD))
        terminal = Terminal()
        assert terminal.run(end, Send(COUNT)).status.is_ok
        call = [end, COUNT] if is_alone else [terminal.run, end, Send(COUNT)]
        assert outcome(*call) is NOT_DONE
        assert counter.count == 1


@pytest.mark.parametrize("later, told", [
    ([block(0, 0, b"\x6c\x03")], UNKNOWN),
    ([block(0, 0, b"\x61\x03"), block(0, 0x90, b""), block(0, 0x40, b"\x6c\x03")], IN_PART),
    ([block(0, 0, b"\x6c\x03"), block(0, 0x90, b""), block(0, 0x60, b"\x01")], IN_PART),
])
def test_a_command_that_goes_again_may_be_carried_out(later, told):
    """After 6CXX a card may have carried the command out, or not. After 61XX it has, and so it has
    once a part of its response is here."""
    answers = [block(0, 0xE1, b"\xfe"), block(0, 0x90, b""), *later]
    end = T1(lambda data, waits: answers.pop(0) if answers else b"", ifsc=4)
    assert outcome(Terminal().run, end, Send(COUNT)) is told
