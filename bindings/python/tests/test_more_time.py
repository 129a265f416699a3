"""Tests that a simulated card keeps its terminal waiting at a line while its application works, by
ISO/IEC 7816-3, 10.3.3 and 11.6.2.3."""

import os
import re
import signal
import threading
import time
from pathlib import Path
from queue import SimpleQueue

import pytest
from galliumtoad import Application, OwnCard
from galliumtoad.edits import block
from galliumtoad.simulate import Simulator
from galliumtoad.simulate.serve import serve_pty
from test_applications import EXAMPLES, Card
from waiting import AtPty, wait_until

# It reads with INS B0, stores with D6, and works there until a file `go` is there.
WORKS = """
import ctypes, os, signal, time
from pathlib import Path
from galliumtoad import Application

class Works(Application):
    def takes_data(self, header):
        return header[1] == 0xD6

    def carry_out(self, command):
        Path("begun").touch()
        while not os.path.exists("go"):
            WORK
        Path("ended").touch()
        return 0x9000, b"JOE" if command.le else b""
"""
SLEEPS = "time.sleep(0.01)"
# No other thread of Python runs meanwhile.
HOLDS = "ctypes.PyDLL(None).usleep(5_000_000); Path('go').touch()"
READ = bytes.fromhex("80B0000003")
UPDATE = bytes.fromhex("80D600000141")
# A waiting time of 0.1 seconds: WI is 1, and BWI is 0. At T=1 WI is 255, which has no effect there.
T0 = "3B804001"
T1 = "3B80C1FF210D92"
MORE, MADE = 0xC3, 0xE3  # S(WTX request) and S(WTX response)


@pytest.fixture
def works(tmp_path, request):
    """A card whose application works, and this end of its line."""
    def start(*words, work=SLEEPS):
        (tmp_path / "works.py").write_text(WORKS.replace("WORK", work))
        card = AtPty("--application", "works:Works", *words, cwd=tmp_path)
        card.folder = tmp_path
        request.addfinalizer(card.end)
        return card

    return start


def keepers(card):
    """The processes that the program has started."""
    number = card.program.pid
    return Path(f"/proc/{number}/task/{number}/children").read_text().split()


def is_there(number):
    return Path(f"/proc/{number}/exe").exists()


def test_a_keeper_is_there_before_the_terminal(works):
    """A later one could hold files of a terminal that the program has started meanwhile."""
    card = works("--atr", T0)
    [keeper] = keepers(card)
    card.open(T0)
    assert card.talk(READ, 1) == b"\x60" and keepers(card) == [keeper]


@pytest.mark.parametrize("work", [SLEEPS, HOLDS])
def test_at_t0(works, work):
    """The echo of the last character goes out before the application works, and NULLs while it
    does: one for each half of the waiting time, before the data and after them."""
    card = works("--atr", T0, work=work).open(T0)
    assert card.talk(UPDATE[:5], 1) == b"\xd6"
    assert card.talk(UPDATE[5:], 1) == b"\x60" and not (card.folder / "ended").exists()
    assert card.read(1) == b"\x60"
    (card.folder / "go").touch()
    assert re.fullmatch(b"\x60*\x90\x00", card.read(100, 3))
    assert re.fullmatch(b"\x60*\xb0JOE\x90\x00", card.talk(READ, 0) + card.read(100, 1))


def test_a_null_comes_in_time(works):
    """After half of WWT."""
    card = works("--atr", T0).open(T0)
    begun = time.monotonic()
    assert card.talk(READ, 20) == b"\x60" * 20
    assert 0.9 < time.monotonic() - begun < 3.5  # a busy machine is late
    (card.folder / "go").touch()


def test_a_reserved_waiting_time_is_that_of_the_default(works):
    """WI 0, as 10: a NULL each half second."""
    card = works("--atr", "3B804000").open("3B804000")
    card.talk(READ, 0)
    time.sleep(1.2)
    assert 1 <= len(card.read(100, 0)) <= 3


@pytest.mark.parametrize("words", [["--no-echo"], []])
@pytest.mark.parametrize("work", [SLEEPS, HOLDS])
def test_at_t1(works, work, words):
    """Each request has its response before the next one, and before the answer."""
    card = works("--atr", T1, *words, work=work).open(T1)
    [multiple] = (asked := card.talk(block(0, 0, UPDATE), 5))[3:4]
    assert asked == block(0, MORE, bytes([multiple])) and not (card.folder / "ended").exists()
    begun = time.monotonic()
    for _ in range(2):
        assert card.talk(block(0, MADE, asked[3:4]), 0) == b""
        assert card.read(5) == asked
    # Half of what it asked for, twice. A busy machine is late.
    assert 0.4 < (time.monotonic() - begun) / (0.1 * multiple) < 6
    (card.folder / "go").touch()
    wait_until((card.folder / "ended").exists)
    assert card.read(1, 0.5) == b""  # the answer waits for the response
    assert card.talk(block(0, MADE, asked[3:4]), 6) == block(0, 0, b"\x90\x00")
    assert card.talk(block(0, 0x40, READ), 9) == block(0, 0x40, b"JOE\x90\x00")


def test_an_echo_waits_for_no_other_request(works):
    """With a BWT of 1.6 seconds the next one comes later."""
    card = works("--atr", "3B800181").open("3B800181")
    asked = card.talk(block(0, 0, UPDATE), 5)
    made = block(0, MADE, asked[3:4])
    assert card.talk(made[:4], 0) == b""
    os.write(card.line, made[4:])
    assert card.read(1, 2) == made[4:]
    (card.folder / "go").touch()
    assert card.read(6) == block(0, 0, b"\x90\x00")


@pytest.mark.parametrize("came", [block(0, 0x82, b""), block(0, MADE, b"\xff"),
                                  block(0, MADE, b"\x01")[:-1] + b"\0", block(0, 0, READ)[:3]])
def test_a_request_for_time_is_sent_again(works, came):
    """After all that is not its response, also a block that stops."""
    card = works("--atr", T1).open(T1)
    asked = card.talk(block(0, 0, UPDATE), 5)
    assert card.talk(came, 5) == asked
    (card.folder / "go").touch()
    assert card.talk(block(0, MADE, asked[3:4]), 6) == block(0, 0, b"\x90\x00")


@pytest.mark.parametrize("pcb", [0xC0, 0xC2])
def test_a_terminal_that_drops_its_command(works, pcb):
    """S(RESYNCH request) and S(ABORT request) get their response when the application has ended, in
    place of the command. The numbers of the blocks are as before it."""
    card = works("--atr", T1).open(T1)
    assert card.talk(block(0, 0, UPDATE), 2) == bytes([0, MORE])
    card.read(3)
    assert card.talk(block(0, pcb, b""), 0) + card.read(1, 0.5) == b""
    (card.folder / "go").touch()
    assert card.read(4) == block(0, pcb | 0x20, b"")
    assert card.talk(block(0, 0, READ), 9) == block(0, 0, b"JOE\x90\x00")


@pytest.mark.parametrize("atr", [T0, T1])
def test_a_terminal_that_leaves(works, atr):
    """The next one that opens the line gets the answer to reset first."""
    card = works("--atr", atr).open(atr)
    card.talk(block(0, 0, UPDATE) if atr == T1 else READ, 1)
    os.close(card.line)
    time.sleep(0.3)
    card.line = os.open(card.name, os.O_RDWR | os.O_NOCTTY)
    assert card.read(1, 0.5) == b""
    (card.folder / "go").touch()
    assert card.read(len(atr) // 2).hex().upper() == atr
    sent = block(0, 0, READ) if atr == T1 else READ
    wanted = block(0, 0, b"JOE\x90\x00") if atr == T1 else b"\xb0JOE\x90\x00"
    assert card.talk(sent, len(wanted)) == wanted


@pytest.mark.parametrize("how", [signal.SIGINT, signal.SIGTERM, signal.SIGKILL])
@pytest.mark.parametrize("atr", [T0, T1])
def test_an_interrupt_while_it_works(works, how, atr):
    """It ends the program and what asks for time."""
    card = works("--atr", atr).open(atr)
    card.talk(block(0, 0, UPDATE) if atr == T1 else READ, 1)
    [keeper] = keepers(card)
    card.program.send_signal(how)
    assert card.program.wait(20) == (0 if how == signal.SIGINT else -how)
    wait_until(lambda: not is_there(keeper))
    assert card.end() == ("", "")


@pytest.mark.parametrize(("error", "status", "line"), [
    ("1 / 0", 1, "ZeroDivisionError: division by zero"), ("raise SystemExit(7)", 7, ""),
    ("open('/none')", 2, "works:Works.carry_out: [Errno 2] No such file or directory: '/none'")])
def test_an_error_after_some_time(works, error, status, line):
    card = works("--atr", T0, work=f"time.sleep(0.3); {error}").open(T0)
    assert card.talk(READ, 1) == b"\x60"
    [keeper] = keepers(card)
    assert card.program.wait(20) == status
    wait_until(lambda: not is_there(keeper))
    assert card.end()[1].splitlines()[-1:] == ([line] if line else [])


def test_a_keeper_takes_no_interrupt_and_stays(works):
    """The application may take it. A reset begins no other process."""
    card = works("--atr", T0).open(T0)
    card.talk(READ, 1)
    [keeper] = keepers(card)
    os.kill(int(keeper), signal.SIGINT)
    (card.folder / "go").touch()
    assert card.read(100, 1)[-6:] == b"\xb0JOE\x90\x00"
    card.close()
    card.open(T0)
    assert card.talk(READ, 6) == b"\xb0JOE\x90\x00" and keepers(card) == [keeper]


class Own(Application):
    """It works until a file is there, and fails if that is not empty."""

    def __init__(self, go):
        self.go = go

    def takes_data(self, header):
        return False

    def carry_out(self, command):
        wait_until(self.go.exists)
        if self.go.read_text():
            raise OSError(self.go.read_text())
        return 0x9000, b""


class Served:
    """A card at a pseudo terminal in a thread of this process, and this end of it."""

    def __init__(self, of):
        names = SimpleQueue()
        self.of = of
        self.has_echo = False
        self.thread = threading.Thread(target=serve_pty, args=(of, False, names.put), daemon=True)
        self.thread.start()
        self.name = names.get(timeout=60)

    open = AtPty.open
    read = AtPty.read
    talk = AtPty.talk

    def has_ended(self):
        self.of.is_over.set()
        self.thread.join(20)
        return not self.thread.is_alive()


def test_a_simulation_that_ends_while_a_terminal_is_silent(tmp_path):
    """The request for time has no response. The process ends with the card."""
    with Simulator(OwnCard(Own(tmp_path / "go")), bytes.fromhex(T1)) as of:
        card = Served(of).open(T1)
        assert card.talk(block(0, 0, READ), 5)[1] == MORE
        [keeper] = Path(f"/proc/self/task/{card.thread.native_id}/children").read_text().split()
        (tmp_path / "go").touch()
        assert card.read(1, 0.5) == b"" and is_there(keeper)
        assert card.has_ended()
    assert not is_there(keeper)


def test_an_application_whose_error_is_that_of_a_line(tmp_path):
    """It resets the card, and a new process asks for time."""
    with Simulator(OwnCard(Own(tmp_path / "go")), bytes.fromhex(T0)) as of:
        card = Served(of).open(T0)
        assert card.talk(READ, 1) == b"\x60"
        (tmp_path / "go").write_text("no line")
        assert card.read(100, 1).lstrip(b"\x60").hex().upper() == T0
        (tmp_path / "go").unlink()
        assert card.talk(READ, 2) == b"\x60\x60"
        (tmp_path / "go").touch()
        assert card.read(100, 1)[-2:] == b"\x90\x00"
        assert card.has_ended()


def test_a_keeper_that_is_gone_ends_the_simulation(works):
    card = works("--atr", T0).open(T0)
    card.talk(READ, 1)
    os.kill(int(keepers(card)[0]), signal.SIGKILL)
    (card.folder / "go").touch()
    assert card.program.wait(20) == 2
    assert card.end()[1].startswith("the process that asks for more time has ended")


def test_a_card_of_data_objects_needs_no_time(tmp_path):
    (tmp_path / "table").write_text("app A0000000031010")
    card = AtPty("--table", tmp_path / "table").open()
    assert card.talk(bytes.fromhex("00A4040007"), 1) == b"\xa4"
    assert keepers(card) == []
    card.end()


@pytest.mark.parametrize("atr", ["3B00", "3B800181"])
def test_an_application_that_asks_by_itself(atr):
    card = Card("--application", "slow:Slow", "--atr", atr, cwd=EXAMPLES)
    assert card.answer("8010000700") == "079000"
    card.end()


def test_the_dialogue_is_a_trace(works):
    """Its NULLs and blocks are in their places."""
    for atr, sent in ((T0, READ), (T1, block(0, 0, READ))):
        card = works("-v", "--atr", atr).open(atr)
        asked = card.talk(sent, 5 if atr == T1 else 1)
        (card.folder / "go").touch()
        if atr == T1:
            card.talk(block(0, MADE, asked[3:4]), 9)
        else:
            card.read(100, 1)
        lines = card.end()[0].splitlines()
        (card.folder / "go").unlink()
        if atr == T0:
            assert re.fullmatch("< (60)+B04A4F459000", lines[3])
        else:
            assert [it[:6] for it in lines[2:]] == ["> 0000", "< 00C3", "> 00E3", "< 0000"]


