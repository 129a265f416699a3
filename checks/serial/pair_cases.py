"""Tests gt_serial with serial_card, over two lines and a wire between them, and over the line that
the card creates."""

import contextlib
import glob
import os
import signal
import subprocess
import tempfile
import time

from card_cases import APP, GONE, Far, table
from lines import Line, Wire, trace_of
from programs import SECONDS, TOP, Program, in_time
from terminal_cases import GET_WORDS, SELECT_WORDS, look, rate_of

EXPLAIN = subprocess.check_output([TOP / "checks/built", "trace_explain"], text=True).strip()
SLACK = ["--slack", "8000"]
VALUE = bytes(range(256)) * 2 + b"\xff\xff\x00\x60\x03"
WORDS = ["select", "A0000000031010", "get", "5F20", "put", "DF01", VALUE.hex(), "get", "DF01",
         "get", "50"]
# The long object, with tag and length, has 517 bytes.
ANSWERS = (
    "= 9000 6F098407A0000000031010\n= 9000 5F20034A4F45\n= 9000\n"
    f"= 9000 DF01820205{VALUE.hex().upper()}\n= 6A88\n"
)

# A title, the answer to reset after TS, more options of the terminal, and the rate after that.
RATES = (
    ("no other rate", "00", [], 9600),
    ("a rate by PPS", "1095", ["--pps"], 111600),
    ("a rate in specific mode", "90951000", [], 111600),
)


def both(answer, echo, heaps, options):
    """Runs both programs over a wire, to the end of both. Returns the terminal, its status, and the
    rate of the card's tty."""
    ends = Line(), Line()
    wire = Wire(*ends, echo=echo, heaps=heaps)
    wire.start()
    no_echo = [] if echo else ["--no-echo"]
    rate = None
    try:
        with tempfile.TemporaryDirectory() as folder:
            path = table(folder, f"atr {answer}\n{APP}")
            card = Program("serial_card", [*SLACK, *no_echo, ends[1].name, path])
            terminal = Program(
                "gt_serial", [*SLACK, *no_echo, *options, ends[0].name, *WORDS]
            )
            while terminal.process.poll() is None:
                rate = rate_of(ends[1])
                time.sleep(0.02)
            status = terminal.end()
            is_put_back = ends[0].is_put_back()
    finally:
        wire.cut()
        for end in ends:
            end.close()
    look(card, card.end(), "", GONE, 1)
    assert is_put_back, "the terminal's tty is not set as it was before"
    return terminal, status, rate


def pairs():
    """Each convention, with and without echo, by single bytes and in heaps, at each kind of
    rate."""
    for inverse in (False, True):
        for echo in (True, False):
            for heaps in (True, False):
                for title, rest, options, rate in RATES:
                    yield (inverse, echo, heaps, title, rest, options, rate)


def run(inverse, echo, heaps, rest, options, rate):
    terminal, status, found = both(("3F" if inverse else "3B") + rest, echo, heaps, options)
    look(terminal, status, ANSWERS, "", 1)
    assert found == rate, f"the card's tty runs at {found} baud"


def own_line(inverse, echo):
    """Two terminals in turn at the line that a card creates. The traces of both ends are the
    same."""
    whole = f"< {'3F' if inverse else '3B'}00 " + SELECT_WORDS + GET_WORDS
    answers = "= 9000 6F098407A0000000031010\n", "= 9000 5F20034A4F45\n"
    trace = trace_of(whole)
    cut = trace.index("> 00CA5F2000")
    wanted = trace[:cut] + answers[0] + trace[cut:] + answers[1]
    no_echo = [] if echo else ["--no-echo"]
    with Far("-v", *no_echo, text=f"atr {whole[2:6]}\n{APP}", output=2 * trace) as far:
        for _ in range(2):
            terminal = Program("gt_serial", [*SLACK, *no_echo, "-v", far.name, *WORDS[:4]])
            look(terminal, terminal.end(), wanted, "", 0)
            time.sleep(0.3)


def is_explained():
    """trace_explain explains a terminal's trace with PPS, and finds no protocol error."""
    with Far(text=f"atr 3B1095\n{APP}") as far:
        terminal = Program("gt_serial", [*SLACK, "-v", "--pps", far.name, *WORDS[:4]])
        assert terminal.end() == 0 and not terminal.faults, terminal.faults
    found = subprocess.run(
        [EXPLAIN], input=terminal.output.encode(), capture_output=True, check=False
    )
    assert found.returncode == 0 and not found.stderr, found.stderr
    titles = [line.split("  ")[0] for line in found.stdout.decode().splitlines() if line[0] == "#"]
    assert titles == [
        "#1 SELECT A0000000031010",
        "#2 GET RESPONSE, fetches 11",
        "#3 GET DATA of 5F20",
        "#4 GET DATA of 5F20, asked again for 6 bytes",
    ], titles


def comes_back():
    """A terminal that is killed inside a long put, and started again, finds the old value."""
    with Far("--no-echo") as far:
        words = [*SLACK, "--no-echo", far.name, "select", "A0000000031010"]
        for number in (signal.SIGKILL, signal.SIGTERM):
            killed = Program("gt_serial", [*words, "put", "5F20", "41*8000"])
            selected = killed.first_line()  # then the put begins
            time.sleep(0.3)
            killed.kill(number)
            look(killed, killed.end(), "", "", -number)
            assert selected == "= 9000 6F098407A0000000031010", selected
            time.sleep(0.2)
            back = Program("gt_serial", [*words, "get", "5F20", "get", "50"])
            look(back, back.end(), "= 9000 6F098407A0000000031010\n= 9000 5F20034A4F45\n"
                 "= 9000 500456495341\n", "", 0)
            time.sleep(0.3)


def comes_back_soon():
    """A terminal that is killed while the card sends, and started again before that ends, gets an
    answer to reset, and no byte from before."""
    plans = ["--plan", "", "--plan", "", "--plan", "n" * 5000]
    with Far("--no-echo", *plans, text=f"{APP}object 50 {'41' * 8000}\n") as far:
        words = [*SLACK, "--no-echo", far.name, "select", "A0000000031010", "get"]
        for long in ("5F20", "50"):
            killed = Program("gt_serial", [*words, long])
            killed.first_line()  # then the card sends
            time.sleep(0.3)
            killed.kill(signal.SIGKILL)
            killed.end()
            time.sleep(0.2)
            back = Program("gt_serial", [*words, "5F20"])
            look(back, back.end(), "= 9000 6F098407A0000000031010\n= 9000 5F20034A4F45\n", "", 0)
            time.sleep(0.3)


def await_opened(process, name):
    """Waits until a process has opened a tty, and a moment more, in which it locks it."""
    until = time.monotonic() + SECONDS
    found = []
    while name not in found:
        assert time.monotonic() < until, f"{name} was not opened"
        time.sleep(0.01)
        with contextlib.suppress(OSError):  # a descriptor was closed meanwhile
            found = [os.readlink(it) for it in glob.glob(f"/proc/{process}/fd/*")]
    time.sleep(0.3)


def second_is_harmless():
    """A second terminal at a card's line prints which process has it, and does not reset the
    card."""
    with Far("--no-echo", "--plan", "n" * 3000) as far:
        words = [*SLACK, "--no-echo", far.name, "select", "A0000000031010"]
        first = Program("gt_serial", words)
        await_opened(first.process.pid, far.name)
        second = Program("gt_serial", words)
        look(second, second.end(), "", f"process {first.process.pid} has '{far.name}'\n", 1)
        look(first, first.end(), "= 9000 6F098407A0000000031010\n", "", 0)


def is_in_time(echo):
    """A card at T=1 with BWI 0 answers in time on the line that it creates. BWT and the slack are
    0.3 s together. On a tty a block of 258 characters takes 0.32 s, and here no time."""
    value = "41" * 600
    no_echo = [] if echo else ["--no-echo"]
    text = f"atr 3B808131FE03CD\n{APP}object DF01 {value}\n"
    with Far(*no_echo, text=text) as far:
        words = [*no_echo, far.name, "select", "A0000000031010", "get", "DF01"]
        terminal = Program("gt_serial", words)
        look(terminal, terminal.end(), f"{ANSWERS[:30]}= 9000 DF01820258{value}\n", "", 0)


def keeps_values():
    """A terminal finds what another one has stored before, over the line that a card creates."""
    select = ["select", "A0000000031010"]
    answer = "= 9000 6F098407A0000000031010\n"
    with Far() as far:
        for words, output in (
            (["put", "5F20", "FF60FF"], "= 9000\n"),
            (["get", "5F20"], "= 9000 5F2003FF60FF\n"),
        ):
            terminal = Program("gt_serial", [*SLACK, far.name, *select, *words])
            look(terminal, terminal.end(), answer + output, "", 0)
            time.sleep(0.3)


def tests():
    """Each test of this part: its title, and a function that raises an error if it fails."""
    for inverse, echo, heaps, title, *rest in pairs():
        yield (f"both ends, inverse {inverse}, echo {echo}, heaps {heaps}, {title}",
               lambda of=(inverse, echo, heaps, *rest): run(*of))
    for inverse in (False, True):
        for echo in (True, False):
            yield (f"the card's own line, inverse {inverse}, echo {echo}",
                   lambda of=(inverse, echo): own_line(*of))
    for echo in (True, False):
        yield (f"the card's own line at T=1 with BWI 0, echo {echo}",
               lambda echo=echo: in_time(lambda: is_in_time(echo)))
    for test in (is_explained, comes_back, comes_back_soon, second_is_harmless, keeps_values):
        yield (f"both: {test.__name__}", test)
