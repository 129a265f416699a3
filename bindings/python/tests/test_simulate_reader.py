"""Tests simulated cards and trials over a private pcscd with vsmartcard's vpcd."""

import os
import platform
import re
import socket
import subprocess
import sys
from pathlib import Path

import pytest
from room import SCRIPT, folder_of_programs
from test_applications import CARDS, dialogue
from test_reader import PRIVATE, missing, namespace
from test_simulate_replay import CAPTURES, SIM
from waiting import SECONDS, wait_until

TESTS = Path(__file__).resolve().parent
EXAMPLES = TESTS.parent / "examples"
C = TESTS.parents[1] / "c"
EXPLAINS = TESTS.parents[1] / "bin" / f"{platform.machine()}-linux-gnu" / "trace_explain"
VPCD = "/usr/lib/pcsc/drivers/serial/libifdvpcd.so"
READER = "Virtual PCD 00 00"
AID = "A0000000031010"
# Waits for a card of another number than the one before, and sends it commands until one has no
# answer. Prints the answers; the last line is the card's number and the seconds that they took.
ASKS = """
import sys, time
from smartcard import scard
from smartcard.Exceptions import SmartcardException
from smartcard.pcsc.PCSCCardConnection import PCSCCardConnection
reader, before, seconds, *commands = sys.argv[1:]
until, card, is_open = time.monotonic() + float(seconds), PCSCCardConnection(reader), False
_, context = scard.SCardEstablishContext(scard.SCARD_SCOPE_USER)
while not is_open:
    _, found = scard.SCardGetStatusChange(context, 0, [(reader, scard.SCARD_STATE_UNAWARE)])
    state = found[0][1] if found else 0
    is_late = time.monotonic() > until
    try:
        if is_late or (state & scard.SCARD_STATE_PRESENT and str(state >> 16) != before):
            card.connect()
            is_open = True
    except SmartcardException:
        if is_late:
            raise
    time.sleep(0.02)
begun = time.monotonic()
try:
    for command in commands:
        data, sw1, sw2 = card.transmit(list(bytes.fromhex(command)))
        print(bytes([*data, sw1, sw2]).hex())
except SmartcardException:
    pass
print(state >> 16, time.monotonic() - begun)
"""


def lacks():
    """What is missing on this machine, or None."""
    return missing() or (None if os.path.exists(VPCD) else "there is no vpcd")


pytestmark = pytest.mark.skipif(lacks() is not None, reason=str(lacks()))

# Prints whether the reader is there, without a card.
IS_EMPTY = """
import sys
from smartcard import scard
_, context = scard.SCardEstablishContext(scard.SCARD_SCOPE_USER)
_, found = scard.SCardGetStatusChange(context, 0, [(sys.argv[1], scard.SCARD_STATE_UNAWARE)])
print(bool(found and found[0][1] & scard.SCARD_STATE_EMPTY))
"""


class Desk:
    """A pcscd with vpcd's reader, and programs around it."""

    def __init__(self, path):
        with socket.create_server(("localhost", 0)) as it:
            self.port = it.getsockname()[1]
        self.path = path
        self.address = f"localhost:{self.port}"
        (path / "run").mkdir()
        (path / "conf").write_text(
            f'FRIENDLYNAME "Virtual PCD"\nDEVICENAME /dev/null:{self.port}\nLIBPATH {VPCD}\n'
            f"CHANNELID {self.port}\n"
        )
        self.environment = dict(
            os.environ, PCSCLITE_CSOCK_NAME=str(path / "run" / "pcscd.comm"),
            PATH=f"{folder_of_programs()}:{os.environ['PATH']}",
        )
        words = [*namespace(), *PRIVATE, path / "run", "pcscd", "--foreground", "--config"]
        self.made = [subprocess.Popen([*words, path / "conf"], stdout=subprocess.DEVNULL,
                                      stderr=subprocess.DEVNULL, env=self.environment)]
        self.number = ""
        wait_until(self.listens)

    def listens(self):
        """Whether vpcd listens for cards. A connection would not tell: it may be with itself."""
        sockets = "".join(it.read_text() for it in Path("/proc/net").glob("tcp*"))
        return re.search(f":{self.port:04X} [0-9A-F]+:0000 0A ", sockets) is not None

    def card(self, *words):
        """Puts a card into the reader. Returns the program."""
        program = [sys.executable, "-m", "galliumtoad.simulate", "--vpcd", self.address, "-v"]
        with open(self.path / "trace", "w") as trace:
            made = subprocess.Popen([*program, *words], stdout=trace, stderr=trace,
                                    env=self.environment, cwd=EXAMPLES)
        self.made.append(made)
        return made

    def ask(self, *commands, is_new=True):
        """What pyscard receives until a command has no answer, and the seconds that it took. It
        waits for the card, and for one after that of the last call if `is_new`."""
        words = [sys.executable, "-c", ASKS, READER, self.number if is_new else "", str(SECONDS)]
        done = subprocess.run([*words, *commands], text=True, capture_output=True,
                              env=self.environment, timeout=3 * SECONDS)
        assert done.returncode == 0, done.stderr
        *answers, last = done.stdout.splitlines()
        self.number, seconds = last.split()
        return answers, float(seconds)

    def is_empty(self):
        """Whether pcscd has seen that the card is gone: it may miss one that comes back at once."""
        said = subprocess.run([sys.executable, "-c", IS_EMPTY, READER], text=True,
                              capture_output=True, env=self.environment, timeout=SECONDS)
        return said.stdout == "True\n"

    def end(self):
        for it in reversed(self.made):
            it.terminate()
            it.wait()


@pytest.fixture
def desk(tmp_path):
    made = Desk(tmp_path)
    yield made
    made.end()


def test_a_mute_card_and_one_without_power(desk):
    """The reader reports a lost card, and the card comes again."""
    (desk.path / "table").write_text(f"app {AID}\nobject 5F20 4A4F45\n")
    (desk.path / "faults").write_text("command 3, power off\ncommand 4, mute\n")
    desk.card("--table", desk.path / "table", "--faults", desk.path / "faults")
    select = f"00A4040007{AID}"
    get = "00CA5F2000"
    assert desk.ask(select, get)[0] == ["610b", "5f20034a4f459000"]
    assert desk.ask(select, is_new=False)[0] == []  # no power
    answers, seconds = desk.ask(select)
    assert answers == [] and seconds > 9  # mute for ten seconds
    assert desk.ask(select, get)[0] == ["610b", "5f20034a4f459000"]


# At which command of a row a card loses its power, whether it carries that out, and what it holds
# then. 1 selects, 2 gets the identifier, 3, 5, 7 and 8 put. The others read back. A reader is set
# aside after five such cards, so some keep their power.
ONE = "partly: 1 of 3 objects"
TWO = "partly: 2 of 3 objects"
WHOLE = (0, True, "")
PULLED = [(1, True, ""), (2, True, ""), (3, False, "untouched"), (3, True, ONE), (4, True, ONE),
          (5, False, ONE), WHOLE, (5, True, TWO), (6, True, TWO), (7, True, TWO), (8, False, TWO),
          WHOLE, (8, True, "done"), (9, True, "done"), WHOLE]


@pytest.mark.parametrize("name", CARDS)
def test_an_example_in_a_reader(desk, name):
    """It gives the answers of the other ways."""
    desk.card("--application", name)
    commands, answers = dialogue(name)
    assert desk.ask(*commands)[0] == [it.lower() for it in answers]


def test_a_payment_card_is_read_and_explained(desk):
    """By gt_pcsc; the trace of the card names what went over."""
    subprocess.run(["make", "-s", f"BUILD={desk.path}", desk.path / "gt_pcsc"], cwd=C, check=True)
    desk.card("--application", "payment:Payment")
    desk.ask()
    sent = ["80A8000008830611223344097800", "00B2010C00", "80CA9F1700"]
    words = ["select", "325041592E5359532E4444463031", "select", "A0000000041010"]
    words += [it for command in sent for it in ("send", command)]
    done = subprocess.run([desk.path / "gt_pcsc", "-r", READER, *words], text=True, timeout=SECONDS,
                          capture_output=True, env=desk.environment)
    assert done.stdout.splitlines()[-3:] == [
        "= 9000 770A82021800940408010200",
        "= 9000 701D570C1234567890123452D30122015F200C544F41442F47414C4C49554D", "= 9000 9F170103"]
    explained = subprocess.run([EXPLAINS, "--tpdu"], input=(desk.path / "trace").read_text(),
                               text=True, capture_output=True, timeout=SECONDS).stdout
    for text in ("GET PROCESSING OPTIONS, class 80", "READ RECORD 1 of file 1", '"TEST"',
                 '"TOAD/GALLIUM"', "6A82 file or application not found"):
        assert (text in explained) == (text[0] != "6"), explained


def test_a_capture_in_a_reader(desk):
    """The SIM of a phone is a card at PC/SC, and a strict one ends at a departure."""
    card = desk.card("--replay", CAPTURES / "sim_tracer.trace", "--strict")
    words = [it.split() for it in SIM]
    assert desk.ask(*(it for it, _ in words))[0] == [it.lower() for _, it in words]
    assert desk.ask("A0B000000A", is_new=False)[0] == []
    assert card.wait(SECONDS) == 2
    said = (desk.path / "trace").read_text().splitlines()[-1]
    assert said.endswith("sim_tracer.trace: line 4 has A0A400003F00, not A0B00000")


def test_a_batch_whose_cards_are_pulled(desk):
    """Each card has one row: it comes again, and is refused if it has begun to change."""
    path = desk.path
    table = desk.path / "table"
    faults = desk.path / "faults"
    names = [f"PERSON {at},{at:08X}" for at in range(len(PULLED))]
    (path / "rows.csv").write_text("\n".join(["name,code", *names, ""]))
    (path / "script").write_text(SCRIPT)
    batch = [sys.executable, "-m", "galliumtoad.batch", "script", "--rows=rows.csv",
             "--journal=journal", "--reader=00 00"]
    with open(path / "out", "w") as out:
        run = subprocess.Popen([*batch, "--new", "--id=9F7F"], stdout=out, stderr=out, cwd=path,
                               env=desk.environment)
    desk.made.append(run)

    def await_(line):
        wait_until(lambda: run.poll() is not None or line in (path / "out").read_text())
        assert line in (path / "out").read_text()

    def look(row):
        done = subprocess.run([*batch, f"--look={row}"], cwd=path, env=desk.environment, text=True,
                              capture_output=True, timeout=SECONDS)
        return done.stdout

    await_("insert a card for row 1\n")  # a card that lies in the reader would have to be removed
    for row, (at, is_carried_out, word) in enumerate(PULLED, 1):
        table.write_text(f"app {AID}\nobject 9F7F {row:02X}\natr 3B800181\n")
        lines = []
        if at > 0:
            lines.append(f"command {at}, power off\n")
        if not is_carried_out:
            lines.append(f"command {at}, forget\n")
        faults.write_text("".join(lines))
        card = desk.card("--table", table, "--faults", faults)
        await_(f" card {row:02X} has row {row}, which is unsure" if word else
               f" row {row} done, card {row:02X}, ")
        if word:
            wait_until(lambda: look(row) == f"row {row}, card {row:02X}: {word}\n")
        card.terminate()
        card.wait()
        wait_until(desk.is_empty)
    assert run.wait(SECONDS) == 1
    assert (path / "out").read_text().endswith("5 of 15 rows done, 10 to decide\n")


def test_trials_over_a_reader(desk):
    words = [sys.executable, "-m", "galliumtoad.trials", "--vpcd", desk.address]
    words += ["--only", "at the end"]
    job = [sys.executable, EXAMPLES / "trials" / "by_pyscard.py"]
    done = subprocess.run([*words, "--", *job, "{reader}", "{aid}", "{tag}", "{value}"], text=True,
                          capture_output=True, env=desk.environment, timeout=280)
    assert (done.returncode, done.stderr) == (0, "")
    assert done.stdout.endswith("2 right, 6 told\n")


# Sends commands until one fails, and prints what the last one brought.
SENDS = """
import sys
from smartcard.pcsc.PCSCCardConnection import PCSCCardConnection
card = PCSCCardConnection(sys.argv[1])
card.connect()
for command in sys.argv[2:]:
    data, *status = card.transmit(list(bytes.fromhex(command)))
    if status != [0x90, 0]:
        sys.exit(bytes(status).hex())
print(bytes(data[3:]).decode("latin-1"))
"""


def test_any_job_over_a_reader(desk):
    words = [sys.executable, "-m", "galliumtoad.trials", "--vpcd", desk.address]
    words += ["--card", "any_cards:Safe", "--only", "command 2 status 6"]
    job = ["00A4040005A000000003", "002000800431323334", "00B0000006"]
    done = subprocess.run([*words, "--", sys.executable, "-c", SENDS, "{reader}", *job], text=True,
                          capture_output=True, env=desk.environment, timeout=280, cwd=TESTS)
    assert (done.returncode, done.stderr) == (0, "")
    assert done.stdout.endswith("at command 2, VERIFY, 0 of 5 faults pass silently: 5 told\n"
                                "1 right, 5 told\n")
