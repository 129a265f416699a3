"""What becomes of a reader: wrong settings, a tty that goes away and comes back, a pcscd, a card or
a program that ends in the middle, and several readers at once."""

import fcntl
import os
import re
import signal
import sys
import threading
import time
from concurrent.futures import ThreadPoolExecutor

from faults_cases import ATRS, RIGHT, SCRIPT, session
from programs_cases import Gpg, has
from world import (BRIEF, INSTALLED, PATIENT, SECONDS, SELECT, Card, Pcscd, Room, Wrong, await_that,
                   run, same)

# Two programs. The second one has a transaction, and then resets the card.
COMPETES = """
import sys, threading, time
from smartcard import scard
def connect(share):
    _, context = scard.SCardEstablishContext(scard.SCARD_SCOPE_USER)
    code, card, _ = scard.SCardConnect(context, sys.argv[1], share, scard.SCARD_PROTOCOL_T0)
    return code, card
def select(card):
    command = list(bytes.fromhex(sys.argv[2]))
    code, answer = scard.SCardTransmit(card, scard.SCARD_PCI_T0, command)
    return scard.SCardGetErrorMessage(code), bytes(answer).hex()
def tell(code):
    print(scard.SCardGetErrorMessage(code))
code, first = connect(scard.SCARD_SHARE_SHARED)
other, second = connect(scard.SCARD_SHARE_SHARED)
tell(code)
tell(other)
tell(connect(scard.SCARD_SHARE_EXCLUSIVE)[0])
scard.SCardBeginTransaction(second)
said = []
waits = threading.Thread(target=lambda: said.append(select(first)))
waits.start()
print(*select(second))
time.sleep(1)
print(said)
scard.SCardEndTransaction(second, scard.SCARD_RESET_CARD)
waits.join()
print(*said[0])
tell(scard.SCardReconnect(first, scard.SCARD_SHARE_SHARED, scard.SCARD_PROTOCOL_T0,
                          scard.SCARD_LEAVE_CARD)[0])
print(*select(first))
"""
COMPETED = ["Command successful."] * 2 + [
    "Sharing violation.", "Command successful. 610b", "[]", "Card was reset. ",
    "Command successful.", "Command successful. 610b"]
# a secret of eight digits, as a reader's log may show it
PIN = "3132333435363738"
NEVER_ENDS = ("while read it; do case $it in header*) echo from-card;; command*) exec sleep 1000;;"
              " esac; done")
FORMS = [PIN[:8], PIN[8:], "31 32 33 34", "31:32:33:34", "12345678"]
# The setting `patience`, in seconds: less than the simulation waits for a program. What a program
# may take to end, in seconds: less than a reader waits for its card.
BOUND, AT_ONCE = 4, 15


def wrong_settings():
    with Room() as room:
        card = Card(room, "tty")
        pcscd = Pcscd(room, [("Good", f"{card.tty}:echo=yes,{PATIENT}"),
                             ("Bad", f"{card.tty}:echo=yes,present=cts"),
                             ("Worse", f"{card.tty}:presence=rts")])
        same(pcscd.await_readers(1), ["Good 00 00"])
        pcscd.await_log(f"{card.tty}: unknown setting: 'present=cts'")
        pcscd.await_log(f"{card.tty}: wrong setting: 'presence=rts'; 'presence' takes cts, dsr, dcd"
                        " or always")
        same(session("Good 00 00", SCRIPT), (0, RIGHT))
        pcscd.end()


def one_reader(room, card, settings=PATIENT, options=()):
    pcscd = Pcscd(room, [("Life", f"{card.tty}:{settings}")], options=options)
    name, = pcscd.await_readers(1)
    await_that("the first reset", lambda: card.resets)
    return pcscd, name


def in_the_middle(room, card, name):
    """Starts a session whose second command lasts. Returns the program."""
    script, output = room.path / "script", room.path / "program"
    script.write_text("".join(f"{it}\n" for it in SCRIPT), encoding="utf-8")
    until = time.monotonic() + SECONDS
    while time.monotonic() < until:
        before = len(card.heard())
        program = room.start([INSTALLED.parent / "gt_pcsc", "-r", name, "-f", script], output)
        await_that("the second command", lambda: program.poll() is not None or any(
            re.match("> ([0-9A-F]{6})?00DA", it) for it in card.heard()[before:]))
        # pcscd may not have seen the card yet
        if output.read_text(encoding="utf-8") != "no card in the reader\n":
            return program
    raise Wrong("no card in the reader")


def back_at_once():
    """An adapter that is back before pcscd looks has another card, which was not reset."""
    with Room() as room:
        first, second = Card(room, "first"), Card(room, "second", "3B800181")
        tty = room.path / "tty"
        tty.symlink_to(first.tty.readlink())
        pcscd = Pcscd(room, [("Life", f"{tty}:{PATIENT}")])
        name, = pcscd.await_readers(1)
        await_that("the first reset", lambda: first.resets)
        same(session(name, SCRIPT), (0, RIGHT))
        new = room.path / "new"
        new.symlink_to(second.tty.readlink())
        new.replace(tty)
        first.end()
        # the second card talks T=1 alone, so the first one's answer to reset is of no use
        await_that("the second card", lambda: session(name, SCRIPT) == (0, RIGHT) and second.resets)
        pcscd.end()


def ends(program):
    """The status of a program that does not wait for its card any more."""
    began = time.monotonic()
    status = program.wait(SECONDS)
    if time.monotonic() - began > AT_ONCE:
        raise Wrong(f"it ends after {time.monotonic() - began:.1f} s")
    return status


def card_killed(atr):
    """The adapter is unplugged in the middle, and comes back with another card."""
    with Room() as room:
        card = Card(room, "tty", atr, faults=["command 2, delay 40s"])
        pcscd, name = one_reader(room, card)
        program = in_the_middle(room, card, name)
        card.end()
        same(ends(program), 1, "status")
        same((room.path / "program").read_text(encoding="utf-8").splitlines(),
             [RIGHT[0], "line 2: the reader is gone"])
        pcscd.await_log(f"{card.tty}: the line is gone")
        await_that("the log has the tty", lambda: "the tty cannot be opened: " in pcscd.said())
        same(pcscd.said().count("the tty cannot be opened: "), 1, "lines in the log:")
        again = Card(room, "tty", atr)
        await_that("a reset of the next card", lambda: again.resets)
        await_that("the reader is back", lambda: session(name, SCRIPT) == (0, RIGHT))
        again.end()
        await_that("the log has it again",
                   lambda: pcscd.said().count("the tty cannot be opened: ") == 2)
        pcscd.end()


def await_gone(name, link, pcscd, count):
    """Programs see that the reader is gone, and the log has had the reason this many times."""
    await_that("the reader is gone",
               lambda: run(["gt_pcsc", "-r", name, "get", "51"]) == (1, "the reader is gone\n"))
    reason = f"{link}: the tty cannot be opened: "
    same(pcscd.said().count(reason), count, "the reason in the log:")


def is_removed():
    """An adapter that is unplugged while no program works is a reader that is gone, again and
    again. Another reader stays."""
    with Room() as room:
        other = Card(room, "other")
        card = Card(room, "tty")
        pcscd = Pcscd(room, [("Stays", f"{other.tty}:{PATIENT}"),
                             ("Goes", f"{card.tty}:{PATIENT}")])
        names = pcscd.await_readers(2)
        for count in (1, 2, 3):
            same(session(names[1], SCRIPT), (0, RIGHT))
            card.end()
            await_gone(names[1], card.tty, pcscd, count)
            same(session(names[0], SCRIPT), (0, RIGHT))
            card = Card(room, "tty", ["3B00", "3B800181"][count % 2])
            await_that("the reader is back", lambda: session(names[1], SCRIPT) == (0, RIGHT))
        pcscd.end()


def name_vanishes():
    """The name of the tty goes while the tty is open, as of an adapter that comes back under
    another one. A reset finds that, and the name brings the reader back."""
    with Room() as room:
        card = Card(room, "tty")
        pcscd, name = one_reader(room, card)
        same(session(name, SCRIPT), (0, RIGHT))
        where = card.tty.readlink()
        card.tty.unlink()
        await_that("the reader is gone", lambda: run(["gt_pcsc", "-r", name, "get", "51"]) == (
            1, "the reader is gone\n"))
        resets = card.resets
        card.tty.symlink_to(where)
        await_that("the reader is back", lambda: session(name, SCRIPT) == (0, RIGHT))
        same(card.resets > resets, True, "another reset:")
        pcscd.end()


def plugged_in_later():
    with Room() as room:
        pcscd = Pcscd(room, [("Later", f"{room.path}/tty:{PATIENT}")])
        name, = pcscd.await_readers(1)
        status, said = run(["gt_pcsc", "-r", name, "get", "51"])
        same(status, 1)
        card = Card(room, "tty")
        await_that("a reset", lambda: card.resets)
        same(session(name, SCRIPT), (0, RIGHT))
        pcscd.end()


def pcscd_killed(number, atr):
    """The program ends, and the next pcscd finds the tty free."""
    with Room() as room:
        card = Card(room, "tty", atr, faults=["command 2, delay 12s"])
        pcscd, name = one_reader(room, card)
        program = in_the_middle(room, card, name)
        pcscd.end(number)
        same(ends(program), 1, "status")
        resets = card.resets
        pcscd = Pcscd(room, [("Life", f"{card.tty}:{PATIENT}")])
        pcscd.await_readers(1)
        await_that("a reset", lambda: card.resets > resets)
        same(session(name, SCRIPT), (0, RIGHT))
        pcscd.end()


def program_killed(atr):
    """The next program gets a card that was reset, since the first held a transaction."""
    with Room() as room:
        card = Card(room, "tty", atr, faults=["command 2, delay 3s"])
        pcscd, name = one_reader(room, card)
        program = in_the_middle(room, card, name)
        program.kill()
        program.wait()
        same(session(name, SCRIPT), (0, RIGHT))
        pcscd.end()


def is_held():
    """Another program has the tty, up to its end."""
    with Room() as room:
        card = Card(room, "tty")
        near = os.open(card.tty, os.O_RDWR | os.O_NOCTTY)
        fcntl.lockf(near, fcntl.LOCK_EX | fcntl.LOCK_NB)
        pcscd = Pcscd(room, [("Held", f"{card.tty}:{PATIENT}")])
        pcscd.await_log(f"{card.tty}: process {os.getpid()} has '{str(card.tty)[:60]}")
        os.close(near)
        name, = pcscd.await_readers(1)
        same(session(name, SCRIPT), (0, RIGHT))
        # a second reader at the same tty is refused
        pcscd.end()
        pcscd = Pcscd(room, [("One", f"{card.tty}:{PATIENT}"), ("Two", f"{card.tty}:{PATIENT}")])
        pcscd.await_log(f"process {pcscd.process.pid} has ")
        same(len(re.findall("process [0-9]+ has ", pcscd.said())), 1)
        pcscd.end()


def has_a_bound():
    """NULL bytes without end end with the patience."""
    with Room() as room:
        card = Card(room, "tty", faults=["command 2, nulls 9999999"])
        pcscd, name = one_reader(room, card, f"{PATIENT},patience={BOUND}")
        began = time.monotonic()
        status, lines = session(name, SCRIPT)
        same((status, lines[:-1]), (1, RIGHT[:1]))
        pcscd.await_log(f"{card.tty}: the command takes longer than the setting 'patience'")
        seconds = time.monotonic() - began
        if not BOUND <= seconds < SECONDS:
            raise Wrong(f"it ends after {seconds:.1f} s")
        pcscd.end()


def never_ends(atr):
    """A card that asks for more time without end ends with the patience, at T=0 and T=1."""
    with Room() as room:
        card = Card(room, "tty", atr, own=f"sh -c '{NEVER_ENDS}'")
        pcscd, name = one_reader(room, card, f"{PATIENT},patience={BOUND}")
        began = time.monotonic()
        status, lines = session(name, ["send 8010000001"])
        seconds = time.monotonic() - began
        same(status, 1, lines)
        pcscd.await_log(f"{card.tty}: the command takes longer than the setting 'patience'")
        if not BOUND <= seconds < SECONDS:
            raise Wrong(f"it ends after {seconds:.1f} s")
        pcscd.end()


def beside_a_slow_one():
    """A command that lasts at one reader does not hold up another."""
    with Room() as room:
        slow = Card(room, "slow", faults=["command 2, delay 15s"])
        quick = Card(room, "quick", "3B800181")
        pcscd = Pcscd(room, [("Slow", f"{slow.tty}:{PATIENT}"),
                             ("Quick", f"{quick.tty}:{PATIENT}")])
        names = pcscd.await_readers(2)
        await_that("resets", lambda: slow.resets and quick.resets)
        program = in_the_middle(room, slow, names[0])
        same(session(names[1], SCRIPT), (0, RIGHT))
        same(program.poll(), None, "status of the slow one:")
        same(program.wait(SECONDS), 0, "status")
        same((room.path / "program").read_text(encoding="utf-8").splitlines(), RIGHT)
        pcscd.end()


def two_compete():
    """Each of two programs gets the answers of its own commands."""
    with Room() as room:
        card = Card(room, "tty", "3B9011800100")
        pcscd, name = one_reader(room, card)
        with ThreadPoolExecutor(3) as pool:
            for found in pool.map(lambda _: session(name, SCRIPT), range(9)):
                same(found, (0, RIGHT))
        pcscd.end()


def two_see_each_other():
    """Who wants the card for itself alone is refused, a transaction makes others wait, and they see
    that it ended with a reset."""
    with Room() as room:
        card = Card(room, "tty")
        pcscd, name = one_reader(room, card)
        before = card.resets
        status, said = run([sys.executable, "-c", COMPETES, name, SELECT])
        same((status, said.splitlines()), (0, COMPETED))
        same(card.resets > before, True, "a reset:")
        pcscd.end()


def no_secret(protocol):
    """No byte of a command is in a log, whatever happens to it."""
    with Room() as room:
        card = Card(room, "tty", ATRS[protocol],
                    faults=["command 3, power off", "command 2, refuse 63C2"])
        pcscd, name = one_reader(room, card, BRIEF, ["--debug"])
        verify = f"00200080 08 {PIN}".replace(" ", "")
        for _ in range(2):
            session(name, [SCRIPT[0], f"send {verify}", f"send {verify}"])
        same(card.struck(), True, "the fault has struck:")
        same([it for it in FORMS if it in pcscd.said()], [], "forms in the log:")
        if f"{card.tty}: " not in pcscd.said():
            raise Wrong("the log has no fault")
        pcscd.end()


def no_pin_of_gpg(faults):
    """GnuPG's PIN is in no line of pcscd's log or of its own daemon's, whatever becomes of it."""
    with Room() as room:
        card = Card(room, "tty", ATRS[1], faults=faults, own="openpgp:OpenPgp")
        pcscd, name = one_reader(room, card, BRIEF, ["--debug"])
        gpg = Gpg(room, name)
        log = gpg.path / "log"
        (gpg.path / "scdaemon.conf").open("a").write(f"log-file {log}\nverbose\n")
        gpg.import_key()
        gpg.status()
        found = [gpg.sign("64738291"), gpg.sign("123456")]
        same(found, [2, 2] if faults else [2, 0])
        # a line of pcscd begins with a time
        logs = re.sub("^[0-9]+ ", "", pcscd.said(), flags=re.M) + log.read_text(encoding="utf-8")
        for pin in ("64738291", "123456"):
            digits = pin.encode().hex(" ")
            forms = [pin, digits, digits.replace(" ", ""), digits.replace(" ", ":")]
            same([it for it in forms if it in logs], [], "forms in the log:")
        same(f"{card.tty}: " in logs, bool(faults), "the log has a fault:")
        pcscd.end()


def group(case):
    tests = {
        "wrong settings": wrong_settings,
        "an adapter plugged in later": plugged_in_later,
        "an adapter that is unplugged": is_removed, "a name that vanishes": name_vanishes,
        "an adapter that is back at once": back_at_once,
        "a tty that is held": is_held,
        "a card that never ends, T=0": lambda: never_ends("3B00"),
        "a card that never ends, T=1": lambda: never_ends("3B8081210323"),
        "a bound for all": has_a_bound, "a reader beside a slow one": beside_a_slow_one,
        "programs that compete": two_compete, "no secret in a log, T=0": lambda: no_secret(0),
        "no secret in a log, T=1": lambda: no_secret(1),
    }
    for protocol, atr in ATRS.items():
        tests |= {
            f"a card killed in the middle, T={protocol}": lambda atr=atr: card_killed(atr),
            f"pcscd killed in the middle, T={protocol}":
                lambda atr=atr: pcscd_killed(signal.SIGKILL, atr),
            f"pcscd ended in the middle, T={protocol}":
                lambda atr=atr: pcscd_killed(signal.SIGTERM, atr),
            f"a program killed in the middle, T={protocol}": lambda atr=atr: program_killed(atr),
        }
    for title, test in tests.items():
        case(title, test)
    if has("pyscard"):
        case("what two programs see of each other", two_see_each_other)
    else:
        case.skip("what two programs see of each other", "pyscard")
    for faults in ([], ["INS 20 once, power off"]):
        title = f"no PIN of GnuPG in a log, {faults[:1] or 'no fault'}"
        if has("gpg"):
            case(title, lambda faults=faults: no_pin_of_gpg(faults))
        else:
            case.skip(title, "gpg")
