"""Cards that misbehave (docs/FAULTS.md) at a line: no answer is ever wrong, pcscd's log names the
real fault, and the next program gets a card that was reset."""

import queue
from concurrent.futures import ThreadPoolExecutor

from programs_cases import STATUS, Gpg, contains, has
from world import (BRIEF, SELECT, SELECTED, TOO_LATE, Card, Pcscd, Room, Wrong, await_that, run,
                   same)

OBJECT = "51080102030405060708"
SCRIPT = [f"select {SELECT[10:]}", f"put 51 {OBJECT[4:]}", "get 51"]
RIGHT = [f"= 9000 {SELECTED}", "= 9000", f"= 9000 {OBJECT}"]
# What a program prints first until pcscd has seen a new card, or a tty that is back; or while it
# resets the card of a program that was killed.
NOT_YET = (["no card in the reader"], ["the reader is gone"],
           ["line 1: the card was reset by another program"])
# the second has the shortest waiting times, so that lost blocks do not take long
ATRS = {0: "3B00", 1: "3B8081210323"}
UNKNOWN = "the card may have carried out the command"

# A fault of a protocol, and what the log says of it; nothing, if the answers are right.
FAULTS = [
    (0, "command 2, nulls 1000", ""),
    (0, "command 2, complement", ""),
    (0, "command 2, procedure 55", "bad procedure byte"),
    (0, "command 2, early status", "the card ended the command before it took the data"),
    (0, "command 3, byte 5 drop", "bad procedure byte"),
    (0, "command 3, byte 5 insert AA", "bad procedure byte"),
    (0, "command 3, mute", "the card is silent"),
    (0, "command 2, power off", "the card is silent"),
    (0, f"command 2, delay {TOO_LATE}", "the card is silent"),
    (1, "command 2, lose", ""),
    (1, "command 2, double", ""),
    (1, "command 3, lrc", ""),
    (1, "command 3, nad", ""),
    (1, "command 3, byte 5 flip", ""),
    (1, "command 3, byte 5 drop", ""),
    (1, "command 3, byte 5 insert AA", ""),
    (1, "command 3, wtx 2", ""),
    (1, "command 2, abort", f"aborted by the card: {UNKNOWN}"),
    (1, "command 3, mute", f"too many tries without progress: {UNKNOWN}"),
]
# These need an echo.
ECHOES = [
    (0, "command 2, wrong echo", "the echo differs from what was sent"),
    (0, "command 2, wrong echo of data", "the echo differs from what was sent"),
    (1, "command 2, wrong echo", "the echo differs from what was sent"),
]
# Many at once, each with a chance: answers are right up to the first fault.
STORMS = [
    (0, ["p 0.02, nulls 5", "p 0.005, procedure 55", "p 0.005, byte 3 drop",
         "p 0.005, byte 5 drop", "p 0.005, byte 4 insert 51"]),
    (1, ["p 0.03, lose", "p 0.03, lrc", "p 0.03, double", "p 0.03, byte 5 flip",
         "p 0.02, byte 2 drop", "p 0.02, byte 6 insert 00", "p 0.02, nad"]),
]
STORM = 100
# A lost block costs this time each. T=1 asks again.
STORM_SLACK = "slack=500"


def session(name, script):
    """Runs gt_pcsc, again as long as pcscd has not seen the card. Returns its status and lines."""
    def ends():
        status, said = run(["gt_pcsc", "-r", name, "-f", "-"], "".join(f"{it}\n" for it in script))
        lines = [it for it in said.splitlines() if it != "waiting for another program"]
        return lines[:1] in NOT_YET or (status, lines)
    return await_that("a card", lambda: (it := ends()) is not True and it)


class Desk:
    """A reader, and what pcscd's log says of it."""

    def __init__(self, pcscd, room, name, link, echo):
        self.pcscd, self.room, self.name, self.link, self.echo = pcscd, room, name, link, echo
        self.card = None

    def log(self, since=0):
        return [it for it in self.pcscd.said().splitlines() if f"{self.link}: " in it][since:]

    def state(self):
        """What the card and pcscd have printed last, for a test that fails."""
        return f"{self.card.said()[-500:]} {self.pcscd.said()[-1000:]}"

    def put_in(self, protocol, faults):
        """Ends the last card, and once the reader has seen that, puts in another."""
        if self.card:
            since = len(self.log())
            self.card.end()
            await_that(lambda: f"the tty is closed: {self.state()}", lambda: self.log(since))
        self.card = Card(self.room, self.link.name, ATRS[protocol], self.echo, faults)
        await_that(lambda: f"the first reset: {self.state()}", lambda: self.card.resets)
        return self.card

    def try_fault(self, protocol, fault, told):
        """The fault strikes in a session of one program. After that another one works."""
        card = self.put_in(protocol, [fault])
        before = len(self.log())
        status, lines = session(self.name, SCRIPT)
        await_that(lambda: f"{fault} strikes: {lines} {self.state()}", card.struck)
        resets = card.resets
        if not told:
            same((status, lines), (0, RIGHT), fault)
        else:
            same((status, lines[:-1]), (1, RIGHT[: len(lines) - 1]), fault)
            same(self.names_it(before, told), True, f"the log {self.log(before)} has '{told}':")
        same(session(self.name, SCRIPT), (0, RIGHT), f"after {fault}")
        if told and card.resets == resets:
            raise Wrong("the next session has no reset")

    def names_it(self, before, told):
        """Whether the first line of the log is this fault."""
        lines = self.log(before)
        return bool(lines) and lines[0].endswith(f"{self.link}: {told}")

    def storm(self, protocol, faults):
        card = self.put_in(protocol, faults)
        done = broken = 0
        while done < STORM:
            script = [SCRIPT[0]]
            wanted = [RIGHT[0]]
            for at in range(done, STORM):
                script += [f"put 51 {at:04X}", "get 51"]
                wanted += ["= 9000", f"= 9000 5102{at:04X}"]
            status, lines = session(self.name, script)
            if status:
                broken += 1
                lines.pop()
            same(lines, wanted[: len(lines)], f"with {faults}")
            done += max(len(lines) // 2, 1)
        same(card.struck(), True, "a fault has struck:")
        same(protocol == 1 and broken, 0, "sessions broken at T=1:")


class Desks:
    """Readers of one pcscd. `free` has those that no test uses, by echo and slack."""

    KINDS = [(echo, slack) for echo in (True, False) for slack in (BRIEF, BRIEF, STORM_SLACK)]

    def __init__(self, room):
        links = [room.path / f"line{at}" for at in range(len(self.KINDS))]
        self.pcscd = Pcscd(room, [
            (f"F{at}", f"{link}:{slack},echo={'yes' if echo else 'no'}")
            for at, (link, (echo, slack)) in enumerate(zip(links, self.KINDS))])
        self.free = {it: queue.Queue() for it in self.KINDS}
        names = self.pcscd.await_readers(len(links))
        for name, link, kind in zip(names, links, self.KINDS):
            self.free[kind].put(Desk(self.pcscd, room, name, link, kind[0]))


def at_desk(case, title, free, test):
    """Runs the case at the next free desk."""
    desk = free.get()
    case(title, lambda: test(desk))
    free.put(desk)


class Statuses:
    """GnuPG's `gpg --card-status` at a card of the OpenPGP kind, on a line with many faults."""

    def __init__(self, room, protocol):
        self.card = Card(room, "line", ATRS[protocol], True, STORMS[protocol][1],
                         own="openpgp:OpenPgp")
        slack = STORM_SLACK if protocol else BRIEF
        self.pcscd = Pcscd(room, [("Gpg", f"{self.card.tty}:{slack}")])
        name, = self.pcscd.await_readers(1)
        self.gpg = Gpg(room, name)

    def __call__(self):
        """Whether it ends well. Then each line about the card is right."""
        status, said = self.gpg("--card-status", "--with-colons")
        if status:
            return False
        contains(said, STATUS)
        contains(said, ["pinretry:3:0:3:", "sigcount:0:"])
        return True


def statuses(protocol):
    """GnuPG never shows a wrong status. T=1 mends each fault."""
    with Room() as room:
        status = Statuses(room, protocol)
        found = [status() for _ in range(6)]
        same(status.card.struck(), True, "a fault has struck:")
        if protocol:
            same(found, [True] * 6)
        elif not all(found):
            await_that("a line in the log", lambda: f"{status.card.tty}: " in status.pcscd.said())
        status.pcscd.end()


def group(case):
    if has("gpg"):
        for protocol in (0, 1):
            case(f"GnuPG with many faults at T={protocol}",
                 lambda protocol=protocol: statuses(protocol))
    else:
        case.skip("GnuPG with many faults", "gpg")
    with Room() as room:
        desks = Desks(room)
        for echo in (True, False):
            tests = [(f"{fault} at T={protocol}, echo {echo}", desks.free[echo, BRIEF],
                      lambda desk, of=(protocol, fault, told): desk.try_fault(*of))
                     for protocol, fault, told in FAULTS + (ECHOES if echo else [])]
            tests += [(f"many faults at T={protocol}, echo {echo}",
                       desks.free[echo, STORM_SLACK if protocol else BRIEF],
                       lambda desk, of=(protocol, faults): desk.storm(*of))
                      for protocol, faults in STORMS]
            with ThreadPoolExecutor(3) as pool:
                list(pool.map(lambda of: at_desk(case, *of), tests))
        desks.pcscd.end()
