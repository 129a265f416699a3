"""The card of one trial, and which commands count as carried out twice."""

from abc import abstractmethod
from collections import Counter
from typing import Iterable, Optional, Union

from .. import Card, OwnCard
from ..faults import DEFAULT_BAUD, Faults
from ..simulate import Simulator
from .measured import words
from .trial import Trial

RESET = b""  # in place of a command
SELECT = b"\xA4"
# INS of commands that only read: GET CHALLENGE, SEARCH, READ, GET RESPONSE, GET DATA.
READS = bytes.fromhex("84 A0A1A2 B0B1B2B3 C0 CACB")
# GENERATE ASYMMETRIC KEY PAIR only reads the public key of a pair if this bit of P1 is set.
GENERATE_KEYS = 0x47
OF_KEY_THERE = 1
# The same of CLA whose other INS may mean anything: GET DATA and STATUS of GlobalPlatform, EMV and
# a UICC; SEEK, READ, GET RESPONSE and STATUS of a SIM.
PROPRIETARY = 0x80
OTHER_READS = {0x80: bytes.fromhex("CACB F2"), 0xA0: bytes.fromhex("A2 B0B2 C0 F2")}


def only_reads(command: bytes) -> bool:
    """Whether a command changes nothing at a card.

    >>> only_reads(bytes.fromhex("00B2010C00")), only_reads(bytes.fromhex("80B2010C00"))
    (True, False)
    >>> only_reads(bytes.fromhex("00478100")), only_reads(bytes.fromhex("00478000"))
    (True, False)
    """
    cla = command[0]
    ins = command[1]
    if ins == GENERATE_KEYS and command[2] & OF_KEY_THERE:
        return True
    return ins in (READS if cla < PROPRIETARY else OTHER_READS.get(cla, b""))


def without_lengths(command: bytes) -> bytes:
    """A short command's header and data, without Lc and Le.

    >>> [without_lengths(bytes.fromhex(it)).hex() for it in ("00B00000", "00DA0051014100")]
    ['00b00000', '00da005141']
    """
    return command[:4] + command[5:][: sum(command[4:5])]


def counted(commands: Iterable[bytes]) -> Counter[bytes]:
    """How often a card carried out each command, at most, with no reset or SELECT between. Those
    that only read are left out."""
    most = Counter[bytes]()
    since = Counter[bytes]()
    for command in commands:
        if command == RESET or command[1:2] == SELECT:
            since.clear()
        elif command[1:] and not only_reads(command):
            plain = without_lengths(command)
            since[plain] += 1
            most[plain] = max(most[plain], since[plain])
    return most


class Run(Simulator):
    """The card of one trial. It keeps the faults that struck, and the commands that it has carried
    out."""

    def __init__(self, trial: Trial, card: Union[Card, OwnCard], atr: bytes,
                 since: bytes = b"") -> None:
        self.trial = trial
        self.struck = list[str]()
        self.commands = list[bytes]()
        super().__init__(card, atr, Faults(trial.read(), since=since))
        self.carried_out = self.commands.append
        self.faults.tell = self.strike
        self.watch.counts = not trial.faults

    def strike(self, said: str) -> None:
        """Takes the line of a fault that strikes."""
        self.struck.append(said)
        self.watch.counts = True

    def judge(self, status: Optional[int], output: str) -> tuple[str, str]:
        """Judges the trial by the terminal's exit status and output. Returns the verdict, and what
        happened."""
        it = self.trial
        it.status = status
        it.has_struck = bool(self.struck)
        if it.atr:  # a trial of a line
            it.measured = words(self.watch, DEFAULT_BAUD)
        end = "no end" if status is None else f"exit status {status}"
        it.happened = f"{end}; {self.see(output)}"
        it.verdict = it.judged()
        return it.verdict, it.happened

    @abstractmethod
    def see(self, output: str) -> str:
        """Compares the output and the card with those of a good terminal. Returns what it saw."""
