"""Any job with any card. It runs twice without a fault, and then each fault strikes at each of its
commands. What a good terminal does follows from the fault."""

import re
import sys
from pathlib import Path
from random import Random
from typing import Callable, Iterable, Optional, Union

from .. import Application, Atr, AtrError, Command, OwnCard
from ..cards import Replay, application
from ..faults import ANYWHERE, DATA, ECHO, LINE, T0, T1
from ..mistakes import Mistake
from .dialogue import FAULT, Dialogue, Exchange, Step
from .engine import Job, Terminal, tried
from .fixed import ATRS
from .rows import rows
from .run import RESET, Run
from .trial import Trial
from .usual import Usual

CHANGES_DATA = (*DATA, "forget")


class AnyRun(Run):
    """The card of one trial, its dialogue, and the commands and resets of its application."""

    def __init__(self, trial: Trial, card: Application, protocol: int,
                 usual: Optional[Usual]) -> None:
        self.usual = usual
        self.dialogue = Dialogue()
        self.asked = list[bytes]()  # of the application, by the last command
        self.note_asked(card)
        super().__init__(trial, OwnCard(card), getattr(card, "atr", b"") or ATRS[protocol])
        self.carried_out = lambda command: self.commands.extend(self.asked)

    def note_asked(self, card: Application) -> None:
        """Lets an application note what it is asked. The fault `twice` asks once more, but then
        the command has been taken."""
        own = card.carry_out
        its_reset = card.reset

        def carry_out(command: Command) -> object:
            self.asked.append(command.header + bytes([len(command.data)]) + command.data)
            return own(command)

        def reset() -> None:
            self.commands.append(RESET)
            its_reset()

        setattr(card, "carry_out", carry_out)
        setattr(card, "reset", reset)

    def strike(self, said: str) -> None:
        """Takes the line of a fault that strikes."""
        super().strike(said)
        self.dialogue.note(f"{FAULT}{said.rpartition(': ')[2]}")

    def reset(self) -> None:
        super().reset()
        self.dialogue.reset()

    def whole(self, data: bytes, more: Optional[Callable[[], bytes]] = None) -> bytes:
        self.asked.clear()
        self.came = data
        answer = b""
        try:
            answer = super().whole(data, more)
            return answer
        finally:
            self.dialogue.take(Exchange(self.faults.count, self.came, answer))

    def see(self, output: str) -> str:
        """A success is true if the output is that without a fault."""
        it = self.trial
        usual = self.usual
        it.dialogue = self.dialogue.text()
        if not usual:
            it.is_true = True
            return f"{len(output.splitlines())} lines of output, {self.faults.count} commands"
        difference = usual.output.difference(output)
        it.is_true = not difference
        it.is_changed = self.has_changed(usual) or self.is_named(output, usual)
        it.is_twice = usual.is_exceeded(self.commands)
        if not difference:
            return "the same output"
        return difference if it.status == 0 else "other output"

    def has_changed(self, usual: Usual) -> bool:
        """Whether the fault changed data that the card sent."""
        changes = any(it.kind in CHANGES_DATA for it in self.trial.read())
        return changes or usual.has_other_data(self.dialogue)

    def is_named(self, output: str, usual: Usual) -> bool:
        """Whether the output names a status that the card sent and does not send without the fault,
        as in `SW1=0x62, SW2=0x83`."""
        statuses = [it.hex() for it in self.dialogue.statuses() - usual.statuses]
        forms = [re.compile(f"{it[:2]}.{{0,12}}?{it[2:]}", re.I) for it in statuses]
        return any(len(it.findall(output)) > len(it.findall(usual.output.first)) for it in forms)


class AnyJob(Job):
    """A job of any terminal with any card, at a line or over a reader."""

    usual: Optional[Usual] = None

    def __init__(self, card: Union[Replay, str], is_line: bool, protocol: int) -> None:
        self.card = card
        self.is_line = is_line
        self.protocol = protocol
        self.has_echo = True

    def new_card(self) -> Application:
        """A card for one run. Raises `Mistake`."""
        return self.card.fresh() if isinstance(self.card, Replay) else application(self.card)

    def run(self, trial: Trial) -> AnyRun:
        return AnyRun(trial, self.new_card(), self.protocol, self.usual)

    def once(self, terminal: Terminal) -> tuple[Trial, AnyRun, str]:
        """A run without a fault. Raises `Mistake` if it fails."""
        clause = "A terminal that fails without a fault is not tried."
        trial = Trial("no fault", "", "succeeds", clause)
        run, output = tried(self, trial, terminal)
        assert isinstance(run, AnyRun)
        why = "" if trial.verdict == "right" else f"it is {trial.verdict}: {trial.happened}"
        if not run.dialogue.exchanges:
            why = why or "it sends no command"
        if why:
            raise Mistake(f"{output[-2000:]}\nwithout a fault {why}")
        return trial, run, output

    def begin(self, terminal: Terminal) -> Trial:
        trial, one, first = self.once(terminal)
        _, other, second = self.once(terminal)
        self.usual = Usual((first, second), (one.dialogue, other.dialogue),
                           (one.commands, other.commands))
        self.is_t1 = is_t1(one.atr)
        if self.usual.left_out:
            trial.happened += f"; two runs differ, so left out: {'; '.join(self.usual.left_out)}"
        return trial

    def places(self) -> set[str]:
        """Where faults can happen."""
        if not self.is_line:
            return {ANYWHERE}
        if self.is_t1:
            return {ANYWHERE, T1}
        return {ANYWHERE, LINE, T0, *([ECHO] if self.has_echo else [])}

    @property
    def steps(self) -> list[Step]:
        """The commands of the job, once it has begun."""
        return self.usual.steps if self.usual else []

    def trials(self) -> list[Trial]:
        places = self.places()
        return [row.trial(step) for step in self.steps for row in rows()
                if row.fault.place in places and row.is_for(step)]


def is_t1(atr: bytes) -> bool:
    """Whether a card talks T=1 first."""
    try:
        return bool(Atr(atr).protocols[0])
    except AtrError:  # a reader takes any answer
        return False


def card_of(name: str) -> Union[Replay, str]:
    """A capture that is read, or MODULE:CLASS. Prints what is left out. Raises `Mistake`."""
    if not Path(name).is_file():
        return name
    it = Replay(name)
    for line in it.left_out:
        print(line, file=sys.stderr, flush=True)
    return it


def chosen(trials: Iterable[Trial], only: str, most: Optional[int], seed: int) -> list[Trial]:
    """Those with a word in their name or title, and at most this number, by a seed. Raises
    `Mistake` if no name has the word."""
    found = [it for it in trials if only in it.name or only in it.title]
    if not found:
        raise Mistake(f"no trial that can happen there has {only!r} in its name")
    if most is None or most >= len(found):
        return found
    return [found[it] for it in sorted(Random(seed).sample(range(len(found)), most))]
