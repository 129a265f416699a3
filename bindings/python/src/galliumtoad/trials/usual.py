"""What a job is without a fault."""

from collections import Counter
from typing import Iterable

from .dialogue import Dialogue, Step
from .output import Output
from .run import counted


def by_command(dialogue: Dialogue) -> dict[bytes, set[bytes]]:
    """The responses to each command."""
    found = dict[bytes, set[bytes]]()
    for command, data in dialogue.responses():
        found.setdefault(command, set()).add(data)
    return found


class Usual:
    """What happens in two runs without a fault: output, dialogue, and how often the card carried
    out each command. What differs is left out, and listed."""

    def __init__(self, outputs: tuple[str, str], dialogues: tuple[Dialogue, Dialogue],
                 commands: tuple[list[bytes], list[bytes]]) -> None:
        self.output = Output(*outputs)
        self.counts: Counter[bytes] = counted(commands[0]) | counted(commands[1])
        self.statuses = set.union(*(it.statuses() for it in dialogues))
        self.left_out = [f"output {it}" for it in self.output.left_out]
        self.steps = list[Step]()
        self.take_steps(*(it.steps() for it in dialogues))
        self.responses = dict[bytes, set[bytes]]()
        self.take_responses(*map(by_command, dialogues))

    def take_steps(self, steps: list[Step], others: list[Step]) -> None:
        """Takes the commands that both runs have."""
        if len(steps) != len(others):
            self.left_out.append(f"commands after {min(len(steps), len(others))}")
        for step, other in zip(steps, others):
            if step.command[:4] == other.command[:4]:
                self.steps.append(step)
            if step.command != other.command:
                command, its = (it.command.hex().upper() for it in (step, other))
                self.left_out.append(f"command {step.number} {command}, {its}")

    def take_responses(self, mine: dict[bytes, set[bytes]], its: dict[bytes, set[bytes]]) -> None:
        """Takes the responses of one run that the other one does not contradict."""
        for command, data in mine.items():
            if its.get(command, data) == data:
                self.responses[command] = data
            else:
                self.left_out.append(f"the response to {command.hex().upper()}")

    def has_other_data(self, dialogue: Dialogue) -> bool:
        """Whether the card sent data that it does not send without a fault. A terminal may leave
        out the end of a response."""
        return any(self.is_other(command, data) for command, data in dialogue.responses())

    def is_other(self, command: bytes, data: bytes) -> bool:
        """Whether the card sends other data for a command without a fault."""
        usual = self.responses.get(command)
        return usual is not None and not any(it.startswith(data) for it in usual)

    def is_exceeded(self, commands: Iterable[bytes]) -> bool:
        """Whether the card carried out a command again, and more often than without a fault."""
        return any(count > max(self.counts[it], 1) for it, count in counted(commands).items())
