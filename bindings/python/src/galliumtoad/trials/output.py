"""The output of a terminal, beside what it prints without a fault."""

import difflib
import re
from itertools import zip_longest
from typing import Optional

WORDS = re.compile(r"\w+|\W")
Lines = list["re.Pattern[str]"]


def pattern(one: str, other: str) -> "re.Pattern[str]":
    """Fits both lines. Words that differ may be any; so may lines with other signs between.

    >>> pattern("at 12:30 OK", "at 12:31 OK").pattern.replace(chr(92), "")
    'at 12:w+ OK'
    """
    words = WORDS.findall(one)
    others = WORDS.findall(other)
    if list(map(is_word, words)) != list(map(is_word, others)):
        return re.compile(".*")
    return re.compile("".join(map(part_of_pattern, words, others)))


def is_word(text: str) -> bool:
    """Whether a part of a line is a word, and not a sign between words."""
    return re.match(r"\w", text) is not None


def part_of_pattern(word: str, other: str) -> str:
    """Fits both of two words, or of two signs."""
    if word == other:
        return re.escape(word)
    return r"\w+" if is_word(word) else "."


class Output:
    """What a terminal printed in two runs without a fault. What differs is left out, and listed.

    >>> it = Output("1 June\\nDOE", "2 June\\nDOE")
    >>> it.difference("3 June\\nDOE"), it.difference("3 June\\nROE")
    ('', "line 2 is 'ROE', not 'DOE'")
    """

    def __init__(self, first: str, second: str) -> None:
        self.first = first
        self.left_out = list[str]()
        # Any number of lines may be between two of these parts.
        self.parts: list[Lines] = [[]]
        one = first.splitlines()
        other = second.splitlines()
        match = difflib.SequenceMatcher(None, one, other, autojunk=False)
        for kind, start, end, its_start, its_end in match.get_opcodes():
            mine = one[start:end]
            its = other[its_start:its_end]
            if kind != "equal":
                self.leave_out(mine, its)
            if len(mine) == len(its):
                self.parts[-1] += map(pattern, mine, its)
            else:
                self.parts.append([])

    def leave_out(self, lines: list[str], others: list[str]) -> None:
        """Lists lines that differ."""
        for line, other in zip_longest(lines, others, fillvalue=""):
            self.left_out.append(f"{line!r}, {other!r}")

    def difference(self, output: str) -> str:
        """How an output differs, or nothing."""
        lines = output.splitlines()
        if len(self.parts) == 1:
            return self.first_difference(self.parts[0], lines)
        last = len(self.parts) - 1
        places = {0: 0, last: len(lines) - len(self.parts[last])}
        at = 0
        for number, part in enumerate(self.parts):
            found = self.place(part, lines, at, places.get(number))
            if found is None:
                return "lines are missing, or others"
            at = found + len(part)
        return ""

    def first_difference(self, part: Lines, lines: list[str]) -> str:
        """The first line that doesn't fit, or nothing."""
        usual = self.first.splitlines()
        for number, (due, line) in enumerate(zip(part, lines), 1):
            if not due.fullmatch(line):
                return f"line {number} is {line!r:.80}, not {usual[number - 1]!r:.80}"
        if len(lines) != len(part):
            return f"{len(lines)} lines of output, not {len(part)}"
        return ""

    @staticmethod
    def place(part: Lines, lines: list[str], at: int, only: Optional[int]) -> Optional[int]:
        """The first place from `at` on where the lines fit, or the `only` one, if they do."""
        places = range(at, len(lines) - len(part) + 1)
        if only is not None:
            places = range(only, only + 1) if only in places else range(0)
        return next((it for it in places if all(
            due.fullmatch(line) for due, line in zip(part, lines[it:]))), None)
