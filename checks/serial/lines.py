"""Pseudo terminals as lines of smart cards: the far end of a line, and a wire between two lines."""

import os
import pty
import select
import termios
import threading
import time
import tty

SECONDS = 20


def turned(data):
    """Converts bytes between the inverse and the direct convention."""
    return bytes(int(f"{byte:08b}"[::-1], 2) ^ 0xFF for byte in data)


class Line:
    """The far end of a pseudo terminal. A program opens the near end by its name."""

    def __init__(self):
        self.far, self.near = pty.openpty()
        tty.setraw(self.near)
        self.name = os.ttyname(self.near)
        self.before = termios.tcgetattr(self.near)

    def settings(self):
        return termios.tcgetattr(self.near)

    def is_put_back(self):
        """Whether the near end has its first settings again."""
        return self.settings() == self.before

    def read(self, most, seconds=SECONDS):
        """Reads up to `most` bytes. Returns none if nothing comes in this time."""
        ready, _, _ = select.select([self.far], [], [], seconds)
        return os.read(self.far, most) if ready else b""

    def write(self, data):
        os.write(self.far, data)

    def close(self):
        for end in (self.far, self.near):
            if end >= 0:
                os.close(end)
        self.far = self.near = -1

    def __enter__(self):
        return self

    def __exit__(self, *_):
        self.close()


class Wire(threading.Thread):
    """Joins the far ends of two lines. With `echo` each end gets back its own bytes. It passes one
    byte at a time, or with `heaps` all bytes of some milliseconds."""

    def __init__(self, one, other, echo, heaps):
        super().__init__(daemon=True)
        self.ends = (one, other)
        self.echo = echo
        self.heaps = heaps
        self.is_cut = threading.Event()

    def run(self):
        while not self.is_cut.is_set():
            ready, _, _ = select.select([end.far for end in self.ends], [], [], 0.02)
            if ready and self.heaps:
                time.sleep(0.004)
            for place, end in enumerate(self.ends):
                if end.far in ready:
                    self.carry(end, self.ends[1 - place])

    def carry(self, end, other):
        data = end.read(256 if self.heaps else 1, 0)
        if self.echo:
            end.write(data)
        other.write(data)

    def cut(self):
        self.is_cut.set()
        self.join()


class Other:
    """The other end of a line, played by a test: it takes bytes of the program, and sends bytes.
    With `echo` it returns what it takes. With `inverse` the line has the bytes in the inverse
    convention. Each byte is written alone; with `heaps` the bytes of one word go in one write,
    after the last echo."""

    def __init__(self, line, echo=True, inverse=False, heaps=False):
        self.line = line
        self.echo = echo
        self.heaps = heaps
        self.inverse = inverse
        self.held = b""
        self.sent_at = 0.0
        self.gaps = []

    def raw(self, data):
        return turned(data) if self.inverse else data

    def send(self, digits):
        data = self.held + self.raw(bytes.fromhex(digits))
        self.held = b""
        self.sent_at = time.monotonic()
        for part in [data] if self.heaps else [data[i : i + 1] for i in range(len(data))]:
            self.line.write(part)

    def take(self, digits):
        """Takes exactly these bytes; others are an error. `gaps` gets the time before each."""
        wanted = bytes.fromhex(digits)
        for place, byte in enumerate(wanted):
            found = self.line.read(1)
            now = time.monotonic()
            self.gaps.append(now - self.sent_at)
            self.sent_at = now
            if self.raw(found) != bytes([byte]):
                raise AssertionError(
                    f"{self.raw(found).hex()} has come, and not byte {place} of {digits}"
                )
            if self.echo and self.heaps and place == len(wanted) - 1:
                self.held += found
            elif self.echo:
                self.line.write(found)

    def take_nothing(self, seconds):
        found = self.line.read(1, seconds)
        if found:
            raise AssertionError(f"{found.hex()} has come, and nothing is due")


def play(other, dialogue, card):
    """Plays one end of a dialogue, that of the card or of the terminal. Its words are `<` and the
    card's bytes, `>` and the terminal's, and `~` and seconds of a pause. This end also sends the
    bytes behind `!`, with wrong parity, and those behind `#`, as they are."""
    words = dialogue.split()
    for sign, word in zip(words[::2], words[1::2]):
        if sign == "~":
            time.sleep(float(word))
        elif sign == "!":
            other.sends_marked(word)
        elif sign == "#":
            other.line.write(bytes.fromhex(word))
        elif (sign == "<") == card:
            other.send(word)
        else:
            other.take(word)


def trace_of(dialogue):
    """The trace of a dialogue: all bytes of one end, up to the other's turn, are a line."""
    words = dialogue.split()
    lines = ["reset"]
    for sign, word in zip(words[::2], words[1::2]):
        if sign == "~":
            continue
        if lines[-1].startswith(sign):
            lines[-1] += word
        else:
            lines.append(f"{sign} {word}")
    return "".join(f"{line}\n" for line in lines)
