"""A card that answers as the one in a capture."""

import copy
import json
import re
import sys
from collections import Counter, defaultdict
from typing import Any, Callable, Optional

from .. import Application, Command
from ..mistakes import Mistake, mistakes
from .captures import explained
from .programs import RESPONSE

BYTE = "[0-9A-F]{2}"
BYTES = "(?:[0-9A-F]{2})*"
CARD_ATR = re.compile("Card ATR: ?((?: ?[0-9A-F]{2})+)")  # as pcscd logs it
MOST_RECEIVED = 2 * (4096 - 256)  # digits of a response
PARTS = {**dict.fromkeys(("cla", "ins", "p1", "p2"), BYTE), "sent": BYTES, "received": BYTES,
         "line": "[0-9]+", "status": f"(?:9[0-9A-F]|6[1-9A-F]){BYTE}"}  # of a TPDU


class Session:
    """The commands of a capture between two resets: in their order, and by header and data."""

    def __init__(self, commands: list[dict[str, Any]]) -> None:
        self.commands = commands
        self.by_bytes = defaultdict[str, list[dict[str, Any]]](list)
        for it in commands:
            self.by_bytes[it["sent"]].append(it)
        self.headers = {it["sent"][:8] for it in commands if it["sent"][8:]}  # before data


def typed(command: str) -> tuple[int, bytes]:
    """Prints a command, and reads its answer from standard input, as a program gives it. At the end
    of the input it is 6D00."""
    while True:
        print(f"unknown command {command}", file=sys.stderr, flush=True)
        if not (line := sys.stdin.readline() if sys.stdin else ""):
            return 0x6D00, b""
        if found := re.fullmatch(RESPONSE, line.strip(), re.I):
            return int(found[2], 16), bytes.fromhex(found[1] or "")


class Replay(Application):
    """A card that answers as the one in a capture, in the order of its session; the last answer to
    a command comes again. A reset after a command begins the next session, or the first. Other
    commands get the status `unknown`, or what `ask` says; responses that the capture did not fetch
    get that status. To a strict card all but the session's next command is a `Mistake`. A command
    that can't be told is `left_out`, a line for each."""

    def __init__(self, path: str, unknown: int = 0x6D00, is_strict: bool = False,
                 ask: Optional[Callable[[str], tuple[int, bytes]]] = None) -> None:
        self.path = path
        self.unknown = unknown
        self.is_strict = is_strict
        self.ask = ask
        self.atr = b""
        self.left_out = list[str]()
        found = [list[dict[str, Any]]()]
        for at, text in enumerate(explained(path), 1):
            with mistakes(f"{path}: line {at}: not of trace_explain --json"):
                self.hear(json.loads(text or '{"type": "none"}'), found)
        self.sessions = [Session(it) for it in map(self.short, found) if it]
        if not self.sessions:
            raise Mistake("\n".join([*self.left_out, f"{path}: no command with an answer"]))
        self.begin(0)

    def hear(self, it: dict[str, Any], found: list[list[dict[str, Any]]]) -> None:
        """Takes an object of `trace_explain` into the last session, or into a new one."""
        kind = it["type"]
        logged = CARD_ATR.search(str(it.get("text"))) if kind == "note" else None
        if kind in ("reset", "atr") or logged:
            found.append([])
            self.atr = self.atr or bytes.fromhex(logged[1] if logged else it.get("characters", ""))
        elif kind == "error" or kind == "command" and '"masked"' in json.dumps(it):
            self.leave_out(it["line"], it["text"] if kind == "error" else "a masked value")
        elif kind == "command":
            for tpdu in it["tpdus"]:
                self.take({**tpdu}, found[-1])

    def leave_out(self, line: object, why: str) -> None:
        """Notes that a line is left out."""
        self.left_out.append(f"{self.path}: line {line}: {why}: left out")

    def short(self, session: list[dict[str, Any]]) -> list[dict[str, Any]]:
        """The commands of a session whose response a card can hold."""
        for it in session:
            if len(it["received"]) > MOST_RECEIVED:
                self.leave_out(it["line"], "a response of more than 3840 bytes")
        return [it for it in session if len(it["received"]) <= MOST_RECEIVED]

    def begin(self, place: int) -> None:
        """Begins a session, which has got no command yet."""
        self.place = place
        self.count = 0
        self.times = Counter[str]()  # of each command

    def fresh(self) -> "Replay":
        """Another card of the same capture, at its first session."""
        it = copy.copy(self)
        it.begin(0)
        return it

    def take(self, tpdu: dict[str, Any], session: list[dict[str, Any]]) -> None:
        """Takes a whole TPDU. The card answers GET RESPONSE, and the same command after 6CXX."""
        it = {name: str(tpdu.get(name, "")).upper() for name in PARTS}
        if re.fullmatch(f"({BYTE})?", it["status"]):
            return
        if wrong := [name for name in PARTS if not re.fullmatch(PARTS[name], it[name])]:
            raise ValueError(f"'{wrong[0]}' is {it[wrong[0]]!r:.60}")
        it["sent"] = "".join(it[name] for name in ("cla", "ins", "p1", "p2", "sent"))
        last = session[-1] if session else {"status": ""}
        waits = last["status"][:2]
        if (waits, it["ins"]) == ("61", "C0") or (waits == "6C" and it["sent"] == last["sent"]):
            last.update(status=it["status"], received=last["received"] + it["received"])
        else:
            session.append(it)

    def takes_data(self, header: bytes) -> bool:
        return header.hex().upper() in self.sessions[self.place].headers

    def carry_out(self, command: Command) -> tuple[int, bytes]:
        sent = (command.header + command.data).hex().upper()
        session = self.sessions[self.place]
        if self.is_strict:
            self.compare(sent, session.commands[self.count : self.count + 1])
        times = self.times[sent]
        self.times[sent] += 1
        self.count += 1
        known = session.by_bytes.get(sent)
        if not known:
            return self.ask(sent) if self.ask else (self.unknown, b"")
        it = known[min(times, len(known) - 1)]
        status = int(it["status"], 16)
        data = bytes.fromhex(it["received"])
        if status >> 8 in (0x61, 0x6C):
            return self.unknown, data + bytes(status & 0xFF or 256)
        return status, data

    def compare(self, sent: str, due: list[dict[str, Any]]) -> None:
        """Raises `Mistake` for a command that is not the next one of the session."""
        if [it["sent"] for it in due] != [sent]:
            has = "line {line} has {sent}".format(**due[0]) if due else "the session has ended"
            raise Mistake(f"{self.path}: {has}, not {sent}")

    def reset(self) -> None:
        if self.count:
            self.place += 1
        self.begin(self.place % len(self.sessions))

    def instead(self, command: bytes) -> Optional[bytes]:
        """Answers in place of the card, or returns None. It answers a GET RESPONSE of the capture,
        as after 9FXX of a SIM, data after a header without any there, and P3 00 after one with."""
        header = command[:4]
        p3 = command[4:5]
        after = command[5:]
        if header[1:2] == b"\xC0" and not after:
            is_odd = header.hex().upper() in self.sessions[self.place].by_bytes
        else:
            is_odd = self.takes_data(header) != bool(after) and (p3 == b"\0" or bool(after))
        if not is_odd:
            return None
        status, data = self.carry_out(Command(header, after[: sum(p3)], 0))
        return data[: sum(p3) or 256 * len(p3)] + status.to_bytes(2, "big")
