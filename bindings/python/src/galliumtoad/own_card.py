"""`OwnCard`, a card of an `Application` of your own."""

from abc import ABC, abstractmethod
from typing import Callable, NamedTuple

from ._library import ffi, lib
from .errors import checked
from .handle import Bytes, Planned, copied, readable, within, writable


class Command(NamedTuple):
    """A command that reached an `OwnCard`, as T=0 shows it: with data, or with Le and without data.

    `header` is CLA, INS, P1 and P2. If the application takes data, `data` are 0 to 255 bytes, and
    `le` is 0. If not, `le` is 1 to 256. Its `repr` hides the data.
    """

    header: bytes
    data: bytes
    le: int

    def __repr__(self) -> str:
        return f"Command({self.header.hex()}, <{len(self.data)} bytes>, le={self.le})"


class Application(ABC):
    """What a card of your own does, see `OwnCard`."""

    @abstractmethod
    def takes_data(self, header: bytes) -> bool:
        """Whether data of the terminal follow this header, CLA to P2: at T=0 it does not say
        (ISO/IEC 7816-3, 10.3.1). If not, data may come from the card."""

    @abstractmethod
    def carry_out(self, command: Command) -> tuple[int, Bytes]:
        """Carries out a command, once, and returns its status and up to 4,096 bytes of data. The
        status is 6XXX or 9XXX, but not 60XX, nor 61XX or 6CXX, which are the card's own.

        Of more than the terminal asks for the card keeps the rest for GET RESPONSE, until another
        command or a reset, and the status follows the last byte. Of fewer, but not none, a TPDU
        first gets the number, as 6CXX."""

    def more_time(self, command: Command) -> int:
        """How many times BWT, 1 to 255, the terminal waits at least before this is asked again, at
        T=0 WWT for any number. 0, the default, if `carry_out` may begin.

        Each other number sends one NULL (60) at T=0, and S(WTX request) at T=1. So begin the work
        at the first call, and wait in each for less time than the terminal does. A terminal at T=1
        may drop the command meanwhile, and send another: compare it. A whole TPDU or command needs
        no more time, and comes to `carry_out` alone."""
        return 0

    def settle(self) -> None:
        """The last command takes effect, with SW2 of its TPDU, also if that is 61XX or 6CXX. A
        whole command takes effect when it is carried out."""

    def reset(self) -> None:
        """The card is reset. A command that has not settled is dropped: undo it."""


class OwnCard(Planned):
    """A card of an `Application` of your own: you write what a command does. It goes over T=0, by
    characters, as whole TPDUs and as whole commands, and over T=1. A command is carried out at most
    once, by `send_bytes`, `tpdu`, `apdu` or `block`. The card itself answers GET RESPONSE, the same
    header with the P3 that 6CXX names, and INS 6X and 9X. `apdu` raises `CommandError` for these,
    if the lengths fit.

    An exception once the application is asked resets the card and the application, and is raised
    again: one of its own, OutOfMemory, or for what no application may return `CallError`,
    GT_ARGUMENT, `ValueError` or `TypeError`.

    >>> from galliumtoad import Application, OwnCard
    >>> class Hello(Application):
    ...     def takes_data(self, header):
    ...         return False
    ...     def carry_out(self, command):
    ...         return 0x9000, b"HELLO"
    >>> with OwnCard(Hello()) as card:
    ...     taken = card.receive_bytes(bytes.fromhex("8010000005"))
    ...     card.send_bytes().hex(), card.apdu(bytes.fromhex("8010000005")).hex()
    ('1048454c4c4f9000', '48454c4c4f9000')
    """

    def __init__(self, application: Application) -> None:
        self.application, self._is_settled = application, True
        super().__init__("card", ("own", ffi.NULL))

    def reset(self) -> None:
        """Resets the card, and then the application. The card drops the TPDU, command or block in
        progress, and a response that waits. It listens for a header at T=0, also after `begin_t1`.
        Plans that wait stay."""
        with self._alone():
            self._reset()

    def _reset(self) -> None:
        checked(lib.gt_card_reset(self._handle))
        self.application.reset()

    def receive_bytes(self, data: Bytes) -> int:
        """Takes characters of the terminal, as that of `Card`. It carries nothing out."""
        taken = ffi.new("size_t *")
        self._call("receive_bytes", *readable(data), taken, but=[lib.GT_NOT_LISTENING])
        return int(taken[0])

    def send_bytes(self, room: int = 1024) -> bytes:
        """Returns the card's next characters, as that of `Card`, but with no limit beside `room`.
        It carries a command out when all its data have arrived, if `room` is not 0. A NULL comes
        alone, if the application needs more time. Errors as `OwnCard` says."""
        (made, count), copies = writable(within(room, 0, 1 << 30, "the room")), b""

        def send(*_: object) -> int:
            nonlocal copies
            code = lib.gt_card_send_bytes(self._handle, made, room - len(copies), count)
            copies += copied(made, count) if code >= 0 else b""
            return int(code)

        self._run(send)
        return copies

    def tpdu(self, tpdu: Bytes) -> bytes:
        """Carries out a whole TPDU under the next plan, as that of `Card`. With GT_WANTS_DATA and
        GT_SENDS_DATA the application is reset too. Other errors as `OwnCard` says."""
        return self._whole(lib.gt_card_tpdu, tpdu)

    def apdu(self, command: Bytes) -> bytes:
        """Carries out a whole command, which then settles. Returns at most Le bytes, none without
        Le, and SW1 SW2; 61XX announces the rest.

        The card answers 6700 to four bytes or more whose lengths fit no case of a command, to data
        where the application takes none, and to Le without data where it takes some. GET RESPONSE
        fetches, with any Le.

        Errors, beside the exceptions that `OwnCard` names: as of `Card`.
        """
        return self._whole(lib.gt_card_apdu, command)

    def begin_t1(self) -> None:
        """Lets the card speak T=1 until the next reset, also one by an exception. Until then
        `receive_bytes`, `send_bytes`, `tpdu`, `apdu` and `plan` raise `CallError`, GT_STATE: use
        `block`. So does this if the card speaks T=1 already, or if a TPDU is in progress. It raises
        `OutOfMemory` if memory for a command and a response ran out; nothing has changed."""
        self._call("t1_begin")

    def block(self, came: Bytes) -> bytes:
        """Takes a block of a terminal at T=1, and returns the card's. A block that is not whole
        counts as one that stopped, and b"" as one that was lost: the card asks for it again. Bytes
        after its end are dropped. The block is S(WTX request) if the application needs more time.

        Errors, beside the exceptions that `OwnCard` names:
        - CallError, GT_STATE: the card speaks T=0; nothing has changed.
        - OutOfMemory, before the application is asked: there is no answer, as if the block had been
          lost. The terminal asks.
        """
        if self._call("t1_receive_bytes", *readable(came), ffi.new("size_t *")) != lib.GT_SENDS:
            self._call("t1_missed")
        sent, count = writable(room := lib.GT_BLOCK_LIMIT)
        self._run(lambda *_: lib.gt_card_t1_send_bytes(self._handle, sent, room, count))
        return copied(sent, count)

    def _whole(self, call: Callable[..., int], data: Bytes) -> bytes:
        answer, count = writable(room := lib.GT_ANSWER_LIMIT)
        self._run(lambda *sent: call(self._handle, *sent, answer, room, count), data, False)
        return copied(answer, count)

    def _run(self, call: Callable[..., int], data: Bytes = b"", can_wait: bool = True) -> None:
        """Makes a call with these bytes, and again without bytes until nothing waits for the
        application, which then settles, or until that needs more time, if it `can_wait`."""
        with self._alone():
            code = call(*readable(data))
            if code in (lib.GT_WANTS_DATA, lib.GT_SENDS_DATA):
                self.application.reset()
            checked(code)
            try:
                while code in (lib.GT_HEADER, lib.GT_COMMAND):
                    self._ask(code, can_wait)
                    checked(code := call(*readable(b"")))
                if not self._is_settled and lib.gt_card_settled(self._handle) == 1:
                    self._is_settled = True
                    self.application.settle()
            except BaseException:
                self._reset()
                raise

    def _ask(self, code: int, can_wait: bool) -> None:
        """Asks the application about the header or the command that waits."""
        waits = ffi.new("gt_command *")
        checked(lib.gt_card_command(self._handle, waits))
        header = bytes((waits.cla, waits.ins, waits.p1, waits.p2))
        if code == lib.GT_HEADER:
            to_card = bool(self.application.takes_data(header))
            checked(lib.gt_card_direction(self._handle, to_card))
            return
        command = Command(header, bytes(waits.data[0 : waits.size]), waits.le)
        multiple = self.application.more_time(command) if can_wait else 0
        if within(multiple, 0, 255, "a multiple of BWT"):
            checked(lib.gt_card_more_time(self._handle, multiple))
            return
        status, data = self.application.carry_out(command)
        word = within(status, 0, 0xFFFF, "a status")
        checked(lib.gt_card_respond(self._handle, *readable(data), word))
        self._is_settled = False
