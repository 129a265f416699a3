"""The card's end of a line at T=1 (ISO/IEC 7816-3, clause 11)."""

from .. import Application, Command, Level, OwnCard
from ..edits import block
from ..faults import ASKS, BLOCKS, BYTES, REQUESTS
from .line import Line

RESYNCH, IFS, ABORT, WTX, RESPONSE = 0xC0, 0xC1, 0xC2, 0xC3, 0x20  # of the PCB of S-blocks
IS_PART, NUMBER = 0x20, 0x40  # of the PCB of I-blocks: the more-data bit, and N(S)
R_BLOCK, NUMBER_ASKED = 0x80, 0x10  # of the PCB of R-blocks, and N(R)
FIELD = 254  # the most bytes of a block
TIMES = 4  # how often it sends a request


def take_block(line: Line) -> bytes:
    """Takes a block, or as much of it as comes."""
    return line.take(lambda it: it[2] + 4 if it[2:] else 4, line.cwt)


def request(line: Line, sent: bytes, times: float) -> bool:
    """Sends a request of the card, at most this number of times, until the terminal responds or
    drops the command by a request of its own, which is then `ahead`. Returns whether it has
    responded."""
    while times > 0 and not line.ahead:
        times -= 1
        line.send_echo()
        line.write(sent)
        came = take_block(line)
        if came == block(0, sent[1] | RESPONSE, sent[3:-1]):
            return True
        drops = came in (block(0, RESYNCH, b""), block(0, ABORT, b""))
        line.ahead = came if drops else b""
    return False


class Placeholder(Application):
    """What the library's end carries out: a command of no meaning, with a response as long as the
    card's."""

    def __init__(self, end: "T1") -> None:
        self.end = end

    def takes_data(self, header: bytes) -> bool:
        return False

    def more_time(self, command: Command) -> int:
        """The true command is carried out here. If the terminal drops it meanwhile, the library's
        end has to drop it too, as it does if it has asked for time."""
        self.end.carry_out()
        return 1 if self.end.line.ahead else 0

    def carry_out(self, command: Command) -> tuple[int, bytes]:
        return 0x9000, bytes(min(len(self.end.response), FIELD + 4) - 2)


class T1:
    """Takes blocks, and answers them with the faults that strike. The library's end numbers,
    acknowledges and repeats blocks. In place of a command it gets one of its own, with a response
    as long as the card's, which replaces it. The last block has what exceeds the response to a
    short command."""

    def __init__(self, line: Line) -> None:
        self.line = line
        self.faults = line.faults
        self.command = b""  # the parts that it has acknowledged
        self.part = b""  # of the block that it has taken
        self.response = b""  # what is left of it
        self.last = b""  # its last I-block
        self.number = -1  # N(S) of the terminal's last I-block
        self.ifsc = line.says.t1.ifsc  # the longest field that fits

    def run(self) -> None:
        """Talks until the card is reset or gone."""
        self.line.of.level = Level.APDU
        end = OwnCard(Placeholder(self))
        end.begin_t1()
        while True:
            self.turn(end, take_block(self.line))

    def turn(self, end: OwnCard, came: bytes) -> None:
        """Takes a block, and sends the card's."""
        if came[2:3] > bytes([self.ifsc]):
            came = b""  # the card has no room for it
        self.part = came[3:-1][:FIELD]
        is_part = self.is_block(came, IS_PART)
        is_last = self.is_block(came, 0)
        self.begin_block(came, is_part or is_last)
        if (is_part or is_last) and (asks := self.faults.edited_at_once(b"", ASKS)):
            self.line.send(block(0, asks[0] | came[1] >> 2 & NUMBER_ASKED, b""))
            return
        sent = end.block(self.replaced(end, came) if is_last else came)
        if self.line.ahead:
            return  # the terminal has dropped the command
        if is_part and sent[1] & ~NUMBER_ASKED == R_BLOCK:
            self.command += self.part
        sent = self.after_requests(end, self.with_response(sent))
        if not self.line.ahead:
            self.line.send(self.of_block(sent))

    def is_block(self, came: bytes, more: int) -> bool:
        """Whether this is an I-block, whose more-data bit is this."""
        if came[1:2] not in (bytes([more]), bytes([NUMBER | more])):
            return False
        return came == block(0, came[1], self.part)

    def begin_block(self, came: bytes, is_command: bool) -> None:
        """Chooses the faults of the card's next block."""
        is_new = is_command and came[1] & NUMBER != self.number and not self.command
        self.faults.begin_block(self.part if is_new else None)
        if is_command:
            self.number = came[1] & NUMBER

    def replaced(self, end: OwnCard, came: bytes) -> bytes:
        """What the library's end gets in place of the last part of a command."""
        if self.command:
            end.block(block(0, ABORT, b""))
        return block(0, came[1], bytes(5))

    def carry_out(self) -> None:
        """Carries the command out, and sends the requests that come before its response."""
        self.response = self.line.of.whole(self.command + self.part)
        self.command = b""
        self.last = b""
        for it in self.faults.edited([], *REQUESTS):
            self.ask(it)

    def ask(self, sent: bytes) -> None:
        """Sends a request. A response to S(IFS request) sets what fits into a block."""
        if request(self.line, sent, TIMES) and sent[1] == IFS:
            self.ifsc = sent[3]

    def with_response(self, sent: bytes) -> bytes:
        """The card's block in place of that of the library's end. The first one of a response has
        the faults of its command."""
        if sent[1] in (ABORT | RESPONSE, RESYNCH | RESPONSE):
            self.command = b""
            self.number = -1
        if sent[1] >= R_BLOCK:
            return sent
        if sent[1:2] == self.last[1:2]:
            return self.last  # the same block again
        is_first = not self.last
        size = sent[2] if sent[1] & IS_PART else FIELD
        self.last = block(0, sent[1], self.response[:size])
        self.response = self.response[size:]
        return self.of_command(self.last) if is_first else self.last

    def after_requests(self, end: OwnCard, sent: bytes) -> bytes:
        """The block that follows the requests before this block."""
        for it in self.faults.edited_at_once([], *REQUESTS):
            self.ask(it)
            if it[1] == ABORT:
                end.block(block(0, ABORT, b""))
                self.command = self.response = b""
                sent = block(0, R_BLOCK | (self.number ^ NUMBER) >> 2, b"")
        return sent

    def of_command(self, sent: bytes) -> bytes:
        """A block with the faults of its command."""
        return bytes(self.faults.edited(sent, *BLOCKS, *BYTES))

    def of_block(self, sent: bytes) -> bytes:
        """A block with the faults of this block alone."""
        return bytes(self.faults.edited_at_once(sent, *BLOCKS, *BYTES))
