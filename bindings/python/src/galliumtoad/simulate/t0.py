"""The card's end of a line at T=0 (ISO/IEC 7816-3, clause 10)."""

from .. import Level
from ..edits import ALL_BITS, NULL, flipped
from ..faults import ALONE, BYTES, FIRST, LAST
from .line import HEADER, OF_DATA, Line


class T0:
    """Takes TPDUs, and answers them with the faults that strike."""

    def __init__(self, line: Line) -> None:
        self.line = line
        self.faults = line.faults
        self.header = b""
        self.begun = b""  # what the card has sent in this TPDU before its end
        self.has_nulls = False  # whether NULL comes before each procedure byte

    def run(self) -> None:
        """Talks until the card is reset or gone."""
        self.line.of.level = Level.TPDU
        while True:
            self.tpdu()

    def tpdu(self) -> None:
        """Takes a TPDU, and answers it."""
        line = self.line
        line.echo = HEADER
        self.has_nulls = False
        self.header = line.take(lambda it: 5)
        self.begun = b""
        answer = line.of.whole(self.header, self.more)
        answer = self.before() + answer
        if len(answer) > 2 and line.of.came == self.header:
            answer = self.header[1:2] + answer  # data of the card follow a procedure byte
        sent = self.faults.edited(self.begun + answer, *ALONE, *FIRST, *BYTES, *LAST)
        line.send(sent, len(self.begun))

    def more(self) -> bytes:
        """Takes the data of a TPDU, after a procedure byte, or some of them alone."""
        size = self.header[4]
        data = b""
        for _ in range(self.count_alone(size)):
            self.line.send(self.before() + flipped(self.header[1:2], *ALL_BITS))
            data += self.take(1)
        if len(data) == size:
            return data
        self.begun = self.faults.edited(self.header[1:2], *FIRST, *BYTES)
        self.line.send(self.begun)
        return data + self.take(size - len(data))

    def count_alone(self, size: int) -> int:
        """How many bytes of data come alone. A single one comes after INS anyhow."""
        if size < 2:
            return 0
        count = int(self.faults.edited(0, *ALONE))
        self.has_nulls = count < 0
        return size if count < 0 else min(count, size)

    def before(self) -> bytes:
        """What comes before a procedure byte for one byte, and before the status then."""
        return NULL if self.has_nulls else b""

    def take(self, size: int) -> bytes:
        """Takes data of the terminal."""
        self.line.echo = OF_DATA
        return self.line.take(lambda it: size)
