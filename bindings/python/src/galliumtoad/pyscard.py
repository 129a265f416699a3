"""Makes a pyscard connection a transport of a terminal."""

from typing import Any

from .terminal import Level

# SCARD_PROTOCOL_T1 of PC/SC, and of pyscard's CardConnection.
_T1 = 2


class transport:
    """Carries whole commands at T=1, and else whole TPDUs, over an open pyscard connection.

    The protocol is that of the connection when this is made. A call raises what pyscard raises.

    >>> from galliumtoad import Card, Select, Terminal
    >>> from galliumtoad.pyscard import transport
    >>> class Connection:
    ...     card = Card({bytes.fromhex("A0000000031010"): {}})
    ...     def getProtocol(self):
    ...         return 1
    ...     def transmit(self, sent):
    ...         answer = list(self.card.tpdu(bytes(sent)))
    ...         return answer[:-2], answer[-2], answer[-1]
    >>> with Terminal() as terminal:
    ...     terminal.run(transport(Connection()), Select(bytes.fromhex("A0000000031010"))).status
    Status(0x9000)
    """

    def __init__(self, connection: Any) -> None:
        self.connection = connection
        self.level = Level.APDU if connection.getProtocol() == _T1 else Level.TPDU

    def __call__(self, data: bytes, /) -> bytes:
        answer, sw1, sw2 = self.connection.transmit(list(data))
        return bytes([*answer, sw1, sw2])
