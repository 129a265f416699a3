"""Both ends of a smart card dialogue: a terminal that reads and writes the data objects of a card,
and a card that holds them, over a proved library.

- `Terminal` carries out `Select`, `Get`, `Put` and `Send` over any transport or line.
- `Card` holds data objects and answers a terminal; `Session` joins both in one program.
- `OwnCard` is a card of an `Application` of your own.
- `Exchange` is the terminal's end of one command.
- `T1` carries whole commands over a line at T=1.
- `objects` and `find` read BER-TLV; `Atr` reads an answer to reset, `Pps` asks for other values.

Bytes and numbers of a wrong type raise `TypeError`. What Python holds is not wiped: `bytes` can't
be. What the library holds is wiped when it is freed.
"""

from ._library import lib as _lib
from .answers import Answer, Atr, AtrT1, Edc, Object, Pps, Refused, Status, find, head, objects
from .card import Card, Character, Entry, Session
from .errors import AtrError, BlockError, BuildError, CallError, Code, CommandError, Error
from .errors import LineError, ObjectsError, OutOfMemory, Outcome, PpsError, TransportError
from .own_card import Application, Command, OwnCard
from .terminal import T1, Due, Exchange, Function, Get, Level, Operation, Put, Select, Send
from .terminal import Terminal, Transport

__version__ = ".".join(map(str, _lib.GT_VERSION.to_bytes(3, "big")))  # that of the header for C
__all__ = ["Answer", "Atr", "AtrError", "AtrT1", "BlockError", "BuildError", "CallError", "Card"]
__all__ += ["Character", "Code", "CommandError", "Due", "Edc", "Entry", "Error", "Exchange"]
__all__ += ["Function", "Get", "Level", "LineError", "Object", "ObjectsError", "Operation"]
__all__ += ["OutOfMemory", "Outcome", "Pps", "PpsError", "Put", "Refused", "Select", "Send"]
__all__ += ["Session", "Status", "T1", "Terminal", "Transport", "TransportError", "find", "head"]
__all__ += ["objects", "Application", "Command", "OwnCard"]
