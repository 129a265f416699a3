"""Cards for `galliumtoad.simulate`: of a table, of an application, of a program, of a capture."""

from .applications import application as application
from .applications import status_of as status_of
from .programs import Program as Program
from .replay import Replay as Replay
from .replay import typed as typed
from .tables import LEAST_ATR as LEAST_ATR
from .tables import read_table as read_table
