"""A card with faults, for tests of terminals: at vpcd, at a serial line, or in this process."""

from .program import main as main
from .simulator import Simulator as Simulator
