"""Personalises cards: their `script`, the `journal` of each row, the `desk`, and the `report`."""

from .program import main as main
