"""Tries a terminal with cards that misbehave, by a fixed job or by any job, and judges it."""

from .program import main as main
