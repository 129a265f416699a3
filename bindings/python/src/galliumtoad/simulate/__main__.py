"""Runs the program."""
from .program import main

raise SystemExit(main())
