"""Runs a built `trace_explain` on the tables of this folder. `tables.py PROGRAM` prints a line
`passed`, or what is wrong, for each case."""

import sys
from pathlib import Path

sys.dont_write_bytecode = True
sys.path.insert(0, str(Path(__file__).resolve().parent))
from cases import refusal, some, tables  # noqa: E402

# The parts whose rows count.
COUNTED = ("titles", "statuses")

for case in some(tables()):
    said = refusal(sys.argv[1], case)
    passed = len(case.wanted) if case.part in COUNTED else 1
    print(*([said] if said else ["passed"] * passed), sep="\n")
