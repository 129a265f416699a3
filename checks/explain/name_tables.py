"""Compares the tables of crates/trace_explain/names/ with src/tables.rt, which holds their text.
`name_tables.py --write` renews that file. Without it each table prints a line `passed`, or what is
wrong."""

import sys
from pathlib import Path

CRATE = Path(__file__).resolve().parents[2] / "crates/trace_explain"
TABLES = ("tags", "aids", "bits")
HELD = CRATE / "src/tables.rt"
HEAD = (
    "//! The tables of the folder `names/`. "
    "`checks/explain/name_tables.py --write` copies them.\n"
)


def literal(name):
    """A table as a constant."""
    text = (CRATE / f"names/{name}.txt").read_text(encoding="ascii")
    assert not set(text) & set('"\\'), name
    return f'\n/// The table `names/{name}.txt`.\npub const {name.upper()}: &str = "\\\n{text}";\n'


def main(words):
    held = HELD.read_text(encoding="ascii") if HELD.exists() else ""
    if words == ["--write"]:
        HELD.write_text(HEAD + "".join(map(literal, TABLES)), encoding="ascii")
        return
    for name in TABLES:
        print("passed" if literal(name) in held else f"src/tables.rt is not names/{name}.txt")


main(sys.argv[1:])
