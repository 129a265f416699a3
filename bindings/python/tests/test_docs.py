"""Tests the examples in the docstrings of the package and in its README, and its size."""

import ast
import doctest
import importlib
import io
import pkgutil
import subprocess
import sys
import tokenize
from pathlib import Path

import galliumtoad
import pytest
from galliumtoad import cards, simulate, trials
from room import Room, main_of

MODULES = [it.name for it in pkgutil.iter_modules(galliumtoad.__path__)
           if it.name[0] != "_" and not it.ispkg]
PARTS = [f"{part.__name__[12:]}.{it.name}" for part in (cards, simulate, trials)
         for it in pkgutil.iter_modules(part.__path__) if it.name[0] != "_"]
# Modules that no caller needs to know.
WITHOUT = ("handle", "waits")
TOP = Path(__file__).resolve().parent.parent
EXAMPLES = TOP / "examples"


@pytest.mark.parametrize("name", [*MODULES, *PARTS])
def test_examples_of_a_module(name):
    result = doctest.testmod(importlib.import_module(f"galliumtoad.{name}"))
    assert result.failed == 0
    assert result.attempted > 0 or name in (*WITHOUT, *PARTS)


@pytest.mark.parametrize(
    "name",
    "Answer Atr Card Error Exchange OwnCard Pps Session Status T1 Terminal find head "
    "objects".split(),
)
def test_has_an_example(name):
    assert ">>> " in getattr(galliumtoad, name).__doc__


def run(name, **more):
    """The lines that an example prints."""
    program = [sys.executable, str(EXAMPLES / name)]
    done = subprocess.run(program, capture_output=True, text=True, check=True, **more)
    return done.stdout.splitlines()


def test_a_terminal_and_a_card_in_memory():
    assert run("terminal.py") == [f"9000 normal processing {shown}" for shown in ("", "", "b'ANN'")]


def test_cards_of_your_own():
    assert run("counter.py") == ["10019000", "10029000"]
    assert run("slow.py") == ["10029000 {b'`'}"]
    refused, right = "security status not satisfied", "normal processing"
    assert run("pin.py") == [refused, "a warning: 2 tries are left", right, "b''", "b'JOE'"]


def test_a_card_in_a_reader(tmp_path):
    room = Room(tmp_path, 0)
    assert run("reader.py", env=room.environment) == ["normal processing", "", ""]
    [stored] = room.held().values()
    assert (stored["80"], stored["24352"]) == (b"VISA".hex(), b"DOE/JOHN".hex())


def test_a_batch(tmp_path):
    words = [EXAMPLES / "people.script", "--check", "--new", "--rows", EXAMPLES / "people.csv"]
    words += ["--journal", tmp_path / "journal"]
    assert main_of(Room(tmp_path, 0), [*map(str, words)]) == (0, "3 rows, and no mistake\n", "")


def code(file):
    """The numbers of the lines of code: without blank lines, comments and docstrings."""
    text, found = file.read_text(), set()
    for it in tokenize.generate_tokens(io.StringIO(text).readline):
        if it.string.strip() and it.type != tokenize.COMMENT:
            found.update(range(it.start[0], it.end[0] + 1))
    for it in ast.walk(ast.parse(text)):
        if isinstance(it, (ast.Module, ast.ClassDef, ast.FunctionDef)) and ast.get_docstring(it):
            found.difference_update(range(it.body[0].lineno, it.body[0].end_lineno + 1))
    return found


# What simulates cards.
SIMULATION = ("edits.py", "faults.py", "mistakes.py", "waits.py", "cards/*.py", "simulate/*.py")


def test_the_package_stays_small():
    """Its files, without tests, examples, the batch, the simulation and the look of pages."""
    files = [*TOP.glob("*.py"), *TOP.glob("src/galliumtoad/*.py")]
    files = [it for it in files if it.name not in (*SIMULATION, "pages.py")]
    assert 300 < sum(len(code(it)) for it in files) <= 660


@pytest.mark.parametrize(("names", "most"), [(SIMULATION, 2500), (["batch/*.py"], 2680),
                                             (["trials/*.py"], 2100)])
def test_programs_stay_small(names, most):
    """Each function has fewer than 40 lines."""
    files = [it for name in names for it in TOP.glob(f"src/galliumtoad/{name}")]
    assert 800 < sum(len(it.read_text().splitlines()) for it in files) <= most
    for file in files:
        for it in ast.walk(ast.parse(file.read_text())):
            if isinstance(it, ast.FunctionDef):
                assert it.end_lineno - it.lineno + 1 < 40, f"{file}: {it.name}"
