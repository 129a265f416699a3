"""Gives mypy a program as a caller writes it, and the examples."""

import os
import re
import subprocess
import sys
from pathlib import Path

import galliumtoad
import pytest

TESTS = Path(__file__).resolve().parent
EXAMPLES = sorted((TESTS.parent / "examples").glob("*.py"))


@pytest.fixture(scope="module")
def checked(tmp_path_factory):
    """A function that returns what mypy says, in strict mode, of files with these words."""
    folder = tmp_path_factory.mktemp("mypy")
    package = Path(galliumtoad.__file__).resolve().parent.parent
    # mypy finds the installed package by itself.
    paths = {} if package.name.endswith("-packages") else {"MYPYPATH": str(package)}
    command = [sys.executable, "-m", "mypy", "--strict", "--follow-imports=silent"]
    more = {"capture_output": True, "text": True, "cwd": folder, "env": {**os.environ, **paths}}

    def run(*words):
        return subprocess.run([*command, "--config-file=", *map(str, words)], **more).stdout

    return run


def test_a_program_of_a_caller(checked):
    """Nothing that it gets from the package is of the type Any."""
    assert "Success" in checked("--disallow-any-expr", TESTS / "user.py")


def test_each_wrong_line_is_an_error(checked, tmp_path):
    lines = (TESTS / "user.py").read_text().splitlines()
    wrong = tmp_path / "wrong.py"
    wrong.write_text("\n".join(it.split("  # type: ignore")[0] for it in lines))
    found = re.findall(r"wrong\.py:(\d+): error", checked(wrong))
    wanted = [number for number, it in enumerate(lines, 1) if "# type: ignore" in it]
    assert sorted({int(it) for it in found}) == wanted and len(wanted) > 10


def test_the_examples(checked):
    assert len(EXAMPLES) > 3
    assert "Success" in checked("--ignore-missing-imports", *EXAMPLES)
