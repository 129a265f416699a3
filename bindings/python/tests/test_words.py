"""The words of statuses: those of the one table, in each way that the package shows them."""

import re
from pathlib import Path

import galliumtoad
from galliumtoad import Status

CASES = Path(__file__).resolve().parents[3] / "checks" / "explain" / "statuses.txt"
ROWS = [it.split(" ", 2) for it in CASES.read_text().splitlines() if it and it[0] != "#"]
PACKAGE = Path(galliumtoad.__file__).resolve().parent


def test_a_status_has_the_words_that_a_trace_has():
    """The cases are those of `trace_explain`, from the standard's tables."""
    assert len(ROWS) > 150
    for header, number, words in ROWS:
        cla, ins = bytes.fromhex(header)[:2]
        status = Status(int(number, 16))
        assert status.words(cla, ins) == words, (header, number)
        assert status.text == status.words(0x00, 0x00)


def test_the_package_has_no_words_of_its_own():
    """No module repeats a meaning of the table."""
    known = {words for _, _, words in ROWS}
    for file in PACKAGE.rglob("*.py"):
        shown = re.sub(r'"""(?s:.*?)"""', "", file.read_text())
        assert not [it for it in known if it in shown], file.name
