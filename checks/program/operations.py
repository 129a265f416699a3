"""Reads the rows of operations.txt, for the tests of the three programs that read operations."""

from pathlib import Path

FILE = Path(__file__).with_suffix(".txt")


def rows():
    """Yields each line, and what it comes to.

    That is all characters of the terminal in hexadecimal digits, or None if the row does not name
    them; and the reason if the line is refused, or None."""
    for row in FILE.read_text().splitlines():
        line, is_row, wanted = row.partition(" => ")
        if is_row:
            line, (word, *parts) = line.encode().decode("unicode_escape"), wanted.split()
            pairs = (it.partition("*") for it in parts)
            is_told, is_taken = word == "sends", word in ("sends", "taken")
            sent = "".join(byte * int(times or 1) for byte, _, times in pairs) if is_told else None
            yield line, sent, None if is_taken else wanted
