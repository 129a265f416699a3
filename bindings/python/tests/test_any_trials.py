"""Tests that terminals without a mistake pass all trials of their job."""

import pytest
from test_bad_jobs import programs, tried  # noqa: F401

# What the output of a good terminal shows: a team looks at it once, and then expects it.
CHANGED = {
    "safe": [],
    "chain": [],
    "store": [],
    "purse": ["command 2 forget", "command 2 twice", "command 3 wrong tag"],
}


@pytest.mark.parametrize("job", CHANGED)
def test_a_good_terminal(tmp_path, monkeypatch, job):
    monkeypatch.setenv("PATIENCE", "6")  # more than the delay of 4 seconds
    status, found = tried(tmp_path, job, "")
    assert [name for name, verdict in found.items() if verdict == "changed"] == CHANGED[job]
    assert set(found.values()) <= {"right", "told", "passed", "changed"} and len(found) > 40
    assert status == bool(CHANGED[job])
