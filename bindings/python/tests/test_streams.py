"""Tests how the programs end if a standard stream is closed, full, or a pipe that nobody reads."""

import os
import subprocess
import sys
from pathlib import Path

import pytest
from room import with_standin

PROGRAMS = ["galliumtoad", *(f"galliumtoad.{it}" for it in ("batch", "simulate", "trials"))]


def run(redirected, *words, **more):
    """Runs a program with a redirection of the shell. Returns its status and both outputs."""
    done = subprocess.run(
        ["sh", "-c", f'exec "$@" {redirected}', "sh", sys.executable, "-m", *words], text=True,
        env=with_standin(PYTHONUNBUFFERED=""), timeout=100,
        **{"stdout": subprocess.PIPE, "stderr": subprocess.PIPE, **more})
    return done.returncode, done.stdout, done.stderr


@pytest.mark.parametrize("program", PROGRAMS)
def test_a_help_on_a_full_disk(program):
    status, _, error = run(">/dev/full", program, "--help")
    assert status == 2 and "Exception" not in error and "Traceback" not in error


REFUSED = [*((it, "--nope") for it in PROGRAMS),
           ("galliumtoad.simulate", "--table", "/none", "--pty")]


@pytest.mark.parametrize("words", REFUSED)
@pytest.mark.parametrize("redirected", ["2>&-", "2>/dev/full", ">/dev/full 2>&1", ">&- 2>&- <&-"])
def test_words_that_are_refused_without_a_stream_for_it(words, redirected):
    assert run(redirected, *words) == (2, "", "")


JOB = [sys.executable, str(Path(__file__).with_name("planted.py"))]
JOB += ["{tty}", "{aid}", "{tag}", "{value}", ""]


@pytest.mark.parametrize("words", [["--list"], ["--only", "refused", "--", *JOB]])
def test_a_pipe_that_nobody_reads(words):
    ours, theirs = os.pipe()
    os.close(ours)
    status, _, error = run("", "galliumtoad.trials", *words, stdout=theirs)
    os.close(theirs)
    assert status == 2 and error.count("\n") == 1 and error.startswith("[Errno ")
