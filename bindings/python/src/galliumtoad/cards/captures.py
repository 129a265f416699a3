"""What `trace_explain` reads in a capture, as lines of JSON."""

import shutil
from pathlib import Path
from subprocess import run

from ..mistakes import mistakes


def explained(path: str) -> list[bytes]:
    """The lines of JSON for a capture, or those in a file. Raises `Mistake`."""
    with mistakes(path):
        text = Path(path).read_bytes().removeprefix(b"\xEF\xBB\xBF")
        if not text.startswith(b"{"):
            if not (name := shutil.which("trace_explain")):
                raise ValueError("trace_explain, which reads captures, is not on the PATH. It is in"
                                 " the repository's bindings/bin and Debian package galliumtoad")
            done = run([name, "--json", "--commands"], input=text, capture_output=True)
            if done.returncode:
                raise ValueError(done.stderr.decode("utf-8", "replace").strip())
            text = done.stdout
        return text.splitlines()
