"""A card of an application of one's own, in Python."""

import contextlib
import pkgutil
import re
import sys
from typing import Any

from .. import Application, Command, Error
from ..mistakes import Mistake, mistakes

STATUS = "(?:9[0-9A-F]|6[2-9ABD-F])[0-9A-F]{2}"  # of an application
MOST = 4096  # bytes of a response


def status_of(digits: str) -> int:
    """Reads a status that an application may have. Raises `ValueError`."""
    return int(digits if re.fullmatch(STATUS, digits, re.I) else "", 16)


def application(name: str) -> Application:
    """Makes an object of MODULE:CLASS. Raises `Mistake`, also later, for its errors and results."""
    if not re.fullmatch(".+:.+", name):
        raise Mistake(f"{name} is not MODULE:CLASS")
    if sys.path[:1] != [""]:
        sys.path.insert(0, "")  # the folder of the program's user
    with mistakes(name):
        made = pkgutil.resolve_name(name)()
    if not isinstance(made, Application):
        raise Mistake(f"{name} is no Application")
    for it in ("takes_data", "carry_out", "settle", "reset"):
        setattr(made, it, mistakes(f"{name}.{it}", OSError, Error)(getattr(made, it)))
    setattr(made, "carry_out", with_checks(name, made.carry_out))
    return made


def with_checks(name: str, own: Any) -> Any:
    """The method `carry_out` of an application, whose results are looked at."""
    def carry_out(command: Command) -> tuple[int, bytes]:
        given = own(command)
        with contextlib.suppress(TypeError, ValueError):
            status, data = given
            kept = bytes(memoryview(data))
            if len(kept) <= MOST:
                return status_of(f"{status:04X}"), kept
        raise Mistake(f"{name}.carry_out returned {given!r:.100}, not a status and up to {MOST}"
                      " bytes of data")

    return carry_out
