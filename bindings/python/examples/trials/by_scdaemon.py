"""The job of `galliumtoad.trials` by GnuPG's scdaemon, which carries commands for its clients.

usage: by_scdaemon.py READER AID TAG VALUE"""

import re
import subprocess
import sys
import tempfile
from pathlib import Path

reader, aid, tag, value = sys.argv[1:]
pieces = [value[at : at + 510] for at in range(0, len(value), 510)]
commands = [f"00A40400{len(aid) // 2:02X}{aid}00"]
for at, it in enumerate(pieces, 1):
    commands.append(f"{'00' if at == len(pieces) else '10'}DA00{tag}{len(it) // 2:02X}{it}")
commands.append(f"00CA00{tag}00")
# SERIALNO connects to the card, and --more follows 61XX.
lines = ["SERIALNO undefined", *(f"APDU --more {it}" for it in commands), "BYE"]
with tempfile.TemporaryDirectory() as folder:
    Path(folder, "scdaemon.conf").write_text(f"disable-ccid\nreader-port {reader}\n")
    done = subprocess.run(
        ["/usr/lib/gnupg/scdaemon", "--homedir", folder, "--server"],
        input="".join(f"{it}\n" for it in lines).encode(), capture_output=True,
    )
answers, data = [], b""
for line in done.stdout.split(b"\n"):
    if line.startswith(b"D "):
        data += re.sub(rb"%([0-9A-F]{2})", lambda it: bytes([int(it[1], 16)]), line[2:])
    elif line.startswith((b"OK", b"ERR")):
        answers.append(data if line.startswith(b"OK") else b"")
        data = b""
answers = answers[-1 - len(commands) : -1]  # without those of the first and the last line
print(answers[-1][:-2].hex().upper() if answers else "")
if any(it[-2:] != b"\x90\x00" for it in answers) or len(answers) < len(commands):
    print(*[it[-2:].hex() for it in answers])
    sys.exit(1)
