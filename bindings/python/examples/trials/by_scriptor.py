"""The job of `galliumtoad.trials` by scriptor, whose exit status says nothing of the card.

usage: by_scriptor.py READER PROTOCOL AID TAG VALUE"""

import re
import subprocess
import sys

reader, protocol, aid, tag, value = sys.argv[1:]
pieces = [value[at : at + 510] for at in range(0, len(value), 510)]
commands = [f"00A40400{len(aid) // 2:02X}{aid}00"]
for at, it in enumerate(pieces, 1):
    commands.append(f"{'00' if at == len(pieces) else '10'}DA00{tag}{len(it) // 2:02X}{it}")
# It carries single commands, so the job has the GET RESPONSE for an object of 604 bytes.
commands += [f"00CA00{tag}00", "00C0000000", "00C000005C"]
statuses = ["9000"] * (1 + len(pieces)) + ["6100", "615C", "9000"]
text = "".join(" ".join(re.findall("..", it)) + "\n" for it in commands)
words = ["scriptor", "-r", reader, "-p", f"T={protocol}"]
done = subprocess.run(words, input=text, capture_output=True, text=True)
answers = [re.sub(r"\s", "", it) for it in re.findall(r"^< ([0-9A-F\s]+) :", done.stdout, re.M)]
print("".join(it[:-4] for it in answers[-3:]))
if [it[-4:] for it in answers] != statuses:
    print(*[it[-4:] for it in answers], *done.stderr.splitlines()[-1:])
    sys.exit(1)
