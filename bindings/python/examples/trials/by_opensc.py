"""The job of `galliumtoad.trials` by opensc-tool, whose exit status says nothing of the card.

usage: by_opensc.py READER AID TAG VALUE"""

import re
import subprocess
import sys

reader, aid, tag, value = sys.argv[1:]
pieces = [value[at : at + 510] for at in range(0, len(value), 510)]
commands = [f"00A40400{len(aid) // 2:02X}{aid}00"]
for at, it in enumerate(pieces, 1):
    commands.append(f"{'00' if at == len(pieces) else '10'}DA00{tag}{len(it) // 2:02X}{it}")
commands.append(f"00CA00{tag}00")
words = ["opensc-tool", "--reader", reader, "--card-driver", "default"]
words += [it for command in commands for it in ("-s", re.sub("(..)(?=.)", r"\1:", command))]
done = subprocess.run(words, capture_output=True, text=True)
answers = done.stdout.split("Sending: ")[1:]
last = re.findall(r"^((?:[0-9A-F]{2} ){1,16})", answers[-1] if answers else "", re.M)
print("".join(last).replace(" ", ""))
is_well = [re.search(r"Received \(SW1=0x90, SW2=0x00\)", it) for it in answers]
if done.returncode or len(answers) < len(commands) or not all(is_well):
    print(*re.findall(r"SW1=0x[^9].*?, SW2=0x..|failed.*", done.stdout + done.stderr)[:1])
    sys.exit(1)
