"""Runs a program under callgrind, and reads the cost of each of its functions."""

import re
import subprocess
from collections import Counter
from pathlib import Path

# The C library chooses functions by the processor: this leaves those of any x86-64.
PLAIN = "glibc.cpu.hwcaps=-AVX512VL,-AVX512F,-AVX2,-AVX_Fast_Unaligned_Load,-ERMS,-FSRM"


class Names:
    """Callgrind writes a name once, with a number, and afterwards only the number."""

    def __init__(self):
        self.names = {}

    def of(self, word):
        number, _, name = re.fullmatch(r"(\(\d+\))( (.*))?", word).groups()
        return self.names.setdefault(number, name)


def costs(file):
    """The cost of each function itself, by its object's file name and its own name."""
    objects, functions, found = Names(), Names(), Counter()
    place = function = None
    is_call = False
    for line in Path(file).read_text(encoding="utf-8", errors="replace").splitlines():
        key, _, word = line.partition("=")
        if key == "ob":
            place = Path(objects.of(word)).name
        elif key == "fn":
            function = functions.of(word)
        elif key == "cob":
            objects.of(word)
        elif key == "cfn":
            functions.of(word)
        elif key == "calls":
            is_call = True
        elif re.match(r"[+\-*\d]\S* \d+$", line):
            # the line after `calls` is the cost of the called function
            if not is_call:
                found[(place, function)] += int(line.split()[1])
            is_call = False
    return found


def run(words, file, *options):
    subprocess.run(["valgrind", "--tool=callgrind", f"--callgrind-out-file={file}", *options,
                    *words], check=True, capture_output=True)


def of_all(words, folder):
    """The cost of a whole run."""
    file = Path(folder) / "callgrind.out"
    run(words, file)
    return costs(file)


def dumps(file):
    """The costs that a run has written, in their order."""
    file = Path(file)
    files = sorted(file.parent.glob(f"{file.name}.[0-9]*"), key=lambda it: int(it.suffix[1:]))
    return [costs(one) for one in files]


def of_marks(words, times, folder):
    """The cost of one operation, for each pair of calls of getppid, between which a program carries
    it out `times` times."""
    file = Path(folder) / "marks"
    run(words, file, "--dump-before=getppid")
    return [Counter({key: cost / times for key, cost in found.items()})
            for found in dumps(file)[1::2]]


def of_repeat(program, way, times, folder):
    """The cost of one operation, for each call of `repeat`, which carries it out `times` times."""
    file = Path(folder) / f"{Path(program).name}.{way}"
    run([program, way, str(times)], file, "--zero-before=repeat", "--dump-after=repeat")
    return [Counter({key: cost / times for key, cost in found.items()})
            for found in dumps(file) if any(function == "repeat" for _, function in found)]
