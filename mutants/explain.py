"""Tries the faults of explain.faults, for `try`: for each fault, a case of checks/explain must get
another output, or none. No proof covers the words of trace_explain, so its cases must.

`rt try` builds one program without proofs for many faults, and the program copies itself, since
`rt try` keeps none. Its module m0 is trace_explain. A function with faults has its body once more
for each, and a function in C says which body runs: that of the number in FAULT. For a fault outside
of bodies there is one more module, with copies of the files that use the faulty one. Without a
fault each case must pass, and notes which bodies it reaches. Only these cases try a fault in a
body."""

import itertools
import os
import random
import re
import subprocess
import sys
import tempfile
from concurrent.futures import ThreadPoolExecutor
from pathlib import Path

sys.dont_write_bytecode = True
TOP = Path(__file__).resolve().parent.parent
sys.path.insert(0, str(TOP / "checks/explain"))
from cases import all_cases, refusal  # noqa: E402
from refusals import enclosing  # noqa: E402

BELOW = ("apdu_core", "tlv_core", "t0_core", "t1_core", "atr_core")
SOURCE = TOP / "crates" / "trace_explain" / "src"
FOLDERS = ("read", "follow", "describe", "write")
# A copy is one flat module.
PATH = re.compile(rf"\b(?:crate::(?:(?:{'|'.join(FOLDERS)})::)?|(?<=use )(?=main_status::))(\w+)")
# The most faults in one program, and the most bytes of its copies of files.
FAULTS = 150
COPIED = 3_000_000
# The most seconds of a case with a fault.
SECONDS = 120
DECLARED = re.compile(r"^ *(?:ghost use [^;]*;|#\[tactic\(auto, using\(.*|#!.*|mod .*;)\n", re.M)

MAIN = """//! The program, and copies of it with a fault in each.
#![tactic(auto)]

MODULES
use std::process::ExitCode;

unsafe extern "C" {
    /// Notes a body. Returns the number of the fault that runs.
    safe fn fault(body: u32) -> u32;
}

fn main(rt: HostRuntime) -> ExitCode {
    match fault(0) {
ARMS        _ => m0::main::main(rt),
    }
}
"""

IN_C = """#define _GNU_SOURCE
#include <dlfcn.h>
#include <fcntl.h>
#include <stdlib.h>
#include <sys/sendfile.h>
#include <unistd.h>

static unsigned chosen;
static char reached[5000];

unsigned fault(unsigned body) {
    reached[body] = 1;
    return chosen;
}

__attribute__((constructor)) static void begin(void) {
    const char *number = getenv("FAULT");
    Dl_info own;
    if (number) {
        chosen = (unsigned)atoi(number);
    } else if (dladdr((void *)fault, &own)) {
        int from = open(own.dli_fname, O_RDONLY), to = open("KEPT", O_WRONLY | O_CREAT, 0755);
        while (sendfile(to, from, NULL, 1 << 30) > 0) {}
        _exit(0);
    }
}

__attribute__((destructor)) static void end(void) {
    const char *name = getenv("REACHED");
    if (name)
        write(open(name, O_WRONLY | O_CREAT, 0644), reached, sizeof reached);
}
"""


class Program:
    """A program with faults. A fault is in m0, or in a module of its own."""

    def __init__(self):
        names = {it.stem: it for it in SOURCE.rglob("*.rt") if it.stem not in FOLDERS}
        self.texts = {name: it.read_text(encoding="utf-8") for name, it in names.items()}
        self.bodies, self.alone, self.copied = {}, {}, 0

    def add(self, number, fault):
        """Adds a fault, unless the program has enough of them. Returns whether it did."""
        if number > FAULTS or self.copied > COPIED:
            return False
        before = self.texts[fault.file]
        after = fault.put(before)
        if body := body_of(before.split("\n"), after.split("\n")):
            lines = after.split("\n")[slice(*body)]
            self.bodies.setdefault((fault.file, body), []).append((number, lines))
        else:
            self.alone[number] = {**{name: self.texts[name] for name in self.users_of(fault.file)},
                                  fault.file: after}
            self.copied += sum(map(len, self.alone[number].values()))
        return True

    def users_of(self, file):
        """Returns the names of a file and of those that use it, also through others."""
        found, new = set(), {file}
        while new:
            found |= new
            new = {name for name, text in self.texts.items()
                   if not new.isdisjoint(PATH.findall(text))} - found
        return found

    def body_with(self, number):
        """Returns the number of the body with this fault. That of `main`, which each case reaches,
        is 0."""
        return next((place for place, faulty in enumerate(self.bodies.values(), 1)
                     if number in dict(faulty)), 0)

    def build(self, folder):
        """Writes the program, and builds it. Returns its path."""
        for name in BELOW:
            (folder / "crates" / name).mkdir(parents=True)
            (folder / "crates" / name / "src").symlink_to(TOP / "crates" / name / "src")
        (folder / "crates.txt").write_text(
            "apdu_core:\ntlv_core:\nt0_core: apdu_core\nt1_core:\natr_core: arrayvec\n"
            f"trace_explain: {' '.join(BELOW)} arrayvec hex thiserror clap\n", encoding="utf-8")
        crate, program = folder / "crates/trace_explain", folder / "trace_explain"
        self.write_module(crate / "src", 0, {name: self.chosen(name) for name in self.texts})
        for number, texts in self.alone.items():
            self.write_module(crate / "src", number, texts)
        modules = "".join(f"mod m{number};\n" for number in [0, *self.alone])
        arms = "".join(f"        {number} => m{number}::main::main(rt),\n" for number in self.alone)
        text = MAIN.replace("MODULES\n", modules).replace("ARMS", arms)
        (crate / "src/main.rt").write_text(text, encoding="utf-8")
        (crate / "c").mkdir()
        (crate / "c/fault.c").write_text(IN_C.replace("KEPT", str(program)), encoding="utf-8")
        run = subprocess.run(["rt", "try", "--steps", "1"], cwd=crate, stdin=subprocess.DEVNULL,
                             capture_output=True, text=True, check=False,
                             env={**os.environ, "RT_ALLOW_C": "trace_explain"})
        if not program.exists():
            raise SystemExit(f"{run.stdout}{run.stderr}"[-2000:])
        return program

    def chosen(self, name):
        """Returns the text of a file in which each body with faults chooses between them."""
        lines = self.texts[name].split("\n")
        own = sorted(((body, place, faulty)
                      for place, ((file, body), faulty) in enumerate(self.bodies.items(), 1)
                      if file == name), reverse=True)
        for (first, end), place, faulty in own:
            arms = [(number, it) for number, it in faulty] + [("_", lines[first:end])]
            lines[first:end] = [f"match crate::fault({place}) {{", *itertools.chain.from_iterable(
                (f"{number} => {{", *it, "}") for number, it in arms), "}"]
        return "\n".join(lines)

    def write_module(self, source, number, texts):
        """Writes these files as a module. It names the others in m0."""
        def path(found):
            return f"crate::m{number}::{found[1]}" if found[1] in self.texts else found[0]

        (source / f"m{number}").mkdir(parents=True)
        for name, text in texts.items():
            text = PATH.sub(path, DECLARED.sub("", text)).replace("\nfn main(", "\npub fn main(")
            (source / f"m{number}/{name}.rt").write_text(text, encoding="utf-8")
        names = "".join(f"pub mod {it};\n" if it in texts else f"pub use crate::m0::{it};\n"
                        for it in sorted(self.texts))
        (source / f"m{number}.rt").write_text(f"//! A copy.\n{names}", encoding="utf-8")


def body_of(before, after):
    """Returns the first line and the end of the function's body, if all other lines are the
    same, or None."""
    places = [at for at, (one, other) in enumerate(zip(before, after)) if one != other]
    head = enclosing(before, places[0])
    if not head or len(before) != len(after) or "const fn " in before[head[2]]:
        return None
    indent = before[head[2]][: head[1]]
    opens = re.compile(rf"{indent}(?! ).*\{{$")
    first = next(at for at in range(head[2], len(before)) if opens.match(before[at])) + 1
    end = before.index(f"{indent}}}", first)
    return (first, end) if first <= places[0] and places[-1] < end else None


def parts_of(cases):
    """Returns the cases without a secret, and the others, which refuse few faults. In each part
    those of one kind are spread, and the long ones are last."""
    random.Random(1).shuffle(cases)
    cases.sort(key=lambda case: len(case.given) > 5000)
    return [[it for it in cases if bool(it.secret) == is_secret] for is_secret in (False, True)]


def tried(program, number, cases, **names):
    """Returns what the first of these cases says that refuses a fault, or None."""
    try:
        said = (refusal(program, it, SECONDS, FAULT=str(number), **names) for it in cases)
        return next(filter(None, said), None)
    except subprocess.TimeoutExpired:
        return "the end of a case in time"


def reached(program, case, file):
    """Returns which bodies a case reaches without a fault, each by its number. It must pass."""
    if said := tried(program, 0, [case], REACHED=str(file)):
        raise SystemExit(f"without a fault: {said}")
    return file.read_bytes()


def refused_by(pool, built, program, faults, cases):
    """Returns for each of these faults, by number, the first case that refuses it, or None."""
    files = (program.with_name(f"reached{number}") for number in range(len(cases)))
    passed = list(zip(cases, pool.map(reached, itertools.repeat(program), cases, files)))

    def by(number):
        body = built.body_with(number)
        return tried(program, number, [case for case, found in passed if found[body]])

    return pool.map(by, faults)


def outcomes(folder, faults):
    """Yields each fault with the first case that refuses it, or None. The first program runs all
    cases without a fault, even if no fault is to be tried."""
    parts, is_first = parts_of(all_cases()), True
    while faults or is_first:
        with tempfile.TemporaryDirectory(dir=folder) as room, ThreadPoolExecutor() as pool:
            built = Program()
            left = dict(itertools.takewhile(lambda it: built.add(*it), enumerate(faults, 1)))
            faults, program = faults[len(left):], built.build(Path(room))
            for cases in parts:
                if not left and not is_first:
                    break
                for number, said in zip([*left], refused_by(pool, built, program, [*left], cases)):
                    if said:
                        yield left.pop(number), said
            yield from ((fault, None) for fault in left.values())
            is_first = False
