"""The archive for x86-64: its size, the part that a program takes, and the stack of each function.
Sizes and the disassembly are those of binutils."""

import re
import subprocess
import tempfile
from pathlib import Path

TOP = Path(__file__).resolve().parents[2]
ARCHIVE = TOP / "bindings/lib/x86_64-linux-gnu/libcard_c.a"
INCLUDE = TOP / "bindings/c/include"
ADDRESS = 8  # the bytes that a call pushes
FUNCTION = re.compile(r"[0-9a-f]+ <(.*)>:$")
RELOCATION = re.compile(r"\s+[0-9a-f]+:\s+R_\S+\s+(\S+?)[-+]0x[0-9a-f]+$")
INSTRUCTION = re.compile(r"\s+[0-9a-f]+:\s+(\S+)\s*(.*)$")
BELOW = re.compile(r"-0x([0-9a-f]+)\(%rsp")
# How often a function may be entered again from itself: for each level of objects, and for an empty
# list in an object of the deepest.
ENTERED = {"card_c::objects::listed": 17}
KEPT = re.compile(r"^ (\.[^\n]*?)\s+0x[0-9a-f]+\s+0x([0-9a-f]+) [^\n]*libcard_c\.a\(", re.M)


def size(archive):
    """The bytes of an archive that are loaded: code and constants, and no data of its own."""
    said = subprocess.run(["size", "-t", archive], check=True, capture_output=True, text=True)
    text, data, bss = map(int, said.stdout.splitlines()[-1].split()[:3])
    if data or bss:
        raise ValueError(f"{archive} has data of its own")
    return text


def linked(names):
    """The bytes of the archive in a program with these functions of the header, and
    --gc-sections."""
    with tempfile.TemporaryDirectory() as room:
        source, made = Path(room) / "uses.c", Path(room) / "uses.map"
        calls = ", ".join(f"(void (*)(void)){name}" for name in names)
        source.write_text(f"#include <galliumtoad.h>\nvoid (*const volatile uses[])(void) = "
                          f"{{ {calls} }};\nint main(void) {{ return !uses[0]; }}\n")
        subprocess.run(["cc", "-Os", f"-I{INCLUDE}", "-o", Path(room) / "uses", source,
                        TOP / "bindings/c/src/heap.c", ARCHIVE, "-Wl,--gc-sections",
                        f"-Wl,-Map={made}"], check=True, capture_output=True)
        kept = made.read_text().split("Linker script and memory map")[1]
    parts = [(name, int(n, 16)) for name, n in KEPT.findall(kept) if n != "0"]
    return sum(n for name, n in parts if name.startswith((".text", ".rodata")))


class Function:
    """What a function pushes, and the functions that it calls, or jumps to at its end. `below` is
    what it uses of the stack below that, as a function that calls no other may."""

    def __init__(self, name):
        self.name, self.pushed, self.below = name, 0, 0
        self.calls, self.jumps = set(), set()


def functions():
    """Each function of the archive by its name. Fails at a form of code that this can't read."""
    said = subprocess.run(["objdump", "-dr", "--no-show-raw-insn", ARCHIVE], check=True,
                          capture_output=True, text=True).stdout
    found, last = {}, ""
    for line in said.splitlines():
        if it := FUNCTION.match(line):
            at = found.setdefault(it[1], Function(it[1]))
        elif it := RELOCATION.match(line):
            # a section holds one function, with its name
            name = re.sub(r"^\.text(\.unlikely)?\.", "", it[1])
            if last.startswith("call"):
                at.calls.add(name)
            elif last.startswith("jmp"):
                at.jumps.add(name)
        elif it := INSTRUCTION.match(line):
            last, words = it[1], it[2]
            if last.startswith("call") and words.endswith(f" <{at.name}>"):
                at.calls.add(at.name)
            if used := BELOW.search(words):
                at.below = max(at.below, int(used[1], 16))
            if last.startswith("push"):
                at.pushed += ADDRESS
            elif last.startswith("sub") and words.endswith(",%rsp"):
                at.pushed += int(words[1:].split(",")[0], 16)
            elif words.endswith(("%rsp", "%esp")) and last[:3] not in ("add", "mov", "cmp", "lea"):
                raise ValueError(f"an unknown use of the stack: {line}")
            elif last.startswith("call") and "*" in words:
                raise ValueError(f"a call of an address: {line}")
    return found


def stacks():
    """The most bytes of stack of each function for C, without what the functions for memory and
    memcpy, memmove and memset take."""
    found, deepest = functions(), {}

    def depth(name, above=()):
        if name in above:
            raise ValueError(f"{name} calls itself")
        if name not in found:
            return ADDRESS
        if name not in deepest:
            it, inner = found[name], (*above, name)
            own = ADDRESS + it.pushed
            again = own * (ENTERED[name] - 1) if name in it.calls else 0
            called = [depth(other, inner) for other in it.calls - {name}]
            jumped = [depth(other, inner) for other in it.jumps]
            deepest[name] = max([own + again + max([it.below, *called]), *jumped])
        return deepest[name]

    prefix = "galliumtoad_"
    return {name[len(prefix) :]: depth(name) for name in found if name.startswith(prefix)}
