"""Rewrites the module of crates/card_c, a text of LLVM, for another machine.

The module counts places for pointers of 64 bits. On a machine of 32 bits a pointer in memory keeps
64, the upper ones 0, so each place stays the one for which the code was proved. Sizes keep 64 bits
too. Where C calls the module, and the module C, a function in between converts them (`fronts`).

A line of a form that this does not know raises `Unknown`, since it might be wrong elsewhere.
"""

import itertools
import math
import re

from fronts import PLACE, REGISTERS, Unknown, memory, with_fronts

NAME = r'%(?:"[^"]+"|[\w.$-]+)'
GLOBAL = r'@(?:"[^"]+"|[\w.$]+)'
VALUE = rf"(?:{NAME}|{GLOBAL}|-?\d+|null|undef|poison|true|false|zeroinitializer)"
INTEGER = r"i(?:1|8|16|32|64|128)"
SCALAR = rf"(?:{INTEGER}|ptr)"
BACK = rf"(?:noundef )?(?:zeroext )?(?:void|{SCALAR}|\{{ {SCALAR}(?:, {SCALAR})+ \}})"
BEHIND = r"(?:, ![\w.]+ !\d+)*"  # metadata
# Functions of LLVM whose names hold no size of a pointer.
PURE = (r"llvm\.(?:(?:[us](?:add|sub|mul)\.(?:with\.overflow|sat)|[us](?:min|max)|abs|bswap|ctlz"
        r"|cttz|ctpop|fshl|fshr)\.i\d+|trap|assume)\(")

# Lines that are right on each machine. Those of instructions touch no memory, or integers in it.
SAME = re.compile("|".join(f"(?:{it})" for it in (
    r"", r"\}", r";.*", r'source_filename = ".*"', r'(?:[\w.$-]+|"[^"]+"):.*', r"!.*",
    rf"{GLOBAL} = .*constant \[\d+ x i8\] .*", r"attributes #\d+ = \{.*\}",
    rf"define (?:internal )?{BACK} {GLOBAL}\([^<>\[\]{{}}]*\)(?: #\d+)? \{{",
    rf"declare {BACK} @(?:(?!llvm\.|rattle_)\w+\(|{PURE}).*",
    rf"{NAME} = (?:add|sub|mul|[us]div|[us]rem|and|or|xor|shl|lshr|ashr)(?: \w+)* {INTEGER} .*",
    rf"{NAME} = icmp (?:samesign )?\w+ {SCALAR} .*",
    rf"{NAME} = (?:zext|sext|trunc)(?: \w+)* {INTEGER} {VALUE} to {INTEGER}",
    rf"{NAME} = (?:phi|select|freeze|extractvalue|insertvalue) .*",
    r"(?:br|switch|ret|unreachable)\b.*", rf"{INTEGER} -?\d+, label {NAME}", r"\]",
    rf"{NAME} = load (?:volatile )?{INTEGER}, ptr {VALUE}, align \d+{BEHIND}",
    rf"store (?:volatile )?{INTEGER} {VALUE}, ptr {VALUE}, align \d+{BEHIND}",
    rf"store \{{ i64, i64 \}} {VALUE}, ptr {VALUE}, align 8",
    rf"{NAME} = alloca (?:{INTEGER}|\[\d+ x i8\]), align \d+",
    rf"{NAME} = getelementptr (?:(?:inbounds|nuw|nusw) )*i8, ptr {VALUE}, i64 {VALUE}",
    # sixteen bytes at once; the lowest bit is for the first, as on x86-64
    rf"{NAME} = load <16 x i8>, ptr {VALUE}, align \d+{BEHIND}",
    rf"store <16 x i8> {VALUE}, ptr {VALUE}, align \d+",
    rf"{NAME} = (?:insertelement|shufflevector|icmp \w+) <16 x i8> {VALUE}, .*",
    rf"{NAME} = sext <16 x i1> {VALUE} to <16 x i8>", rf"{NAME} = bitcast <16 x i1> {VALUE} to i16",
    rf"(?:{NAME} = )?(?:tail )?call {BACK} (?!@llvm\.|@rattle_){GLOBAL}\(.*\)(?: #\d+)?",
    rf"(?:{NAME} = )?(?:tail )?call {BACK} @{PURE}.*\)(?: #\d+)?")))
# What names the machine that the module was made for. clang gets another one.
MACHINE = re.compile(r'^target (?:datalayout|triple) = .*\n| "target-cpu"="[^"]*"', re.M)
# How a function with a large stack touches it. On Windows clang has its own way.
PROBE = re.compile(r' "probe-stack"="[^"]*"')
# On 64-bit RISC-V C expects a code as a register of 64 bits with its sign.
CODE = re.compile(r"^define noundef i32(?= @galliumtoad_)", re.M)
LAYOUT = re.compile(r'^target datalayout = "e-', re.M)


class Narrow:
    """Rewrites the lines that differ if a pointer has 32 bits."""

    def __init__(self):
        self.numbers = itertools.count()

    def fresh(self):
        return f"%narrow.{next(self.numbers)}"

    def load(self, name, kind, place, align):
        wide = self.fresh()
        return [f"  {wide} = load {kind or ''}i64, ptr {place}, align {align}",
                f"  {name} = inttoptr i64 {wide} to ptr"]

    def store(self, kind, value, place, align):
        wide = self.fresh()
        return [f"  {wide} = ptrtoint ptr {value} to i64",
                f"  store {kind or ''}i64 {wide}, ptr {place}, align {align}"]

    def load_pair(self, name, first, second, place, align):
        """Loads each field from its place on 64 bits."""
        size = size_of(second)
        behind, one, other, half = (self.fresh() for _ in range(4))
        offset = -(-size_of(first) // size) * size
        pair = f"{{ {first}, {second} }}"
        return [*self.field(one, first, place, align),
                f"  {behind} = getelementptr i8, ptr {place}, i64 {offset}",
                *self.field(other, second, behind, math.gcd(int(align), offset)),
                f"  {half} = insertvalue {pair} poison, {first} {one}, 0",
                f"  {name} = insertvalue {pair} {half}, {second} {other}, 1"]

    def field(self, name, kind, place, align):
        if kind == "ptr":
            return self.load(name, "", place, align)
        return [f"  {name} = load {kind}, ptr {place}, align {align}"]

    def address(self, name, value):
        """With ptrtoaddr to 64 bits clang -O1 makes an invalid module of WebAssembly."""
        return [f"  {name} = ptrtoint ptr {value} to i64"]

    def alloca(self, name):
        return [f"  {name} = alloca i64, align 8"]

    def move(self, call, name, places, size, last):
        """A call of memcpy, memmove or memset."""
        if size.isdigit():
            return [f"  {call}{name}.i32({places}, i32 {size}, {last})"]
        short = self.fresh()
        return [f"  {short} = trunc i64 {size} to i32",
                f"  {call}{name}.i32({places}, i32 {short}, {last})"]

    def declare_move(self, front, places, behind):
        return [f"{front}.i32({places}, i32, i1{behind}"]


# The other lines. On a machine of 64 bits they stay as they are.
RULES = [(re.compile(pattern), rule) for pattern, rule in (
    (rf"  ({NAME}) = load (volatile )?ptr, ptr ({VALUE}), align (\d+){BEHIND}", Narrow.load),
    (rf"  store (volatile )?ptr ({VALUE}), ptr ({VALUE}), align (\d+){BEHIND}", Narrow.store),
    (rf"  ({NAME}) = load \{{ ({SCALAR}), ({SCALAR}) \}}, ptr ({VALUE}), align (\d+){BEHIND}",
     Narrow.load_pair),
    (rf"  ({NAME}) = ptrtoaddr ptr ({VALUE}) to i64", Narrow.address),
    (rf"  ({NAME}) = alloca ptr, align 8", Narrow.alloca),
    (rf"  (call void )(@llvm\.mem(?:cpy|move|set)\.p0(?:\.p0)?)\.i64\((.*), i64 ({VALUE}), "
     r"(i1 \w+)\)", Narrow.move),
    (r"(declare void @llvm\.mem(?:cpy|move|set)\.p0(?:\.p0)?)\.i64\((.*), i64, i1(.*)",
     Narrow.declare_move))]
# Of memory. A block is given back in the same way on each machine.
CALL = re.compile(rf"(  {NAME} = call \{{ i64, i64 \}} @)(rattle_(?:re)?alloc\(.*\))")
DECLARED = re.compile(r"declare \{ i64, i64 \} @rattle_(?:re)?alloc\(.*\).*")
FREE = re.compile(r"  call void @rattle_dealloc\(ptr .*\)|declare void @rattle_dealloc\(ptr.*\).*")


def size_of(kind):
    """The bytes of a value in memory on 64 bits."""
    return 8 if kind == "ptr" else -(-int(kind[1:]) // 8)


def rewritten_line(line, narrow, is_own):
    """The lines in place of this one. Without `narrow` it must be a known one, and stays. If
    `is_own`, C's functions for memory are called as the module does."""
    if SAME.fullmatch(line.strip()) or FREE.fullmatch(line):
        return [line]
    for pattern, rule in RULES:
        found = pattern.fullmatch(line)
        if found:
            return rule(narrow, *found.groups()) if narrow else [line]
    found = CALL.fullmatch(line)
    if found:
        return [line if is_own else f"{found[1]}wide.{found[2]}"]
    if DECLARED.fullmatch(line):
        return [line] if is_own else []
    raise Unknown(f"an unknown form: {line.strip()}")


def rewritten(text, bits, header, returned=None, triple=""):
    """The module's text for a machine with pointers of 32 or 64 bits, and C's `header`. `returned`
    is how C returns gt_taken there, by default as most machines of that width do. `triple` is the
    machine's name for clang."""
    returned = returned or {32: PLACE, 64: REGISTERS}[bits]
    if not LAYOUT.search(text):
        raise Unknown("a module that is for no little-endian machine")
    narrow = {32: Narrow(), 64: None}[bits]
    is_own = (bits, returned) == (64, REGISTERS)
    text = MACHINE.sub("", PROBE.sub("", text) if "windows" in triple else text)
    lines = [it for line in text.splitlines()
             for it in rewritten_line(line, narrow, is_own)]
    if narrow:
        lines = with_fronts(lines, header)
    made = "\n".join(lines) + "\n"
    if not is_own:
        made += "".join(memory(bits, returned))
    return CODE.sub("define noundef signext i32", made) if "riscv64" in triple else made
