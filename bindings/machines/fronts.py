"""The functions between C and the module, as text of LLVM.

The module's functions take sizes of 64 bits. On a machine of 32 bits C's size_t has 32: in the
functions that C calls, and in those for memory, which the module calls. These return a struct, and
not each machine's C in the way of the module.
"""

import re


class Unknown(Exception):
    """A line of the module, or a function of the header, that these programs can't rewrite."""


DECLARED = re.compile(r"^\w+ galliumtoad_(\w+)\(([^)]*)\);", re.M)
DEFINED = re.compile(r"define (?P<back>(?:noundef )?(?:i32|void)) @galliumtoad_(?P<name>\w+)"
                     r"\((?P<parameters>.*)\)(?P<rest> #\d+) \{")
# How C returns gt_taken, a struct of a flag and a pointer: to a place that the caller names, or in
# two registers.
PLACE, REGISTERS = "place", "registers"
# Calls C's function `name`, with the module's parameters.
ASK = """
declare {back} @{name}({types})

define internal {{ i64, i64 }} @wide.{name}({parameters}) nounwind {{
  %is_large = icmp ugt i64 %size, {most}
  br i1 %is_large, label %refused, label %asked
refused:
  ret {{ i64, i64 }} {{ i64 0, i64 1 }}
asked:
{asked}
  ret {{ i64, i64 }} %pair
}}
"""
TO_PLACE = """
  %taken = alloca {{ i8, ptr }}, align {width}{shortened}
  call void @{name}({place} %taken, {given})
  %pair = call {{ i64, i64 }} @wide.taken(ptr %taken)"""
TAKEN = """
define internal {{ i64, i64 }} @wide.taken(ptr %taken) nounwind {{
  %some = load i8, ptr %taken, align {width}
  %some.64 = zext i8 %some to i64
  %place = getelementptr i8, ptr %taken, i{bits} {width}
  %at = load ptr, ptr %place, align {width}
  %at.64 = ptrtoint ptr %at to i64
  %half = insertvalue {{ i64, i64 }} poison, i64 %some.64, 0
  %pair = insertvalue {{ i64, i64 }} %half, i64 %at.64, 1
  ret {{ i64, i64 }} %pair
}}
"""
# The flag is the lowest byte. The others of its register may be anything.
TO_REGISTERS = """{shortened}
  %taken = call {back} @{name}({given})
  %first = extractvalue {back} %taken, 0
  %flag = and i{bits} %first, 255
  %flag.64 = zext i{bits} %flag to i64
  %second = extractvalue {back} %taken, 1
  %second.64 = zext i{bits} %second to i64
  %half = insertvalue {{ i64, i64 }} poison, i64 %flag.64, 0
  %pair = insertvalue {{ i64, i64 }} %half, i64 %second.64, 1"""
OF_MEMORY = {"rattle_alloc": ("i64 %size", "i64 %align"),
             "rattle_realloc": ("ptr %block", "i64 %kept", "i64 %size", "i64 %align")}


def memory(bits, returned):
    """The functions between the module and C's for memory."""
    width = bits // 8
    place = f"ptr sret({{ i8, ptr }}) align {width}"
    how = {"bits": bits, "width": width, "place": place, "most": 2 ** bits - 1,
           "back": "void" if returned == PLACE else f"[2 x i{bits}]"}
    for name, parameters in OF_MEMORY.items():
        given = [re.sub(r"i64 (\S+)", r"i32 \1.32", it) if bits == 32 else it for it in parameters]
        shortened = "".join(f"\n  {it.split()[1]}.32 = trunc {it} to i32" for it in parameters
                            if bits == 32 and it[0] == "i")
        types = [place] * (returned == PLACE) + [it.split()[0] for it in given]
        how |= {"name": name, "given": ", ".join(given), "shortened": shortened}
        asked = (TO_PLACE if returned == PLACE else TO_REGISTERS).format(**how)
        yield ASK.format(**how, types=", ".join(types), parameters=", ".join(parameters),
                         asked=asked[1:])
    if returned == PLACE:
        yield TAKEN.format(**how)


def declared(header):
    """The types of the parameters of each function that C calls, by the function's name."""
    text = re.sub(r"/\*.*?\*/", "", header, flags=re.DOTALL)
    return {name: [re.sub(r"\s*\w+$", "", " ".join(it.split())) for it in parameters.split(",")]
            for name, parameters in DECLARED.findall(text)}


class Front:
    """A function with C's sizes that calls the module's."""

    def __init__(self, name, found, types):
        self.name, self.back, self.rest = name, found["back"], found["rest"]
        self.taken, self.given, self.before, self.after = [], [], [], []
        parameters = found["parameters"].split(", ") if found["parameters"] else []
        types = [] if types == [""] else types
        if len(parameters) != len(types):
            raise Unknown(f"{name} has {len(parameters)} parameters, {len(types)} in the header")
        for parameter, of_c in zip(parameters, types):
            self.take(parameter.split(), of_c)

    def take(self, words, of_c):
        """Adds a parameter: its words in the module, and its type in C."""
        kind, own = words[0], words[-1]
        if (kind == "i64") != (of_c == "size_t") or (of_c[-1:] == "*") != (kind == "ptr"):
            raise Unknown(f"{self.name} takes {kind} for {of_c}")
        if kind == "i64":
            self.taken.append(f"i32 noundef {own}")
            self.given.append(f"i64 noundef {own}.64")
            self.before.append(f"{own}.64 = zext i32 {own} to i64")
        elif of_c == "size_t *":
            self.taken.append(f"ptr noundef {own}")
            self.given.append(f"ptr noundef {own}.at")
            self.pass_place(own)
        else:
            self.taken.append(" ".join(words))
            self.given.append(" ".join(words))

    def pass_place(self, own):
        """Passes a place of 64 bits for one of 32."""
        self.before += [f"{own}.at = alloca i64, align 8",
                        f"{own}.old = load i32, ptr {own}, align 4",
                        f"{own}.wide = zext i32 {own}.old to i64",
                        f"store i64 {own}.wide, ptr {own}.at, align 8"]
        self.after += [f"{own}.told = load i64, ptr {own}.at, align 8",
                       f"{own}.new = trunc i64 {own}.told to i32",
                       f"store i32 {own}.new, ptr {own}, align 4"]

    def lines(self):
        """Its text."""
        kind = self.back.split()[-1]
        call = f"call {kind} @wide.galliumtoad_{self.name}({', '.join(self.given)})"
        body = [*self.before, call if kind == "void" else f"%code = {call}", *self.after,
                "ret void" if kind == "void" else f"ret {kind} %code"]
        call = f"{self.back} @galliumtoad_{self.name}({', '.join(self.taken)}){self.rest}"
        return ["", f"define {call} {{", *(f"  {it}" for it in body), "}"]


def with_fronts(lines, header):
    """The module's lines, with its functions for C called by functions with C's sizes."""
    types, out, fronts = declared(header), [], []
    for line in lines:
        found = DEFINED.fullmatch(line)
        if found:
            name = found["name"]
            if name not in types:
                raise Unknown(f"the header does not declare galliumtoad_{name}")
            fronts += Front(name, found, types.pop(name)).lines()
            line = line.replace("define ", "define internal ", 1).replace("@", "@wide.", 1)
        out.append(line)
    if types:
        raise Unknown(f"the module has no {', '.join(sorted(types))}")
    return [*out, *fronts]
