#!/usr/bin/env python3
"""forwards.py HEADER: writes the part of forwards.c that follows from the header's declarations.

It writes a stand-in for each function of the archive, and calls that show its arguments. A
parameter is passed on to the parameter of the same name. `Function` has the rules for the others,
and for NULL. It fails at a declaration that no rule fits."""

import re
import sys

ARCHIVE = r"\n(\w+) galliumtoad_(\w+)\(([^)]*)\);"
HEADER = r"\nGT_(?:FUNCTION|MUST_CHECK) (\w+|const char \*)\s?gt_(\w+)\(([^)]*)\) \{"
# The archive has no function with these names, except the one for the version in forwards.c.
ALONE = {"text", "status_text", "status_words", "is_object", "version_fits", "version"}
# One buffer may be input and output of these, so they pass on a copy of at most these sizes.
COPIES = {"card_tpdu": "GT_TPDU_LIMIT", "card_apdu": "GT_APDU_LIMIT"}
# The pointers that may be NULL, though they have a fixed number of elements: then that is 0.
OPTIONAL = {("card_own", "directions")}
HANDLE = r"typedef struct gt_\w+ \{ bool live; void \*held GT_AT_8_; \} (gt_\w+);"
# A narrower type, or the place of another parameter, would change these numbers.
MOST = {"uint8_t": 0xF0, "uint16_t": 0xFED0, "uint32_t": 0xFEDCBA90, "size_t": 2**64 - 16}
# Values of a flag, and lengths of a text.
VALUES = {"int": ["1", "0", "2", "-1", "256"], "const char *": [0, 1, 8, 9, 255, 256, 300, 65536]}


class Parameter:
    """A parameter of a declaration: its type, its name, and the length of an array."""

    def __init__(self, text):
        kind, self.name, self.elements = re.fullmatch(r"(.*?)(\w+)(?:\[(\w+)\])?", text).groups()
        self.type = kind.strip() + " *" * bool(self.elements)
        self.is_pointer = self.type.endswith("*")
        # the next parameter's name, if that is the number of elements
        self.count = None


def declared(header, pattern):
    """Each function that the pattern finds: its return type, name and parameters."""
    handles = {name + " *" for name in re.findall(HANDLE, header)}
    for back, name, parameters in re.findall(pattern, header):
        texts = [" ".join(text.split()) for text in parameters.split(",") if text != "void"]
        each = [Parameter(text) for text in texts]
        for it, behind in zip(each, each[1:]):
            is_counted = it.is_pointer and not it.elements and it.type not in handles
            if is_counted and behind.type == "size_t":
                it.count = behind.name
        yield back, name, each


class Function:
    """A function of the header, the parameters of the archive's function of its name, and those of
    the archive's function that returns the answer, if it has one."""

    def __init__(self, name, parameters, archive):
        self.name, self.parameters, self.handed = name, parameters, archive[name]
        self.own = {it.name: it for it in parameters}
        passed = {it.name for it in self.handed}
        rest = [it for it in parameters if it.name not in passed]
        self.answer = archive[name.split("_")[0] + "_answer"] if rest else None

    def given(self, is_full=True, null=(), value=None):
        """The argument for each parameter: full buffers and high numbers, or empty and low."""
        counts = {it.count: it for it in self.parameters if it.count}
        for at, it in enumerate(self.parameters):
            if it in null:
                yield it.name, "NULL"
            elif it.type == "const char *":
                yield it.name, f"text({7 if value is None else value})"
            elif it.is_pointer:
                yield it.name, f"({it.type})AT({at})"
            elif it.name in counts and is_full:
                yield it.name, "1" if counts[it.name] in null else str(20 + at)
            elif it.type == "int":
                yield it.name, value or "1"
            else:
                full = is_full and it.name not in counts
                low = 0 if it.name in counts else at
                yield it.name, f"{MOST[it.type] + at:#x}" if full else str(low)

    def wanted(self, values, of):
        """The arguments that a function of the archive gets."""
        for before, it in zip([None, *of], of):
            own, counted = self.own.get(it.name), before and self.own.get(before.name)
            if own and it.type == "bool":
                yield f"({values[it.name]}) != 0"
            elif own:
                yield "ANY" if values[it.name] == "NULL" else f"P({values[it.name]})"
            elif counted and counted.elements:
                yield "0" if values[counted.name] == "NULL" else counted.elements
            elif counted and counted.type == "const char *":
                yield values[counted.name][5:-1]
            elif of is self.answer:
                # without data there is no room for them
                yield "ANY" if it.is_pointer else "0"
            else:
                sys.exit(f"{self.name}: no rule says what {it.name} of the archive is")

    def row(self, **how):
        """A call that is passed on."""
        values = dict(self.given(**how))
        call = f"gt_{self.name}({', '.join(values.values())})"
        wanted = ", ".join(self.wanted(values, self.handed))
        if not self.answer:
            return f'HANDS({call}, "{self.name}", {wanted});'
        of_room = "GT_BUFFER" if "room" in values else "GT_OK"
        return (f'OPERATES({call}, "{self.name}", {of_room}, {wanted}); '
                f"ANSWERS({', '.join(self.wanted(values, self.answer))});")

    def rows(self):
        """All calls."""
        pointers = [it for it in self.parameters if it.is_pointer]
        if self.name in COPIES:
            yield f'copies(gt_{self.name}, "galliumtoad_{self.name}", {COPIES[self.name]});'
        else:
            yield self.row()
            yield self.row(is_full=False)
            yield self.row(is_full=False, null=[it for it in pointers if it.count])
            for it in self.parameters:
                yield from (self.row(value=value) for value in VALUES.get(it.type, []))
        for it in pointers:
            if (self.name, it.name) in OPTIONAL:
                yield self.row(null=[it])
                continue
            arguments = ", ".join(dict(self.given(null=[it])).values())
            yield f"REFUSES(gt_{self.name}({arguments}));"


def stand_in(back, name, parameters):
    """A function in place of the archive's: it notes its arguments."""
    each = ", ".join(f"{it.type} {it.name}" for it in parameters)
    names = [it.name for it in parameters]
    reads = f"READ({', '.join(names[1:5])}); " if name in COPIES else ""
    note = "NOTE_ALONE" if back == "void" else "NOTE"
    return (f"{back} galliumtoad_{name}({each}) {{\n"
            f"    {reads}{note}({', '.join(f'P({it})' for it in names)});\n}}")


def main(path):
    with open(path, encoding="utf-8") as file:
        header = re.sub(r"/\*.*?\*/", "", file.read(), flags=re.S)
    archive = {name: each for _, name, each in declared(header, ARCHIVE)}
    print(*(stand_in(*it) for it in declared(header, ARCHIVE) if it[1] not in ALONE), sep="\n")
    print("#ifndef STAND_INS_ALONE")
    print("static void of_each_function(void) {")
    forgotten = set(archive)
    for back, name, parameters in declared(header, HEADER):
        forgotten.discard(name)
        if name not in archive and name not in ALONE:
            sys.exit(f"the archive has no function for gt_{name}")
        if back == "void":
            print(f'    FREES(gt_{name}, {parameters[0].type}, "{name}");')
        elif name not in ALONE:
            print(*Function(name, parameters, archive).rows(), sep="\n")
    print("}")
    print("#endif")
    if forgotten:
        sys.exit(f"nothing hands on to {sorted(forgotten)}")


main(sys.argv[1])
