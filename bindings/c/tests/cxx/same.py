#!/usr/bin/env python3
"""same.py INCLUDE: compares galliumtoad.hpp with galliumtoad.h, both in the folder INCLUDE.

Each function of the header is called in one place, which can't throw. It gets the parameters of the
call of C++ in their order; forwards.cc tests what `forwarded` has no rule for. If C warns of an
ignored result, so does C++. The codes have the same names, but `NotFound` for GT_NOT_FOUND. The
last line is 'N passed, N failed'."""

import os
import re
import subprocess
import sys
from pathlib import Path

MOST_LINES = 350
FUNCTION = r"\nGT_(FUNCTION|MUST_CHECK) (?:\w+|const char \*)\s?(gt_\w+)\("
# Calls that forwards.cc tests: they pass parameters in another order, or what a parameter has.
OTHERS = {"pps_request", "entry_at", "own"}
FORWARDS = (r"(?:GT_CODE|GT_HIDDEN Code) (\w+)\(((?:[^()]|\(\))*)\) ?(?:GT_OVER\(|noexcept "
            r"{ return Code\()((?:[^()]|\((?:[^()]|\([^()]*\))*\))*)\)")
BEGINS = r"(class|#define GT_PASSES)(?: (\w+) {|\(Held\))"
MUST, HIDDEN = "[[nodiscard]]", '__attribute__((visibility("hidden")))'


def declarations(folder):
    """The name of each function of C that a function of C++ calls, with that function, as the
    preprocessor writes it."""
    command = [os.environ.get("CXX", "c++"), "-std=c++17", "-E", "-P", "-x", "c++", "-I", folder]
    text = subprocess.run([*command, Path(folder) / "galliumtoad.hpp"], check=True, text=True,
                          stdout=subprocess.PIPE).stdout
    text = text[text.index("namespace galliumtoad {"):]
    begins = re.compile(rf"(?:{re.escape(MUST)} )?(?:inline )?{re.escape(HIDDEN)}")
    at = [it.start() for it in begins.finditer(text)] + [len(text)]
    for start, end in zip(at, at[1:]):
        for name in re.findall(r"\b(gt_\w+)\(", text[start:end]):
            yield name, text[start:end]


def handed(parameter):
    """What C gets for a parameter of C++."""
    kind, name = re.fullmatch(r"(.*?[ &*])(\w+)(?: = .*)?", parameter).groups()
    if kind.startswith(("Bytes ", "Room ", "Span<")):
        return f"GT_SPAN({name})"
    if kind in ("Tpdu &", "Apdu &", "Aid &", "Pps &", "Head &"):
        return f"{name}.bytes, &{name}.count"
    if kind == "Card &":
        return f"{name}.handle()"
    return {"Edc ": f"uint8_t({name})"}.get(kind, f"&{name}" if kind.endswith("&") else name)


def forwarded(text):
    """Yields each call of the header with its body, and the body by the rules: the function of its
    class and name gets the handle and the parameters."""
    text = " ".join(text.replace("\\\n", " ").split())
    of, place = "gt_", {"class": "gt_{}_", "#define GT_PASSES": "Held##_"}
    for it in re.finditer(f"{BEGINS}|{FORWARDS}", text):
        if it[1]:
            of = place[it[1]].format((it[2] or "").lower())
            continue
        name, parameters, body = it[3], it[4], it[5]
        each = [one.strip() for one in re.split(r",(?![^<]*>)", parameters) if one]
        asks = each and each[-1] == "bool &is"
        values = ["&held"] * (of != "gt_") + [handed(one) for one in (each[:-1] if asks else each)]
        call = f"{of}{name.replace('create', 'new')}({', '.join(values)})"
        if name not in OTHERS and "GT_OVER" in it[0] or name == "reset":
            yield name, body, f"whether({call}, is)" if asks else call


def main(folder):
    header = (Path(folder) / "galliumtoad.h").read_text(encoding="utf-8")
    other = (Path(folder) / "galliumtoad.hpp").read_text(encoding="utf-8")
    kinds = {name: kind for kind, name in re.findall(FUNCTION, header)}
    found = list(declarations(folder))
    wrong = [f"{name} is called {[it for it, _ in found].count(name)} times" for name in kinds
             if [it for it, _ in found].count(name) != 1]
    for name, declared in found:
        must = declared.startswith(MUST)
        if must < (kinds.get(name) == "MUST_CHECK"):
            wrong.append(f"{name}: nobody has to look at its result")
        if "noexcept" not in declared:
            wrong.append(f"{name}: its call may throw")
        if must and name.endswith(("_reset", "_words")):
            wrong.append(f"{name}: its result has to be looked at")
    calls = list(forwarded(other[other.index("GT_CODE objects("):]))
    wrong += [f"{name}: {body}, and not {call}" for name, body, call in calls if body != call]
    listed = header[header.index("enum {\n    GT_OK"):]
    names = re.findall(r"\bGT_(\w+) =", listed[: listed.index("};")])
    camel = [("".join(it.title() for it in name.split("_")), name) for name in names]
    body = re.search(r"enum class Code : int32_t \{(.*?)\};", other, re.S)[1]
    if re.findall(r"(\w+) = GT_(\w+)", body) != camel:
        wrong.append("the codes differ")
    if other.count("\n") > MOST_LINES:
        wrong.append(f"{other.count(chr(10))} lines, and {MOST_LINES} are the most")
    print(*(f"FAILED: {it}" for it in wrong), sep="\n", end="\n" * bool(wrong))
    print(f"{len(kinds) + len(camel) + len(calls)} passed, {len(wrong)} failed")
    return 1 if wrong or len(kinds) < 80 or len(calls) < 69 else 0


sys.exit(main(sys.argv[1]))
