"""Tries `trace_explain --json` on every case: `json_lines.py PROGRAM..` prints a line `passed`, or
what is wrong, for each case and program. Each line is an object that docs/trace_explain.schema.json
allows, without a key twice. Its TPDUs are those of the text, in turn: number, header, status. With
`--commands` each is in one command, which continues as long as the next TPDU does, and whose data
are theirs joined. The schema has to refuse the objects of wrong_lines.py. Without the module
jsonschema the schema is left out, in a line `skipped`."""

import json
import re
import subprocess
import sys
import tempfile
from functools import lru_cache
from itertools import groupby, product
from pathlib import Path

sys.dont_write_bytecode = True
HERE = Path(__file__).resolve().parent
sys.path.insert(0, str(HERE))
import cases  # noqa: E402
import wrong_lines  # noqa: E402

SCHEMA = HERE.parents[1] / "docs/trace_explain.schema.json"
# What text shows of a TPDU. Digits of data may continue in the lines below.
ROW = re.compile(r"  [<> ] (header|data|status) +(.*)")
TITLE = re.compile(r"#(\d+) .*")
# A number of a TPDU or a line. Each from 1 on is allowed.
PLACE = re.compile(r'("(?:number|line|continues)":)[1-9]\d*')
LAYOUT = {"--html", "--json", "--commands", "--summary"}


def validators():
    """Returns what validates the objects of each type, or None if the module is missing. The schema
    has one definition for each type, so an object can only fit that of its own."""
    try:
        from jsonschema import Draft7Validator
    except ImportError:
        return None
    schema = json.loads(SCHEMA.read_text(encoding="utf-8"))
    found = {}
    for kind in schema.pop("oneOf"):
        definition = schema["definitions"][kind["$ref"].rpartition("/")[2]]
        name = definition["properties"]["type"]["const"]
        if name in found or "type" not in definition["required"]:
            raise ValueError(f"the schema has two definitions for objects of the type {name}")
        found[name] = Draft7Validator({**schema, "allOf": [kind]})
    return found


VALIDATORS = validators()


def unique(pairs):
    """An object, whose keys must differ."""
    keys = [key for key, _ in pairs]
    if len(set(keys)) != len(keys):
        raise ValueError(f"a key twice: {keys}")
    return dict(pairs)


def object_of(line):
    """The object of a line, which the schema must allow."""
    if VALIDATORS:
        validate(PLACE.sub(r"\g<1>1", line))
    return json.loads(line, object_pairs_hook=unique)


@lru_cache(maxsize=None)
def validate(line):
    """Looks whether the schema allows a line. This takes longest, so lines that only differ in
    their places are looked at once."""
    found = json.loads(line)
    if found.get("type") not in VALIDATORS:
        raise ValueError(f"an object of no type in the schema: {line[:200]}")
    for error in VALIDATORS[found["type"]].iter_errors(found):
        raise ValueError(f"{error.message[:200]} in {line[:200]}")


def objects_of(program, case, words):
    """The objects that the program writes, one for each line."""
    return [object_of(line) for line in output_of(program, case, words).splitlines()]


def output_of(program, case, words):
    """What the program writes with these words in place of the case's own layout."""
    own = [word for word in case.words if word not in LAYOUT]
    with tempfile.TemporaryDirectory() as folder:
        command = cases.command_of(program, case, [*own, *words], folder)
        run = subprocess.run(command, input=case.given, capture_output=True, check=False)
    return run.stdout.decode()


def tpdus_of(found):
    """The TPDUs of these objects, also those in commands."""
    lists = (it.get("tpdus", [it]) if it["type"] == "command" else [it] for it in found)
    return [it for items in lists for it in items if it["type"] == "tpdu"]


def told(tpdu):
    """A TPDU as text shows it: its number, header and status."""
    header = "".join(tpdu.get(key) or "" for key in ("cla", "ins", "p1", "p2", "p3"))
    return tpdu["number"], header or "**", tpdu["status"]


def shown(lines):
    """The same from lines of text."""
    found = []
    for line in lines:
        if title := TITLE.fullmatch(line):
            found.append([int(title[1]), "", ""])
        elif (row := ROW.fullmatch(line)) and found:
            if row[1] == "header":
                found[-1][1] = row[2]
            elif row[1] == "status" and re.match(r"[0-9A-F]+ ", row[2] + " "):
                found[-1][2] = row[2].split()[0]
    return [tuple(it) for it in found]


def commands_of(tpdus):
    """The numbers of the TPDUs of each command: one begins where a TPDU continues none."""
    begins = 0
    numbered = []
    for tpdu in tpdus:
        if tpdu["continues"] is None:
            begins = tpdu["number"]
        elif tpdu["continues"] != tpdu["number"] - 1:
            raise ValueError(f"TPDU {tpdu['number']} continues {tpdu['continues']}")
        numbered.append((begins, tpdu["number"]))
    return [[number for _, number in group] for _, group in groupby(numbered, lambda it: it[0])]


def joined(command, key):
    """The data of the TPDUs of a command, `None` if some are hidden."""
    parts = [it[key] for it in command["tpdus"] if it["type"] == "tpdu"]
    return None if None in parts else "".join(parts)


def fault_of(program, case):
    """What is wrong with the objects of a case, or an empty text."""
    alone = objects_of(program, case, ["--json"])
    within = objects_of(program, case, ["--json", "--commands"])
    tpdus = tpdus_of(alone)
    if [told(it) for it in tpdus] != shown(output_of(program, case, []).splitlines()):
        return "other TPDUs than those of text"
    if tpdus_of(within) != tpdus:
        return "other TPDUs in commands"
    commands = [it for it in within if it["type"] == "command"]
    if [[it["number"] for it in tpdus_of([one])] for one in commands] != commands_of(tpdus):
        return "other commands"
    for one in commands:
        for key in ("sent", "received"):
            if key in one and one[key] != joined(one, key):
                return f"command {one['number']}: {key} are not joined"
    return ""


def main(programs):
    """Tries all cases with each program."""
    for program, case in product(programs, cases.some(cases.table_cases())):
        if "--diff" in case.words:
            continue
        try:
            said = fault_of(program, case)
        except ValueError as error:
            said = str(error)
        print(f"--json, {Path(program).name}, {case.name}: {said}" if said else "passed")
    if VALIDATORS:
        print(*(said or "passed" for said in wrong_lines.faults(VALIDATORS)), sep="\n")
    else:
        print("skipped: the JSON Schema, since there is no module jsonschema")


if __name__ == "__main__":
    main(sys.argv[1:])
