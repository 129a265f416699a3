"""Objects of JSON that docs/trace_explain.schema.json must refuse. `WHOLE` has one right object of
each type, and one with each key. A wrong one lacks a key, has another one, or a wrong value."""

import json

TPDU = {"type": "tpdu", "number": 1, "title": "GET DATA of 5F20", "line": 2,
        "instruction": "GET DATA", "continues": None, "cla": "00", "sent": "", "received": "4A",
        "status": "9000", "status_text": "normal processing"}
TAGGED = {"tag": "5F20", "name": "cardholder name", "words": "JOE", "value": "4A4F45"}
NOTE = {"type": "note", "line": 5, "text": "a note"}
# Right objects: every key is needed.
WHOLE = [
    TPDU,
    {"type": "command", "line": 2, "number": 1, "tpdus": [TPDU, NOTE], "title": "GET DATA of 5F20",
     "status": "9000"},
    {"type": "reset", "line": 3, "text": "reset"},
    {"type": "atr", "line": 1, "characters": "3B00"},
    {"type": "pps", "line": 2, "request": "FF00FF", "response": "FF00FF T=0"},
    {"type": "blocks", "line": 4, "blocks": "> I(0) 5"},
    NOTE,
    {"type": "error", "text": "unexpected byte", "line": 6},
    {"type": "summary", "tpdus": 1, "cut_off": 0, "errors": 0, "atr_faults": 0, "commands": {},
     "statuses": {}},
]
# Keys that an object of the type may have, too.
MORE = {
    "tpdu": {"file": "a", "time_us": 0, "asked_again": True, "le": 256, "before": "55",
             "blocks": "> I(0) 5", "ins": "CA", "p1": "5F", "p2": "20", "p3": "00",
             "procedure": "all at once", "objects": [TAGGED, {"tag": "70", "objects": [TAGGED]}],
             "after": "55"},
    "command": {"file": "a", "cla": "00", "ins": "CA", "p1": "5F", "p2": "20",
                "instruction": "GET DATA", "sent": "", "received": "4A",
                "status_text": "normal processing"},
    "reset": {"file": "a"},
    "atr": {"file": "a", "convention": "direct"},
    "pps": {"file": "a"},
    "blocks": {"file": "a", "command": "00CA", "answer": ""},
    "note": {"file": "a"},
    "error": {"file": "a", "place": "line 6", "expected": "a header", "received": "55",
              "hint": "a hint", "fault": "a fault", "command": "00CA", "answer": "9000"},
    "summary": {"time_us": 1, "blocks": {"all": 1, "again": 0, "damaged": 0, "gaps": 0},
                "commands": {"GET DATA": 1}, "statuses": {"6A88": 1}},
}
# The keys with digits, bytes of two digits, a number from 1 on, and one from 0 on.
HEX = {"sent", "received", "characters", "value"}
BYTES = {"cla", "ins", "p1", "p2", "p3"}
NUMBERS = {"number", "line", "all", "GET DATA", "6A88"}
COUNTS = {"tpdus", "cut_off", "errors", "atr_faults", "time_us", "again", "damaged", "gaps"}
# The keys that a mask hides, besides the text of a note.
HIDDEN = {"cla", "sent", "received", "value", "command", "answer", "characters", "request",
          "response"}


def hides(kind, key):
    """Whether a mask hides this key in objects of the type."""
    return key in HIDDEN or (kind, key) == ("note", "text")


def wrong_values(kind, key, value):
    """Values that this key must not have."""
    if isinstance(value, list):
        return [[], "", 1]
    if isinstance(value, dict):
        return ["", 1, {"x": 0}, {"x": "y"}]
    if key in {"type", "asked_again"}:
        return ["x", 1, None, False]
    if key == "continues":
        return [0, "1", 1.5]
    if key == "le":
        return [0, 257, "1"]
    if key in NUMBERS | COUNTS:
        return [-1, 0.5, "1", None] + ([0] if key in NUMBERS else [])
    if key in BYTES:
        return ["0", "0a", "0G", "0000", "", 0]
    if key in HEX and kind != "error":
        return ["0", "0a", "0G", "00 00", 0]
    if key == "tag":
        return ["", "5", "5f", "5F202020", None]
    if key == "status":
        return ["9", "900G", "900000", "900a", None]
    return ["\t", "\x7f", "\u00fc", 1]


def changed(found):
    """Objects with one wrong value in place of a right one, or one key too many, at any depth."""
    kind = found.get("type")
    is_open = kind == "atr" or found.keys() in ({"GET DATA"}, {"6A88"})
    for key, value in found.items():
        yield from ({**found, key: it} for it in wrong_values(kind, key, value))
        inner = value if isinstance(value, list) else [value] if isinstance(value, dict) else []
        for place, one in enumerate(inner):
            for it in changed(one):
                yield {**found, key: [*inner[:place], it, *inner[place + 1:]]
                       if isinstance(value, list) else it}
    yield {**found, "more": 1.5 if is_open else "x"}


def hidden(found):
    """Objects that are masked without a null, or have a null without a mask."""
    yield {**found, "masked": True}
    for key in [it for it in found if hides(found["type"], it)]:
        yield from ({**found, key: None}, {**found, key: None, "masked": False})


def right_ones():
    """Right objects: with the needed keys, with all, and with something hidden."""
    for needed in WHOLE:
        whole = {**needed, **MORE[needed["type"]]}
        yield from (needed, whole)
        yield from ({**found, key: None, "masked": True} for found in (needed, whole)
                    for key in found if hides(found["type"], key))
    hides_one = {"objects": [{"tag": "5A", "value": None, "masked": True}]}
    yield from ({**TPDU, **it} for it in ({"continues": 1}, {"le": None}, hides_one))


def wrong_ones():
    """Wrong objects."""
    for needed in WHOLE:
        whole = {**needed, **MORE[needed["type"]]}
        yield from ({key: it for key, it in whole.items() if key != left} for left in needed)
        yield from changed(whole)
        if needed["type"] not in {"reset", "summary"}:
            yield from hidden(whole)
    for one in ({"value": "4A"}, {"tag": "70", "value": "4A", "objects": [TAGGED]},
                {"tag": "70", "objects": []}, {**TAGGED, "masked": True},
                {"tag": "5A", "value": None}, {"tag": "5A", "value": None, "masked": False},
                {"tag": "5A", "name": "x", "value": None, "masked": True},
                {"tag": "5A", "words": "x", "value": "4A"},
                {"tag": "5A", "name": "x", "words": "y"}):
        yield {**TPDU, "objects": [one]}
    for left in MORE["summary"]["blocks"]:
        blocks = {key: it for key, it in MORE["summary"]["blocks"].items() if key != left}
        yield {**WHOLE[-1], "blocks": blocks}


def faults(validators):
    """What is wrong with the schema, one text for each object: none if it is right."""
    def fits(found):
        validator = validators.get(found.get("type"))
        return bool(validator) and validator.is_valid(found)

    for found in right_ones():
        yield "" if fits(found) else f"the schema refuses {json.dumps(found)}"
    for found in wrong_ones():
        yield f"the schema allows {json.dumps(found)}" if fits(found) else ""
