"""Tests of the check itself: a small repository without findings, and for each kind of finding an
edit that the check must find, with file and line."""

from sources import Repository

LIST = "checks/house/stays.txt"
DONE = "checks/house/plain.txt"
PHRASES = "checks/house/phrases.txt"
TOOL = "tools/lamp.c"

SOUND = {
    "crates.txt": "low:\nhigh: low\n# index.txt\n",
    "index.txt": "plain.txt phrases.txt stays.txt crates.txt lamp.c LAMPS.md TOUR.md RULES.md\n"
                 "lamp.h lamp.help lamp.sh lamp.py LIT lib wire Shade enter lamp\n",
    LIST: "# nothing has to stay\n",
    DONE: "# what is plain\ncrates/low/\ndocs/LAMPS.md\ntools/\nbindings/lamp.h\n",
    PHRASES: "# phrases\nis told: shows\n",
    "docs/LAMPS.md": "# Lamps\n\n| Lamp | Light |\n|---|---|\n| `a` | red |\n\nOne burns.\n",
    "bindings/lamp.h": "/* A lamp,\n * and its light. */\nint lamp(void);\n",
    TOOL: '/* Lights a lamp. */\nstatic const char *const HELP =\n    "It is "\n    "lit\\n";\n',
    "tools/lamp.help": "Lights a lamp.\n",
    "docs/TOUR.md": (
        "# Tour\n\n`Lamp::light` in `low/src/lamp.rt`, `lit` of `LampLaws`, `low/specs/Lamp`.\n"
        "\n```\nLamp::dims\n```\n\n`dims`, `rt fmt`.\n"
    ),
    "docs/RULES.md": "# Rules\n\n## Lamps\n\nDefinitions: `low` `Lamp`.\n\nIt is lit.\n",
    "crates/low/src/lib.rt": (
        "//! Lamps.\n\nmod lamp;\nmod wire;\n\npub use lamp::Lamp;\n\npub struct Shade;\n"
    ),
    "crates/low/src/wire.rt": "//! What a lamp hangs on.\n\nstruct Wire {\n    length: u8,\n}\n",
    "crates/low/src/lamp.rt": """\
//! A lamp.
ghost use Rattle.low.specs.Lamp.{IsLit};

pub struct Lamp;

impl Lamp {
    /// Lights it.
    pub fn light(&mut self) -> bool
        ensures { IsLit self.new }
    {
        true
    }
}
""",
    "crates/low/specs/Lamp.antt": """\
use Rattle.low.specs.declared.wire.Wire.{Wire}
use Rattle.low.specs.LampLaws.{lit}

-- what a lamp hangs on
pub data Hanging : Type 0 where
  On_wire : (wire : Wire) → Hanging
  On_nothing : Hanging

abbrev pub IsLit : Hanging → Type 0
IsLit h = lit h
""",
    "crates/low/specs/LampLaws.antt": "pub lit : Hanging → Type 0\nlit h = ⊤\n",
    "crates/low/proofs/Lamps.antt": "pub burns : Type 0\nburns = ⊤\n",
    "crates/low/proofs/lamp/light/Answers.antt": (
        "use Rattle.low.proofs.Lamps.{burns}\n\npub ensures : burns\n"
    ),
    "crates/high/src/lib.rt": (
        "//! A house of lamps.\nghost use Rattle.high.specs.House.{IsDark};\n\n"
        "fn enter()\n    ensures { IsDark }\n{}\n"
    ),
    "crates/high/specs/House.antt": """\
use Rattle.low.specs.Lamp.{Hanging, On_nothing}

abbrev pub IsDark : Hanging → Type 0
IsDark On_nothing = ⊤
""",
}

HOUSE = "crates/high/specs/House.antt"
LAMP = "crates/low/src/lamp.rt"
NAMED = "IsDark On_nothing = ⊤"
IMPORTED = "{Hanging, On_nothing}"
ON_WIRE = "{Hanging, On_nothing, On_wire}"
LONG = "x" * 101
PAGE = "docs/LAMPS.md"
TOUR = "docs/TOUR.md"
PY, MAKE = "tools/lamp.py", "tools/Makefile"
# apart, or the check reads this file as a program with that option
ADDS = "add_argument"
RULES = "docs/RULES.md"
MOST = " ".join(["Word"] + ["word"] * 34)
MANY = " ".join(["Word"] + ["word"] * 24)

# Planted faults: the kind of the finding, its file and line, and the edits. An edit is a file with
# an old and a new text, or a new file.
FAULTS = [
    ("private", HOUSE, 1, [(HOUSE, "use Rattle.low.specs.Lamp.", "use Rattle.low.proofs.Lamps.")]),
    ("private", HOUSE, 1, [
        (HOUSE, "use Rattle.low", "use Rattle.low.specs.declared.wire.Wire.{Wire}\nuse Rattle.low"),
    ]),
    ("cases", HOUSE, 4, [(HOUSE, NAMED, "IsDark (On_wire w) = ⊤"), (HOUSE, IMPORTED, ON_WIRE)]),
    ("looks", HOUSE, 5, [
        (HOUSE, NAMED, "IsDark (On_wire w) =\n    w.length ≡ 0"), (HOUSE, IMPORTED, ON_WIRE),
    ]),
    ("unreached", HOUSE, 6, [(HOUSE, NAMED, f"{NAMED}\n\nlost : Type 0\nlost = ⊤")]),
    ("left", PY, 1, [(PY, None, "def flickers():\n    pass\n")]),
    ("left", PY, 1, [(PY, None, "class Flicker:\n    pass\n")]),
    ("left", PY, 1, [(PY, None, "WATTS = 3\n")]),
    ("left", PY, 1, [(PY, None, f'parser.{ADDS}("--watts")\n')]),
    ("left", TOOL, 2, [(TOOL, "lamp. */\n", "lamp. */\nstatic int glow(int watts)\n{\n}\n")]),
    ("left", TOOL, 2, [(TOOL, "lamp. */\n", "lamp. */\nint glow(void) {\n}\n")]),
    ("left", TOOL, 2, [(TOOL, "lamp. */\n", "lamp. */\n#define GLOW 1\n")]),
    ("left", TOOL, 3, [(TOOL, "lamp. */\n", "lamp. */\nenum {\n    GLOW = 1,\n};\n")]),
    ("left", LAMP, 4, [(LAMP, "pub struct Lamp;", "const WATTS: u8 = 3;\n\npub struct Lamp;")]),
    ("left", LAMP, 4, [
        (LAMP, "pub struct Lamp;", "pub fn glow() {}\n\npub struct Lamp;"),
        ("checks/lamp.sh", None, "#!/bin/sh\n# glow\n"),
    ]),
    ("left", MAKE, 1, [(MAKE, None, "WATTS = 3\n"), ("docs/LAMPS.md", "red", "Makefile")]),
    ("left", MAKE, 1, [(MAKE, None, "flickers:\n"), ("docs/LAMPS.md", "red", "Makefile")]),
    *(("left", "tools/lamp.js", 2, [("tools/lamp.js", None, f"// A lamp.\n{it}\n")])
      for it in ("const WATTS = 3;", "export async function glow() {\n}", "class Bulb {\n}")),
    ("left", "tools/lamp.js", 3, [
        ("tools/lamp.js", None,
         "// A lamp.\nexport class Shade {\n    async glow(watts) {\n    }\n}\n"),
    ]),
    ("left", "tools/lamp.sh", 2, [("tools/lamp.sh", None, "#!/bin/sh\nflickers() {\n}\n")]),
    ("left", "docs/lost.txt", 1, [("docs/lost.txt", None, "It burns.\n")]),
    ("left", "tools/lost.sh", 1, [("tools/lost.sh", None, "#!/bin/sh\n")]),
    ("left", "checks/packages.txt", 2, [
        ("checks/packages.txt", None, "lamp: lamps\nbulb: bulbs\n"),
        ("docs/LAMPS.md", "red", "packages.txt"),
    ]),
    ("place", "crates/low/proofs/LampLaws.antt", 1, [
        ("crates/low/proofs/LampLaws.antt", None, ""),
    ]),
    ("place", "crates/low/specs/Bulb.antt", 1, [("crates/low/specs/Bulb.antt", None, "")]),
    ("long", HOUSE, 4, [(HOUSE, NAMED, f"{NAMED} -- {LONG}")]),
    ("long", "checks/lamps", 2, [("checks/lamps", None, f"#!/bin/sh\n# {LONG}\n")]),
    ("long", "tools/lamp.js", 1, [("tools/lamp.js", None, f"// {LONG}\n")]),
    ("long", "bindings/bulb.h", 1, [("bindings/bulb.h", None, f"/* {LONG} */\n")]),
    ("first", LAMP, 1, [(LAMP, "//! A lamp.\n", "// A lamp.\n")]),
    ("fault", LAMP, 4, [
        (LAMP, "pub struct Lamp;", "pub struct Lamp {\n    watts: u8,\n}"),
        (LAMP, "-> bool", "-> Result<(), Lamp>"),
    ]),
    ("fault", LAMP, 4, [
        (LAMP, "pub struct Lamp;", "enum Broken {\n    Glass,\n}\n\npub struct Lamp;"),
        (LAMP, "-> bool", "-> Result<(), Broken>"),
    ]),
    ("fault", HOUSE, 4, [(HOUSE, NAMED, 'IsDark OutOfMemory = codes "no memory"')]),
    ("rule", RULES, 3, [(RULES, "Definitions: `low` `Lamp`.\n\n", "")]),
    ("rule", RULES, 5, [(RULES, "`Lamp`", "`Lamp` `Bulb`")]),
    ("rule", RULES, 5, [(RULES, " `low` `Lamp`", " `low`")]),
    ("unruled", "crates/low/specs/Lamp.antt", 9, [(RULES, "`Lamp`", "`LampLaws`")]),
    ("phrase", LAMP, 7, [(LAMP, "Lights it.", "It is told.")]),
    ("phrase", LAMP, 8, [(LAMP, "Lights it.", "Lights what\n    /// it Is\n    /// told of.")]),
    ("phrase", LAMP, 11, [(LAMP, "true", "// what is told\n        true")]),
    ("phrase", "crates/low/specs/Lamp.antt", 4, [
        ("crates/low/specs/Lamp.antt", "what a lamp hangs on", "what is told"),
    ]),
    ("phrase", "bindings/lamp.h", 2, [("bindings/lamp.h", "its light", "what is told")]),
    ("phrase", TOOL, 3, [(TOOL, "lit", "told")]),
    ("phrase", "tools/lamp.help", 1, [("tools/lamp.help", "Lights a lamp", "It is told")]),
    ("phrase", "tools/lamp.sh", 2, [("tools/lamp.sh", None, "#!/bin/sh\n# What is told.\n")]),
    ("phrase", "tools/lamp.py", 1, [("tools/lamp.py", None, '"""What is told."""\n')]),
    ("phrase", "tools/lamp.js", 2, [("tools/lamp.js", None, "`//`;\n/** What is told. */\n")]),
    ("phrase", PAGE, 5, [(PAGE, "red", "is told")]),
    ("phrase", PAGE, 1, [(PAGE, "# Lamps", "# What is told")]),
    ("sentence", PAGE, 7, [(PAGE, "One burns.", f"One burns. {MANY} `a lit lamp`.")]),
    ("sentence", LAMP, 7, [(LAMP, "Lights it.", f"{MOST[:80]}\n    /// {MOST[80:]} word.")]),
    ("cell", PAGE, 5, [(PAGE, "red", "x" * 301)]),
    ("size", "README.md", 1, [("README.md", None, "x" * 7301)]),
    ("size", "README.md", 1, [("bench/README.md", None, "é" * 111_500)]),
    ("name", TOUR, 3, [(TOUR, "Lamp::light", "Lamp::lights")]),
    ("name", TOUR, 3, [(TOUR, "src/lamp.rt", "src/lamps.rt")]),
    ("name", TOUR, 3, [(TOUR, "`lit` of", "`burns` of")]),
    ("name", TOUR, 9, [(TOUR, "`dims`", "`shines`")]),
    ("name", TOUR, 6, [(TOUR, "```\nLamp::", "```picture\nIsLit IsBright Lamp::")]),
    ("uncalled", LAMP, 8, [(LAMP, "-> bool", "-> bool\n        requires { lit }")]),
    ("list", DONE, 6, [(DONE, "lamp.h\n", "lamp.h\ncrates/lost/\n")]),
    ("list", LIST, 2, [(LIST, "stay\n", "stay\nlong crates/low/src/lamp.rt: it was long once\n")]),
    ("list", LIST, 2, [(LIST, "stay\n", "stay\nlong crates/low/src/lamp.rt\n")]),
]

# No faults: words that are code or in a file that is not listed, 35 words, in a document 25, 300
# characters, a requirement that a caller in another crate meets.
PLAIN = [
    (LAMP, "Lights it.", "Lights `what is told`. Who is, told him."),
    (HOUSE, "IsDark :", "IsDark : -- is told\n  "),
    (TOOL, '"It is "\n    "lit', '"It is",\n    "told'),
    (PAGE, "One burns.", f"{MANY}. {MANY}.\n\n```c\nis told {MOST} {MOST}\n```\n"),
    (PAGE, "red", "x" * 300),
    ("tools/lamp.sh", None, "#!/bin/sh\necho 1 # is told\n"),
    ("tools/lamp.py", None, 'LIT = "# is told"\n'),
    ("tools/lamp.js", None, "`// is told`;\n'// is told';\n"),
    (LAMP, "-> bool", "-> bool\n        requires { lit }"),
    ("crates/high/src/lib.rt", "{}", "{\n    Lamp.light();\n}"),
]

# A fault, and the entry of the list that allows it.
LETS_STAY = [
    (LAMP, "//! A lamp.\n", "// A lamp.\n"),
    (LIST, "stay\n", "stay\nfirst crates/low/src/lamp.rt: it is dark\n"),
]


def edited(edits):
    texts = dict(SOUND)
    for path, old, new in edits:
        if old is None:
            texts[path] = new
            continue
        if old not in texts[path]:
            raise ValueError(f"{path} has no {old!r}")
        texts[path] = texts[path].replace(old, new, 1)
    return texts


def tried(find):
    """Whether each fault is found with its kind and place, and nothing else of its kind. Also
    whether nothing is found in the sound repository, and the list allows what it names."""
    rows = [("nothing is wrong", find(Repository(SOUND)), None)]
    rows += [("what is plain", find(Repository(edited(PLAIN))), None)]
    rows += [("what the list lets stay", find(Repository(edited(LETS_STAY))), None)]
    for kind, path, line, edits in FAULTS:
        found = [it for it in find(Repository(edited(edits))) if it.kind == kind]
        rows.append((f"a planted fault: {kind} in {path}", found, (path, line)))
    for title, found, place in rows:
        is_well = [(it.path, it.line) for it in found] == ([place] if place else [])
        yield title, is_well, found
