"""Tests that a batch names each mistake before the first card: a table of mistakes, each with the
line that is printed. No line shows a value of the table."""

import pytest
from galliumtoad.batch.script import Script
from room import SCRIPT, Room, main_of, refused

HEX = "select A0000000031010\nput 9F36 {code}\n"
AID, TAG = "select {code}\n", "put {code} 41\n"
SEND, FILE = "send {code}\n", "put 50 @{name}.jpg\n"
LIMIT = "16,321 bytes, more than the 16,320 of a value"

# A script, what is in the column `code`, and what is wrong with that.
CELLS = [
    (HEX, "12345", "5 digits, an odd number"),
    (HEX, "12 34", "a space, as character 3"),
    (HEX, " 1234", "a space, as character 1"),
    (HEX, "0x1234", "0x before the digits"),
    (HEX, "12O4", "no hexadecimal digit, as character 3"),
    (HEX, "12-4", "no hexadecimal digit, as character 3"),
    (HEX, "00\0", "a NUL character"),
    (HEX, "41" * 16321, LIMIT),
    (HEX, "41*16321", LIMIT),
    (HEX, "41*0", "no hexadecimal digit, as character 3"),
    (AID, "A0000000", "4 bytes, but an identifier has 5 to 16"),
    (AID, "A0" * 17, "17 bytes, but an identifier has 5 to 16"),
    (TAG, "005F20", "a tag has no 00 in front"),
    (TAG, "5F202020", "not a tag that a command can name"),
    (TAG, "5F", "not a tag that a command can name"),
    (SEND, "00CA", "command too short"),
    (SEND, "00600000", "invalid INS"),
]
# A script, and the line and the mistake in it.
SCRIPTS = [
    ("put 5F20 @{age}\n", "1: no column 'age': the table has 'name', 'code'"),
    ("put 5F20 @{Name}\n", "1: no column 'Name': the table has 'name', 'code'"),
    ("put {age} {age}\n", "1: no column 'age': the table has 'name', 'code'"),
    ("take 5F20\n", "1: `take` is no operation: it is one of select, send, get, put"),
    ("\x1b[2J 5F20\n", "1: `\\x1b[2J` is no operation: it is one of select, send, get, put"),
    ("get 5F20 41\n", "1: `get` has 2 words, not 1"),
    ("\nput 5F20\n", "2: `put` has 1 word, not 2"),
    ("select A0\n", "1: `select`: identifier: 1 byte, but an identifier has 5 to 16"),
    ("put 50 4\n", "1: `put`: value: 1 digit, an odd number"),
    ("put 0x50 41\n", "1: `put`: tag: 0x before the digits"),
    ("put 50 41*16321\n", f"1: `put`: value: {LIMIT}"),
    ("send 00\n", "1: `send`: command: command too short"),
    ("put 50 @photo\n", "1: `put`: value: no file: No such file or directory"),
]
# A format of a column, and cells that have it.
FITTING = [
    ("hex", "0a0B", "00"), ("hex 4", "0001", "aBcD"), ("digits", "0", "007"),
    ("digits 16", "0123456789012345"), ("text", "JOE", "E10", "1.5", "E+10", "1E+10 ml", "-"),
    ("text 26", "A" * 26, chr(0xC5) * 26, "J"), ("date", "2026-12-31", "2028-02-29"),
    ("date YYMMDD", "261231", "010101"), ("date YYYYMMDD", "20261231"), ("date YYMM", "2612"),
    ("date DD.MM.YYYY", "31.12.2026"), ("date MM/YY", "12/26"), ("date YY-MM", "26-12"),
]
# And cells that don't. A spreadsheet shortens a number, and drops zeros before it.
SHORT = "a number that a spreadsheet has shortened"
UNFIT = [
    ("hex", "0x12"), ("hex", "1.0E+10"), ("hex", "1G"), ("hex", ""), ("hex 4", "001"),
    ("hex 4", "00001"), ("hex 4", "00 1"), ("digits", "12A"), ("digits", ""), ("digits", "-1"),
    ("digits 16", "123456789012345"), ("digits 16", "1.23457E+15"), ("digits 4", "1234 "),
    ("digits 4", chr(0x661) * 4), ("digits 4", "1234\n"), ("text 26", "A" * 27),
    ("date", "2026-02-29"), ("date", "31.12.2026"), ("date", "2026-1-1"), ("date", ""),
    ("date YYMMDD", "261301"), ("date YYMMDD", "26 1 1"), ("date YYMMDD", "20261231"),
    ("date YYMMDD", chr(0x661) * 6), ("date MM/YY", "13/26"), ("date DDDD", "3112"),
]
COLUMN = "`column` takes a name and a format: hex, digits, text or date, with its size"
# What is wrong, the script, the table, more words, and the line that is printed after the program's
# name. A script or table of None is right. `S` stands for `there are: 'Slot0..', 'Slot1..'`.
MISTAKES = [
    # cells
    *((f"cell {at}", script, f"name,code\nA,{cell}\n", "",
       f"rows.csv line 2, column 'code': {why}") for at, (script, cell, why) in enumerate(CELLS)),
    ("odd digits in the last line", None, "name,code\nA,00\nB,01\nC,012\n", "",
     "rows.csv line 4, column 'code': 3 digits, an odd number"),
    ("not UTF-8 in digits", HEX, b"name,code\nA,12\xe9\n", "",
     "rows.csv line 2, column 'code': not UTF-8"),
    ("not UTF-8 in a text", None, b"name,code\nA,00\n\xe9,01\n", "",
     "rows.csv line 3, column 'name': not UTF-8"),
    ("NUL in a text", None, "name,code\nA\0B,00\n", "",
     "rows.csv line 2, column 'name': a NUL character"),
    ("empty digits", None, "name,code\nA,00\nB,\n", "",
     "rows.csv line 3, column 'code': empty, and the script needs a value"),
    ("an empty text", None, "name,code\nA,00\n,01\n", "", "rows.csv line 3, column 'name': empty"),
    ("a long text", None, f"name,code\n{'A' * 16321},00\n", "",
     f"rows.csv line 2, column 'name': {LIMIT}"),
    ("a long text of two bytes a letter", None, f"name,code\n{chr(0xe9) * 8161},00\n", "",
     "rows.csv line 2, column 'name': 16,322 bytes, more than the 16,320 of a value"),
    ("a missing file", FILE, "name,code\nA,00\n", "",
     "rows.csv line 2, column 'name': no file: No such file or directory"),
    ("two columns in a word", "put 50 {name}{code}\n", "name,code\n12,34\n56,7\n", "",
     "rows.csv line 3, columns 'name', 'code': 3 digits, an odd number"),
    ("two columns in a tag", "put {name}{code} 41\n", "name,code\n5F,20\n00,50\n", "",
     "rows.csv line 3, columns 'name', 'code': a tag has no 00 in front"),
    # rows
    ("a row twice", None, "name,code\nA,00\nB,01\nA,00\n", "",
     "rows.csv line 4: the same row as rows.csv line 2"),
    ("an identifier twice", None, "id,name,code\n1,A,00\n1,B,01\n", "",
     "rows.csv line 3, column 'id': the same as in rows.csv line 2"),
    ("an identifier twice, in capitals", None, "ID,name,code\n1,A,00\n2,B,01\n1,C,02\n", "",
     "rows.csv line 4, column 'ID': the same as in rows.csv line 2"),
    ("too few cells", None, "name,code\nA\n", "", "rows.csv line 2: 1 cell, but 2 columns"),
    ("too many cells", None, "name,code\nA,00,1\n", "", "rows.csv line 2: 3 cells, but 2 columns"),
    ("a line after a cell of two lines", None, 'name,code\n"A\nB",00\n\nC\n', "",
     "rows.csv line 5: 1 cell, but 2 columns"),
    ("a cell of two lines before an odd number", None, 'name,code\nA,00\n"B\nB",0\n', "",
     "rows.csv line 3, column 'code': 1 digit, an odd number"),
    ("a quote that ends early", None, 'name,code\nA,00\n"B"C,00\n', "",
     "rows.csv line 3: ',' expected after '\"'"),
    ("a quote without an end", None, 'name,code\nA,00\n"B,00\n', "",
     "rows.csv line 3: unexpected end of data"),
    ("no row", None, "name,code\n", "", "rows.csv has no row"),
    ("nothing", None, "", "", "rows.csv has no row"),
    ("UTF-16", None, "name,code\nA,00\n".encode("utf-16"), "",
     "rows.csv is in UTF-16: save it in UTF-8"),
    ("semicolons and an odd number", None, "name;code\nA;0\n", "",
     "rows.csv line 2, column 'code': 1 digit, an odd number"),
    ("tabs and an odd number", None, "name\tcode\nA\t0\n", "",
     "rows.csv line 2, column 'code': 1 digit, an odd number"),
    # columns
    ("a column twice", None, "name,code,name\nA,00,B\n", "",
     "script:3: 2 columns 'name': the table has 'name', 'code', 'name'"),
    ("other signs in between", "put 50 @{name}\n", "name|code\nA|00\n", "",
     "script:1: no column 'name': the table has 'name|code'"),
    # formats
    ("a lost zero", "column code digits 4\nput 50 {code}\n", "name,code\nA,0012\nB,12\n", "",
     "rows.csv line 3, column 'code': 2 characters, not `digits 4`"),
    ("a lost zero, and an odd number", "column code digits 4\n" + HEX, "name,code\nA,012\n", "",
     "rows.csv line 2, column 'code': 3 characters, not `digits 4`"),
    ("two formats of a column", "column code text\ncolumn code digits 4\ncolumn code hex\n" + HEX,
     "name,code\nA,012\n", "", "rows.csv line 2, column 'code': 3 characters, not `digits 4`"),
    ("a number in a text", "column name text 26\nput 50 @{name}\n", "name,code\n1.0E+10,A\n", "",
     f"rows.csv line 2, column 'name': {SHORT}"),
    ("a format of a column that is not written", "put 50 41\ncolumn name  date YYMMDD\n",
     "name,code\n261301,A\n", "",
     "rows.csv line 2, column 'name': 6 characters, not `date YYMMDD`"),
    ("a format of no column", "column age date\nput 50 41\n", None, "",
     "script:1: no column 'age': the table has 'name', 'code'"),
    ("a format of two columns", "column name text\nput 50 41\n", "name,name\nA,B\n", "",
     "script:1: 2 columns 'name': the table has 'name', 'name'"),
    *((f"a line of a format: {it}", f"put 50 41\n{it}\n", None, "", f"script:2: {COLUMN}")
      for it in ("column", "column name", "column name digit 4", "column name digits 0",
                 "column name digits 4 4", "column name text YY", "column name date 6",
                 "column name date YYMMDD x", "column name hex -1", "column name date YMD")),
    ("formats alone", "column name text\n", None, "", "script has no operation"),
    # a first line that names what is between cells
    *((f"cells between {it!r}", None, f"sep={it}{end}name{it}code{end}A{it}0{end}", "",
       "rows.csv line 3, column 'code': 1 digit, an odd number")
      for it, end in ((";", "\r\n"), (",", "\n"), ("\t", "\n"), ("|", "\r\n"))),
    ("other signs in a heading", "put 50 @{code}\n", "sep=;\na,b,c;name\nA;B\n", "",
     "script:1: no column 'code': the table has 'a,b,c', 'name'"),
    ("no heading", "put 50 @{code}\n", "sep=;\n", "", "rows.csv has no row"),
    ("a heading that names nothing between cells", "put 50 @{code}\n", "sep=\nA\n", "",
     "script:1: no column 'code': the table has 'sep='"),
    # the script
    *((f"script {at}", script, None, "", f"script:{line}")
      for at, (script, line) in enumerate(SCRIPTS)),
    ("no operation", "# get 50\n\n", None, "", "script has no operation"),
    ("no operation, with --check", "# get 50\n\n", None, "--check --new",
     "script has no operation"),
    # readers
    ("a reader that is missing, with --check", None, None, "--check --new --reader=Gemalto",
     "'Gemalto' names 0 readers; S"),
    ("a reader that is missing", None, None, "--reader=Gemalto", "'Gemalto' names 0 readers; S"),
    ("a name of two readers", None, None, "--reader=Slot", "'Slot' names 2 readers; S"),
    ("no reader named", None, None, "--id=9F7F", "name one with --reader; S"),
    # the journal
    ("a journal that is missing", None, None, "--journal=x --reader=Slot0",
     "there is no journal x: --new creates it"),
    ("a row that has not begun", None, None, "--journal=made --done=1", "row 1 has not begun"),
    ("a row beyond the table", None, None, "--journal=made --again=9", "row 9 has not begun"),
    ("a row to look at that has not begun", None, None, "--journal=made --look=1 --reader=Slot0",
     "row 1 has not begun"),
    ("another part", None, None, "--journal=made --part=2/5 --reader=Slot0",
     "made is the journal of part 1/1"),
    ("an identifier that the script stores", "get 50\nput 9F7F {code}\n", None,
     "--id=9F7F --reader=Slot0", "script stores 9F7F, so that can't tell cards apart"),
    ("another identifier", None, None, "--journal=made --id=51 --reader=Slot0",
     "made was created without --id"),
]  # fmt: skip


def room_of(path, script, rows):
    room = Room(path, 2, readers=2)
    room.write("script", script or SCRIPT)
    if rows is not None:
        (path / "rows.csv").write_bytes(rows if isinstance(rows, bytes) else rows.encode())
    return room


def test_there_are_sixty_of_them():
    assert len({it[0] for it in MISTAKES}) == len(MISTAKES) >= 60


@pytest.mark.parametrize("mistake", MISTAKES, ids=[it[0] for it in MISTAKES])
def test_a_mistake_is_named_before_any_card(tmp_path, mistake):
    _, script, rows, words, line = mistake
    room = room_of(tmp_path, script, rows)
    if "made" in words:
        room.create()
        (tmp_path / "journal").rename(tmp_path / "made")
    program = room.words(*words.split())
    if words == "--id=9F7F":
        program = [it for it in program if not it.startswith("--reader")]
    line = line.replace("; S", f"; there are: '{room.names[0]}', '{room.names[1]}'")
    assert main_of(room, program[3:]) == refused(line)
    assert not room.held() and not (tmp_path / "journal").exists()


@pytest.mark.parametrize(("form", "cell"), [(it[0], cell) for it in FITTING for cell in it[1:]])
def test_a_cell_has_a_format(form, cell):
    script = Script("script", f"column name {form}\nput 50 @{{name}}\n", ["name"])
    wrong = [*script.wrong]
    script.steps({"name": cell}, "here", wrong)
    assert wrong == []


@pytest.mark.parametrize(("form", "cell"), UNFIT)
def test_a_cell_does_not_have_a_format(form, cell):
    script, wrong = Script("script", f"column name {form}\nput 50 41\n", ["name"]), []
    script.steps({"name": cell}, "here", wrong)
    many = "1 character" if len(cell) == 1 else f"{len(cell)} characters"
    assert script.wrong == [] and wrong == [f"here, column 'name': {many}, not `{form}`"]


@pytest.mark.parametrize("cell", ["1.0E+10", "1E+10", "1,23457E+15", "-1.5E-7", "12.E+1"])
def test_a_text_is_no_number_that_was_shortened(cell):
    script, wrong = Script("script", "column name text\nput 50 @{name}\n", ["name"]), []
    script.steps({"name": cell}, "here", wrong)
    assert wrong == [f"here, column 'name': {SHORT}"]


def test_check_of_one_row(tmp_path):
    room = Room(tmp_path, 1)
    assert room.run("--check", "--new") == (0, "1 row, and no mistake\n", "")


def test_check_finds_no_mistake_and_writes_nothing(tmp_path):
    room = Room(tmp_path, 2)
    before = sorted(it.name for it in tmp_path.iterdir())
    for words in (room.readers, ()):
        wanted = (0, "2 rows, and no mistake\n", "")
        assert room.run("--check", "--new", *words) == wanted
    assert sorted(it.name for it in tmp_path.iterdir()) == before and not room.held()
    room.create()
    assert room.run("--check") == (0, "2 rows, and no mistake\n", "")
    (journal := tmp_path / "journal").write_bytes(b"")  # as a crash may leave it
    assert room.run("--check", "--new") == (0, "2 rows, and no mistake\n", "")
    assert journal.read_bytes() == b""
    journal.write_text("name,code\n")
    wanted = refused("journal exists: without --new the batch continues")
    assert room.run("--check", "--new") == wanted
    assert journal.read_text() == "name,code\n"


def test_all_mistakes_are_named_at_once_up_to_twenty(tmp_path):
    room = Room(tmp_path, 2)
    room.write("rows.csv", "name,code\n" + "".join(f"A{at},{at:03X}\n" for at in range(25)))
    lines = room.run("--check", "--new")[2].splitlines()
    where = "galliumtoad.batch: rows.csv line"
    digits = "column 'code': 3 digits, an odd number"
    assert lines[:20] == [f"{where} {at}, {digits}" for at in range(2, 22)]
    assert lines[20:] == ["galliumtoad.batch: and 5 more mistakes"]


def test_all_mistakes_of_a_row_are_named(tmp_path):
    room = room_of(tmp_path, None, "name,code\nA\0,1\nA\0,2\n")
    where = [f"galliumtoad.batch: rows.csv line {at}, column" for at in (2, 3)]
    assert room.run("--check", "--new")[2].splitlines() == [
        line for it in where
        for line in (f"{it} 'name': a NUL character", f"{it} 'code': 1 digit, an odd number")
    ]  # fmt: skip


@pytest.mark.parametrize("rows", ["name,code\nA,00\nA,00\n", "id,name,code\n1,A,00\n1,B,00\n",
                                  "name,code\n,00\n"])  # fmt: skip
def test_duplicates_and_empty_texts_may_be_allowed(tmp_path, rows):
    room = room_of(tmp_path, None, rows)
    assert room.run("--check", "--new")[0] == 2
    assert room.run("--check", "--new", "--allow-duplicates")[0] == 0


def test_no_reader_at_all(tmp_path):
    room = Room(tmp_path, 1, readers=0)
    assert room.run("--reader=X") == refused("'X' names 0 readers; there is no reader")
    assert room.run("--id=9F7F") == refused("name one with --reader; there is no reader")


def test_without_pyscard_one_line_names_the_package(tmp_path):
    room = Room(tmp_path, 1)
    room.is_apart = True
    (tmp_path / "smartcard").mkdir()
    (tmp_path / "smartcard/__init__.py").write_text("raise ModuleNotFoundError(name='smartcard')")
    room.environment["PYTHONPATH"] = f"{tmp_path}:{room.environment['PYTHONPATH']}"
    line = "pyscard is missing: install the package python3-pyscard, or pyscard with pip"
    assert room.run() == refused(line)
    assert not (tmp_path / "journal").exists()
    room.create()
    assert room.run("--status")[:2] == (1, "0 of 1 row done, 0 to decide\n")


@pytest.mark.parametrize(("words", "line"), [
    (["--id=5F"], "argument --id: invalid tag value: '5F'"),
    (["--id=XYZ"], "argument --id: invalid tag value: 'XYZ'"),
    (["--id=12345678"], "argument --id: invalid tag value: '12345678'"),
    (["--part=3/2"], "argument --part: invalid part value: '3/2'"),
    (["--part=0/2"], "argument --part: invalid part value: '0/2'"),
    (["--part=2"], "argument --part: invalid part value: '2'"),
    (["--part=1/\u0662"], "argument --part: invalid part value: '1/\u0662'"),
    (["--again=\u0663"], "argument --again: invalid count value: '\u0663'"),
    (["--done=1_0"], "argument --done: invalid count value: '1_0'"),
    (["--look=+1"], "argument --look: invalid count value: '+1'"),
    (["--stop-after=0"], "argument --stop-after: invalid count value: '0'"),
    (["--journal=a", "--journal=b"], "several journals go with --status alone"),
    (["--journal=a", "--journal=b", "--status", "--done=1"],
     "several journals go with --status alone"),
    (["--journal=a", "--journal=b", "--status", "--again=1"],
     "several journals go with --status alone"),
    (["--new", "--done=1"], "a new journal has no row: --new goes with a run, --import or --check"),
    (["--new", "--status"], "a new journal has no row: --new goes with a run, --import or --check"),
    (["--report=rows.txt"], "a report ends in .html or .csv"),
    (["--report=rows.csv"], "the report would replace what the batch reads"),
    (["--report=here/../rows.csv"], "the report would replace what the batch reads"),
])  # fmt: skip
def test_a_word_that_does_not_fit_is_named(tmp_path, words, line):
    room = Room(tmp_path, 1)
    (tmp_path / "here").mkdir()
    status, out, error = room.run(*words)
    assert (status, out) == (2, "")
    assert error.splitlines()[-1] == f"galliumtoad.batch: error: {line}"
    assert (tmp_path / "rows.csv").read_text().startswith("name,code\n")


def test_no_mistake_hides_another(tmp_path):
    """Of the script, of its columns, of the form of the table, and of its cells."""
    room = room_of(tmp_path, "select A0\ntake 50\nput 5F {age}\nput 50 4\nput 9F36 {code}\n",
                   "name,code\nA,1\nB\nC,2\nD,3\nD,3\n")  # fmt: skip
    where = "rows.csv line"
    assert room.run("--check", "--new")[2].splitlines() == [f"galliumtoad.batch: {it}" for it in [
        "script:1: `select`: identifier: 1 byte, but an identifier has 5 to 16",
        "script:2: `take` is no operation: it is one of select, send, get, put",
        "script:3: `put`: tag: not a tag that a command can name",
        "script:3: no column 'age': the table has 'name', 'code'",
        "script:4: `put`: value: 1 digit, an odd number",
        f"{where} 2, column 'code': 1 digit, an odd number",
        f"{where} 3: 1 cell, but 2 columns",
        *(f"{where} {at}, column 'code': 1 digit, an odd number" for at in (4, 5, 6)),
        f"{where} 6: the same row as {where} 5",
    ]]  # fmt: skip
