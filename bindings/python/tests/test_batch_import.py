"""Tests rows that a journal has imported: all of a table or nothing, keys, secrets that are joined
at a station, results, and who is refused."""

import csv
import os
import sqlite3
import subprocess
import sys

import pytest
from room import SCRIPT, Room, ended, refused

SECRET = "column code secret hex 8\n" + SCRIPT


def lines_of(path):
    with open(path, newline="") as file:
        return [*csv.reader(file)]


@pytest.fixture
def room(tmp_path):
    made = Room(tmp_path, 3)
    rows = "no,name,code\n" + "".join(f"K{it},PERSON {it},{it:08X}\n" for it in (1, 2, 3))
    made.write("rows.csv", rows)
    return made


def program(room, *words):
    """Runs the program without a table. Returns what `Room.run` does."""
    from room import main_of

    more = [] if any(it.startswith("--journal") for it in words) else ["--journal=journal"]
    return main_of(room, ["script", *more, *words])


def imports(room, *words):
    return program(room, "--import=rows.csv", *words)


def runs(room, *words):
    return program(room, *room.readers, "--go", *words)


def test_rows_are_imported_and_written(room):
    assert imports(room, "--new", "--key=no", "--id=9F7F") == (0, "3 rows imported\n", "")
    (room.path / "rows.csv").unlink()
    assert program(room, "--status")[:2] == (1, "0 of 3 rows done, 0 to decide\n")
    status, out, error = runs(room, "--operator=Ann", "--station=desk 1", "--report=day.csv")
    assert (status, error) == (0, "") and out.startswith("starting: 0 of 3 rows done\n")
    assert [room.cards_of(row) for row in (1, 2, 3)] == [(1, 1)] * 3
    head, *rows = lines_of(room.path / "day.csv")
    assert [it[:6] for it in rows] == [
        [str(row), f"K{row}", room.id_of(row - 1), room.names[0], "desk 1", "Ann"]
        for row in (1, 2, 3)]
    assert program(room, "--check") == (0, "3 rows, and no mistake\n", "")


def test_more_rows_follow(room):
    assert imports(room, "--new", "--key=no")[0] == 0
    assert imports(room) == refused("journal has one of these rows, or its key")
    room.write("rows.csv", "no,name,code\nK4,PERSON 4,00000004\n")
    assert imports(room) == (0, "1 row imported\n", "")
    room.write("rows.csv", "name,no,code\nPERSON 5,K5,00000005\n")
    assert imports(room) == refused("journal has rows of other columns")
    assert runs(room)[1].endswith("4 of 4 rows done, 0 to decide\n")
    assert room.cards_of(4) == (1, 1) and room.cards_of(5) == (0, 0)


MISTAKES = [
    ("no,name,code\nK1,A,00\nK2,B,0\nK3,C,000\n",
     ["line 3, column 'code': 1 digit, an odd number",
      "line 4, column 'code': 3 digits, an odd number"]),
    ("no,name,code\nK1,A,00\nK2,B\n", ["line 3: 2 cells, but 3 columns"]),
    ("no,name,code\nK1,A,00\nK1,B,01\n", ["line 3, column 'no': the same as in rows.csv line 2"]),
    ("no,name,code\nK1,A,00\n,B,01\n", ["line 3, column 'no': empty"]),
    ("no,name,code\nK1,A,00\nK\0,B,01\n",
     ["line 3, column 'no': a character that can't be printed"]),
    ("no,name,code\nK1,A,00\nK2,B,01\nK1,A,00\n",
     ["line 4: the same row as rows.csv line 2"]),
    ("no,name,code\n", [" has no row"]),
    ("name,code\nA,00\n", [" has no column 'no', which is the key"]),
]  # fmt: skip


@pytest.mark.parametrize(("text", "lines"), MISTAKES)
def test_a_mistake_imports_nothing(room, text, lines):
    """And leaves no journal, so that the same words import the table once it is right."""
    right = (room.path / "rows.csv").read_text()
    room.write("rows.csv", text)
    for more in (["--check"], []):
        status, out, error = imports(room, "--new", "--key=no", *more)
        wanted = [f"galliumtoad.batch: rows.csv{it if it[0] == ' ' else ' ' + it}" for it in lines]
        assert (status, out) == (2, "") and sorted(error.splitlines()) == sorted(wanted)
        assert [*room.path.glob("journal*")] == []
    room.write("rows.csv", right)
    assert imports(room, "--new", "--key=no")[0] == 0
    # nor does one in rows that follow
    room.write("rows.csv", text)
    before = room.dump()
    assert imports(room)[0] == 2 and room.dump() == before


def test_many_mistakes_end_the_search(room):
    room.write("rows.csv", "no,name,code\n" + "".join(f"K{it},A{it},0\n" for it in range(3000)))
    lines = imports(room, "--new")[2].splitlines()
    assert len(lines) == 21 and lines[-1].endswith(": and more than 981 more mistakes")


def test_duplicates_may_be_allowed_but_not_of_keys(room):
    room.write("rows.csv", "no,name,code\nK1,A,00\nK2,A,00\n")
    room.write("script", "put 5F20 @{name}\n")
    assert imports(room, "--new")[0] == 0
    (room.path / "journal").unlink()
    room.write("rows.csv", "no,name,code\nK1,A,00\nK1,A,00\n")
    assert imports(room, "--new", "--allow-duplicates", "--key=no")[0] == 2
    assert imports(room, "--new", "--allow-duplicates")[0] == 0


@pytest.mark.parametrize(("text", "what"), [
    (SCRIPT.replace("50 41*300", "50 42*300"), "script"),
    (SCRIPT + "get 50\n", "script"),
    ("column name text 26\n" + SCRIPT, "formats of columns"),
    ("column code secret\n" + SCRIPT, "formats of columns"),
    (SCRIPT.replace("{code}", "{no}"), "script"),
])  # fmt: skip
def test_a_station_with_another_script_or_format_is_refused(room, text, what):
    assert imports(room, "--new", "--key=no")[0] == 0
    room.write("script", "# a word more\n" + SCRIPT)
    assert program(room, "--status")[0] == 1
    room.write("script", text)
    for words in (["--status"], room.readers, ["--check"], ["--look=1", *room.readers]):
        status, out, error = program(room, *words)
        assert (status, out) == (2, "")
        assert error.startswith(f"galliumtoad.batch: journal has rows of another {what}: sum ")
    assert not room.held()


def test_a_script_s_file_is_part_of_it(room):
    room.write("script", "put 50 @photo\n")
    room.write("photo", "A")
    assert imports(room, "--new")[0] == 0
    room.write("photo", "B")
    assert "another script" in program(room, "--status")[2]


def test_cells_come_from_one_place(room):
    assert program(room, "--status", "--new")[0] == program(room, "--new")[0] == 2
    assert imports(room, "--new")[0] == 0
    line = "journal has imported its rows: it takes no --rows"
    assert program(room, "--rows=rows.csv", "--status") == refused(line)
    assert program(room, "--rows=rows.csv", "--import=rows.csv")[0] == 2
    assert program(room, "--rows=rows.csv", "--new", "--journal=other", "--check")[0] == 2
    (room.path / "journal").unlink()
    room.create()
    line = "journal has no cells: it needs its table by --rows"
    assert program(room, "--status") == imports(room) == refused(line)


def test_a_row_that_was_imported_and_its_file_of_a_value(room):
    """The file is read when the row is reached."""
    room.write("script", "select A0000000031010\nput 5F20 @{name}.jpg\n")
    for row in (1, 2, 3):
        (room.path / f"PERSON {row}.jpg").write_bytes(bytes([row]))
    assert imports(room, "--new")[0] == 0
    (room.path / "PERSON 2.jpg").unlink()
    status, out, error = runs(room)
    assert status == 1 and f"{room.names[0]}: row 2, column 'name': no file" in error
    assert out.endswith("1 of 3 rows done, 0 to decide\n")
    assert sorted(it["24352"] for it in room.held().values()) == ["01"]


# Secrets. The codes are in no journal, report, result or dialogue.


def forms(room):
    """How a code could be written anywhere."""
    codes = ["0000007A", "0000007B", "0000007C"]
    return [it for code in codes for it in (code, code.lower(), str(bytes.fromhex(code))[2:-1])]


@pytest.fixture
def secret(room):
    rows = "no,name\n" + "".join(f"K{it},PERSON {it}\n" for it in (1, 2, 3))
    room.write("rows.csv", rows)
    room.write("script", SECRET)
    room.write("codes.csv", "code,no\n0000007C,K3\n0000007A,K1\n0000007B,K2\n")
    return room


def codes_of(room):
    """The codes on the cards, by their names."""
    return {bytes.fromhex(it["24352"]).decode(): it["40758"] for it in room.held().values()
            if "40758" in it}


ALL = {"PERSON 1": "0000007a", "PERSON 2": "0000007b", "PERSON 3": "0000007c"}


@pytest.mark.parametrize("source", ["codes.csv", "|sh print.sh"])
def test_secrets_are_joined_by_the_key(secret, source):
    room = secret
    room.write("print.sh", 'head -n 1 codes.csv; grep ",$1$" codes.csv\n')
    assert imports(room, "--new", "--key=no")[0] == 0
    status, out, error = runs(room, f"--secret-from={source}", "--report=day.html")
    assert (status, error) == (0, "") and codes_of(room) == ALL
    assert program(room, "--export=all.csv")[0] == program(room, "--backup=copy")[0] == 0
    said = [out, room.dump(), (room.path / "day.html").read_text(),
            (room.path / "all.csv").read_text(), program(room, "--row=2")[1]]
    said += [(room.path / it).read_bytes().decode("latin-1") for it in ("journal", "copy")]
    for text in said:
        assert [it for it in forms(room) if it in text] == []
    assert "PERSON 2" in said[1] and "PERSON 2" in said[3]


def test_a_secret_column_of_a_table_is_checked_and_not_imported(secret):
    room = secret
    rows = "no,code,name\nK1,0000007A,PERSON 1\nK2,0000007B,PERSON 2\nK3,0000007C,PERSON 3\n"
    room.write("rows.csv", rows.replace("7B", "7"))
    wanted = "rows.csv line 3, column 'code': 7 characters, not `hex 8`"
    assert imports(room, "--new", "--key=no") == refused(wanted)
    room.write("rows.csv", rows)
    assert imports(room, "--new", "--key=no")[0] == 0
    assert [it for it in forms(room) if it in room.dump()] == []
    assert "row 1 lacks a secret: --secret-from" in runs(room)[2]
    assert runs(room, "--secret-from=codes.csv")[0] == 0 and codes_of(room) == ALL


def test_the_sum_of_a_row_does_not_tell_a_secret(secret):
    """It has few digits, which could be tried."""
    room = secret
    assert imports(room, "--new", "--key=no")[0] == 0
    digests = []
    for code in ("0000007A", "0000007B"):
        room.write("codes.csv", f"no,code\nK1,{code}\nK2,{code}\nK3,{code}\n")
        assert runs(room, "--secret-from=codes.csv", "--go")[0] == 0
        digests.append(room.asked("SELECT digest FROM rows ORDER BY number"))
        program(room, "--again=1", "--again=2", "--again=3")
    assert digests[0] == digests[1] and len({*digests[0]}) == 3


def test_one_desk_joins_secrets_too(secret):
    room = secret
    words = ("--rows=rows.csv", *room.readers, "--go")
    wanted = "rows.csv has no column 'code': --secret-from has to join it"
    assert program(room, "--new", *words) == refused(wanted)
    more = ("--key=no", "--secret-from=codes.csv")
    assert program(room, "--new", *words, *more)[0] == 0 and codes_of(room) == ALL
    assert [it for it in forms(room) if it in room.dump()] == []
    assert [it for it in ("PERSON", "50455253") if it in room.dump()] == []
    assert "K2" in room.dump()  # the key is there, since the station joins by it


@pytest.mark.parametrize(("name", "text", "line"), [
    ("codes.csv", "code,no\n0000007A,K1\n", "codes.csv has no secret for the key K2"),
    ("codes.csv", "code,no\n0000007A,K1\n0000007B,K1\n",
     "codes.csv line 3, column 'no': a key once more"),
    ("codes.csv", "code\n0000007A\n", "codes.csv has no column 'no'"),
    ("codes.csv", "no\nK1\n", "codes.csv has no column 'code'"),
    ("codes.csv", "no,code\nK1,7\nK2,7\nK3,7\n",
     "row 1, column 'code': 1 character, not `hex 8`"),
    ("|false", None, "false ended with 1"),
    ("|nothing-of-this-name", None, "No such file or directory: 'nothing-of-this-name'"),
    ("|echo", None, "echo has no column 'code', 'no'"),
])  # fmt: skip
def test_a_secret_that_is_missing_or_wrong_stops_the_run_before_the_card(secret, name, text, line):
    room = secret
    if text:
        room.write("codes.csv", text)
    assert imports(room, "--new", "--key=no")[0] == 0
    status, out, error = runs(room, f"--secret-from={name}")
    assert status != 0 and line in error and error.count("\n") == 1
    assert "0000007" not in error and "unsure" not in out
    assert len(codes_of(room)) == ("K2" in line)


@pytest.mark.parametrize(("script", "key", "why"), [
    (SCRIPT, ["--key=no"], "no column is secret in the script"),
    (SECRET, [], "the journal has no --key"),
])  # fmt: skip
def test_nothing_to_join(room, script, key, why):
    room.write("script", script)
    assert imports(room, "--new", *key)[0] == 0
    line = f"--secret-from has nothing to join: {why}"
    assert runs(room, "--secret-from=codes.csv") == refused(line)


def test_results(room):
    text = (room.path / "rows.csv").read_text()
    room.write("rows.csv", text.replace("PERSON 2", '"A ""b"",\nc"'))
    assert imports(room, "--new", "--key=no", "--id=9F7F")[0] == 0
    room.put_in(room.names[0], 7)  # it is pulled
    assert runs(room, "--stop-after=1")[0] == 1
    assert program(room, "--export=all.csv") == (0, "", "")
    head, *rows = lines_of(room.path / "all.csv")
    assert head[:6] == ["no", "name", "code", "row", "key", "id"] and head[-2:] == ["outcome",
                                                                                   "reason"]
    assert [it[:5] for it in rows] == [["K1", "PERSON 1", "00000001", "1", "K1"],
                                       ["K2", 'A "b",\nc', "00000002", "2", "K2"],
                                       ["K3", "PERSON 3", "00000003", "3", "K3"]]
    outcomes = [(it[5], it[-2]) for it in rows]
    assert outcomes == [(room.id_of(7), "unsure"), ("", "free"), ("", "free")]
    assert rows[1][9] == "" != rows[0][9]
    assert program(room, "--export=journal.csv", "--journal=journal.csv")[0] == 2


def test_the_steps_of_a_row(room):
    assert imports(room, "--new", "--key=no", "--id=9F7F")[0] == 0
    assert runs(room, "--operator=Ann", "--station=desk 1")[0] == 0
    assert program(room, "--again=2", "--operator=Bob", "--station=desk 2")[0] == 1
    out = program(room, "--row=2")[1].splitlines()
    words = [it.split(" ", 2)[2] for it in out[:-1]]
    assert words == [f"begin, desk 1, Ann: {room.names[0]}", f"card, desk 1, Ann: {room.id_of(1)}",
                     "done, desk 1, Ann", "again, desk 2, Bob: decided"]
    assert out[-1] == f"row 2, key K2, card {room.id_of(1)}: free"
    assert program(room, "--row=9") == (0, "row 9: free\n", "")


def test_a_backup_during_a_run_is_one_command(room):
    assert imports(room, "--new", "--key=no")[0] == 0
    room.environment["SLOW"], room.is_apart = "0.05", True
    words = ["script", "--journal=journal", *room.readers, "--go"]
    run = room.start_program([sys.executable, "-m", "galliumtoad.batch", *words])
    room.begun("done")
    for number in range(3):
        assert program(room, f"--backup=copy{number}") == (0, "", "")
        assert (room.path / f"copy{number}").stat().st_mode & 0o777 == 0o600
        with sqlite3.connect(room.path / f"copy{number}") as made:
            assert made.execute("PRAGMA integrity_check").fetchall() == [("ok",)]
            assert made.execute("SELECT count(*) FROM rows").fetchall() == [(3,)]
    assert ended(run)[1] == ""
    assert "exists" in program(room, "--backup=copy0")[2]
    assert program(room, "--journal=copy2", "--status")[0] in (0, 1)


@pytest.mark.parametrize("words", [["--key=name"], ["--key=no", "--id=51"], ["--part=1/2"]])
def test_what_a_journal_was_created_with_stays(room, words):
    assert imports(room, "--new", "--key=no")[0] == 0
    assert program(room, "--status", *words)[0] == 2


def test_a_key_of_one_desk(room):
    """It may change as long as its row has not begun."""
    words = ["--rows=rows.csv", *room.readers, "--go", "--id=9F7F"]
    room.put_in(room.names[0], 7)  # it is pulled
    assert program(room, "--new", "--key=no", "--stop-after=1", *words)[0] == 1
    text = (room.path / "rows.csv").read_text()
    room.write("rows.csv", text.replace("K2", "K").replace("K3", "K2").replace("K,", "K3,"))
    assert program(room, "--again=1", *words[:1])[0] == 1
    assert room.asked("SELECT key FROM rows ORDER BY number") == [("K1",), ("K3",), ("K2",)]
    assert program(room, *words)[0] == 0
    room.write("rows.csv", text)
    assert program(room, *words) == refused("journal: row 2 has begun with another key")


TABLE = """import sys
with open("rows.csv", "w") as file:
    print("no,name,code", file=file)
    for it in range(1, int(sys.argv[1]) + 1):
        print(f"K{it},PERSON {it},{it:08X}", file=file)
"""


def test_memory_does_not_grow_with_the_table(room):
    """The whole of a million rows was measured by hand: see STATIONS."""
    subprocess.run([sys.executable, "-c", TABLE, "20000"], cwd=room.path, check=True)
    asks = """import resource, sys
from galliumtoad.batch import main
assert main(sys.argv[1:]) == 0
print(resource.getrusage(resource.RUSAGE_SELF).ru_maxrss)
"""
    sizes = []
    words = ["script", "--import=rows.csv", "--new", "--key=no", "--id=9F7F"]
    for count in (2000, 20000):
        text = (room.path / "rows.csv").read_text().split("\n", count + 1)
        (room.path / "part.csv").write_text("\n".join(text[: count + 1]) + "\n")
        words[1] = "--import=part.csv"
        program = [sys.executable, "-c", asks, *words, f"--journal=j{count}"]
        out = ended(room.start_program(program))[0]
        assert out.startswith(f"{count:,} rows imported\n")
        sizes.append(int(out.splitlines()[1]))
        (room.path / f"j{count}").rename(room.path.parent / f"j{count}-{os.getpid()}")
    assert sizes[1] - sizes[0] < 9000  # kilobytes: 12 bytes a row and key, and pages
