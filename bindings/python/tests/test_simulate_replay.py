"""Tests cards that answer as those in a capture, by lines in the form of `trace_explain --json
--commands` and by that program."""

import io
import json
import os
import subprocess
import sys
import time
from pathlib import Path

import pytest
from galliumtoad import T1, Command, OwnCard
from galliumtoad.cards import Replay, typed
from galliumtoad.mistakes import Mistake
from galliumtoad.simulate import Simulator, main
from room import folder_of_programs
from line_in_memory import End, at_t0, at_t1
from test_simulate import Vpcd
from waiting import AtPty

TESTS = Path(__file__).resolve().parent
CAPTURES = TESTS.parents[2] / "checks" / "explain" / "cases" / "captures"


@pytest.fixture(autouse=True)
def programs(monkeypatch):
    monkeypatch.setenv("PATH", f"{folder_of_programs()}:{os.environ['PATH']}")


def tpdu(line, header, sent, received, status, **more):
    names = dict(zip(("cla", "ins", "p1", "p2", "p3"), bytes.fromhex(header).hex(" ").split()))
    names = {name: digits.upper() for name, digits in names.items()}
    return {"type": "tpdu", "line": line, **names, "sent": sent, "received": received,
            "status": status, **more}


def command(*tpdus):
    """A command of these TPDUs, whose parts are joined."""
    first = tpdus[0]
    last = tpdus[-1]
    joined = {name: "".join(it[name] or "" for it in tpdus) for name in ("sent", "received")}
    return {"type": "command", "line": first["line"], **joined, "status": last["status"],
            "tpdus": list(tpdus)}


def one(line, header, sent="", received="", status="9000", **more):
    return command(tpdu(line, header, sent, received, status, **more))


RESET = {"type": "reset", "line": 1}
ATR = {"type": "atr", "line": 1, "characters": "3B021450"}
SUMMARY = {"type": "summary", "tpdus": 3}


@pytest.fixture
def replay(tmp_path):
    """Makes a card of these objects."""
    def made(*objects, **more):
        lines = [json.dumps(it, separators=(",", ":")) for it in objects]
        (tmp_path / "capture").write_text("\n".join([*lines, ""]))
        return Replay(str(tmp_path / "capture"), **more)

    return made


def asked(card, *commands):
    """The answers to whole commands."""
    with Simulator(OwnCard(card)) as it:
        return [it(bytes.fromhex(each)).hex().upper() for each in commands]


COUNTER = [one(2, "80100000", "", "01"), one(4, "80100000", "", "02", "6283")]
SELECT = command(tpdu(6, "00A4040005", "A000000003", "", "6104"),
                 tpdu(8, "00C0000002", "", "6F02", "6102"),
                 tpdu(9, "00C0000002", "", "8400", "9000"))
ASKED_AGAIN = command(tpdu(10, "00CA005000", "", "", "6C03"),
                      tpdu(12, "00CA005003", "", "50014A", "9000", asked_again=True))
CHAIN = command(tpdu(14, "10DA005001", "AA", "", "9000"), tpdu(16, "00DA005001", "BB", "", "6A84"))


OF_ITS_OWN = [command(tpdu(1, "A0A4000002", "3F00", "", "9F03"),
                      tpdu(2, "A0C0000003", "", "AABBCC", "9000")),
              one(3, "A0A4000002", "7F20", "", "9F01"), one(4, "A0C0000001", "", "DD")]
# The objects of a capture, words of the card, and commands, each with its answer.
REPLAYS = [
    # in the order of the capture: the last one comes again
    ([RESET, ATR, *COUNTER, SUMMARY], {}, "8010000001 019000 8010000001 026283 8010000001 026283 "
     "8010000101 6D00 80100000 6101"),
    (COUNTER, {"unknown": 0x6A82}, "80CA000000 6A82"),
    # parts are joined, and pieces are not
    ([SELECT, ASKED_AGAIN, CHAIN], {}, "00A4040005A000000003 6104 00C0000004 6F0284009000 "
     "00CA005003 50014A9000 10DA005001AA 9000 00DA005001BB 6A84 00DA005001CC 6D00 "
     "00A4040005A00000000300 6F0284009000 00CA005000 50014A9000"),
    # another Le is the same command: it fetches as much as it asks for, GET RESPONSE the rest
    ([one(1, "00B0000004", "", "01020304")], {}, "00B0000004 010203049000 00B0000000 010203049000 "
     "00B0000002 01026102 00C0000002 03049000 00B00000 6104 00C0000000 010203049000"),
    # a command that is cut off before its status or within it is unknown
    ([COUNTER[0], one(4, "80200000", "", "02", ""), one(6, "80300000", "", "03", "90")], {},
     "8010000001 019000 8020000001 6D00 8030000001 6D00"),
    # a response that was not fetched is zeros, and its status is that of an unknown command
    *(([one(1, "00A4040005", "A000000003", "", it)], {"unknown": 0x6F00}, "00A4040005A000000003 "
       "6104 00C0000004 000000006F00 00A4040005A00000000300 000000006F00")
      for it in ("6104", "6C04")),
    ([one(1, "00B0000000", "", "AA" * 256, "6100")], {},
     f"00B0000000 {'AA' * 256}6100 00C0000000 {'00' * 256}6D00"),
    # a GET RESPONSE of its own, as after 9FXX, where 61XX would announce what waits
    (OF_ITS_OWN, {}, "A0A40000023F00 9F03 A0C0000003 AABBCC9000 A0A40000027F20 9F01 "
     "A0C0000001 DD9000 00C0000001 6985 A0C0000000 DD9000 A0C00000 9000"),
    # digits of either case, and any name first in a line
    ([one(1, "00a4040002", "abcd", "ef", "9f1c")], {}, "00A4040002ABCD00 EF9F1C"),
    ([{"line": 1, "type": "reset"}, *COUNTER], {}, "8010000001 019000"),
]  # fmt: skip


@pytest.mark.parametrize(("objects", "more", "dialogue"), REPLAYS)
def test_what_a_capture_answers(replay, objects, more, dialogue):
    words = dialogue.split()
    assert asked(replay(*objects, **more), *words[::2]) == words[1::2]


def test_the_first_answer_to_reset_counts(replay):
    other = {"type": "atr", "line": 5, "characters": "3B00"}
    assert replay(ATR, *COUNTER, other, *COUNTER).atr.hex() == "3b021450"
    assert replay(other, *COUNTER, ATR).atr.hex() == "3b00" and replay(*COUNTER).atr == b""


def test_data_and_no_data(replay):
    """Also where the capture has the other, which a card of one's own refuses as 6700."""
    verify = one(2, "0020008002", "3132", "", "9000"), one(3, "00200080", "", "", "63C3")
    card = replay(*COUNTER, *verify)
    assert asked(card, "801000000101", "80D600000101", "00200080", "0020008000", "00200080023132",
                 "00200080023133", "00200080023132", "002000800231") == [
        "6D00", "6D00", "63C3", "63C3", "9000", "6D00", "9000", "6700"]
    line = End(Simulator(OwnCard(replay(*verify))), at_t0)
    said = [b"".join(line.take_in(bytes([each])) for each in bytes.fromhex(it))
            for it in ("0020008000", "00200080023132", "80D6000002")]
    assert [it.hex() for it in said] == ["63c3", "209000", "6d00"]


SESSIONS = [RESET, ATR, one(1, "00200080", "", "", "63C2"), RESET, RESET,
            one(2, "00200080", "", "", "63C1"), ATR, one(3, "00200080", "", "", "63C0")]


def test_a_reset_begins_the_next_session(replay):
    """Only after a command, and the first one follows the last."""
    card = replay(*SESSIONS)
    verify = bytes.fromhex("00200080")
    with Simulator(OwnCard(card)) as it:
        assert it(verify).hex() == it(verify).hex() == "63c2"
        for status in ("63c1", "63c0", "63c2"):
            it.reset()
            it.reset()
            assert it(verify).hex() == status
        it.reset()
        assert it(bytes.fromhex("00200081")).hex() == "6d00"


def test_a_strict_card(replay, tmp_path):
    card = replay(*COUNTER, SELECT, is_strict=True)
    with Simulator(OwnCard(card)) as it:
        assert [it(bytes.fromhex("8010000001")).hex() for _ in range(2)] == ["019000", "026283"]
        with pytest.raises(Mistake) as why:
            it(bytes.fromhex("8010000001"))
        text = "capture: line 6 has 00A40400A000000003, not 80100000"
        assert str(why.value) == f"{tmp_path}/{text}"
    with Simulator(OwnCard(replay(one(1, "00200080"), is_strict=True))) as it:
        it(bytes.fromhex("00200080"))
        with pytest.raises(Mistake, match="the session has ended, not 00200080$"):
            it(bytes.fromhex("00200080"))
        it.reset()
        assert it(bytes.fromhex("00200080")).hex() == "9000"


@pytest.mark.parametrize(
    ("objects", "why"),
    [([one(7, "00200080", None, "", "9000", masked=True)],
      "line 7: a masked value: left out\n.*: no command with an answer"),
     ([], "no characters heard"), ([ATR, SUMMARY], "no command with an answer"),
     ([one(1, "00CA0050", "", "", "")], "no command with an answer")],
)
def test_a_capture_that_can_not_be_replayed(replay, tmp_path, objects, why):
    with pytest.raises(Mistake, match=f"^{tmp_path}/capture: {why}"):
        replay(*objects)


TOO_LONG = command(tpdu(7, "00B0000000", "", "AA" * 256, "6100"),
                   *(tpdu(8, "00C0000000", "", "AA" * 256, "6100") for _ in range(15)),
                   tpdu(9, "00C0000000", "", "AA", "9000"))


@pytest.mark.parametrize(
    ("left_out", "why"),
    [(one(7, "00200080", None, "", "9000", masked=True), "a masked value"),
     (one(7, "00CA0050", "", None, "9000", masked=True), "a masked value"),
     ({"type": "error", "line": 7, "text": "unexpected byte"}, "unexpected byte"),
     (one(7, "00B00000", "", "AA" * 3841, "9000"), "a response of more than 3840 bytes"),
     (TOO_LONG, "a response of more than 3840 bytes")],
)
def test_what_a_replay_leaves_out(replay, tmp_path, capsys, left_out, why):
    """That command, and no other. The program names its line."""
    it = replay(COUNTER[0], left_out, COUNTER[1])
    said = f"{tmp_path}/capture: line 7: {why}: left out"
    assert it.left_out == [said] and len(it.sessions[0].commands) == 2
    assert asked(it, "8010000001", "8010000001", "00B0000000") == ["019000", "026283", "6D00"]
    assert main(["--replay", f"{tmp_path}/capture", "--tty", "/none/at/all"]) == 1
    assert capsys.readouterr().err.startswith(f"{said}\n")
    assert len(replay(one(7, "00B00000", "", "AA" * 3840), *COUNTER).sessions[0].commands) == 3


def test_a_log_of_pcscd(tmp_path):
    """It has the answer to reset, and a second one begins a session."""
    atr = "00000005 eventhandler.c:286:EHStatusHandlerThread() Card ATR: 3B 80 01 81 "
    lines = [atr, "00000009 APDU: 80 10 00 00 01 ", "00000100 SW: 01 90 00 ",
             atr.replace("80 01 81", "00"), "00000009 APDU: 80 10 00 00 01 ",
             "00000100 SW: 02 90 00 "]
    (tmp_path / "log").write_text("\n".join(lines) + "\n")
    card = Replay(str(tmp_path / "log"))
    assert card.atr.hex() == "3b800181" and not card.left_out
    assert asked(card, "8010000001", "8010000001") == ["019000", "019000"]
    card.reset()
    assert asked(card, "8010000001") == ["029000"]


def test_an_answer_that_is_typed(replay, monkeypatch, capsys):
    """A line that is no answer brings the question again, and no line 6D00."""
    card = replay(*COUNTER, ask=typed)
    lines = io.StringIO("6100\n\n4a4f45 9000\n6A88\n")
    monkeypatch.setattr(sys, "stdin", lines)
    assert asked(card, "00CA005000", "8010000001", "00CA005100", "00CA005200") == [
        "4A4F459000", "019000", "6A88", "6D00"]
    assert capsys.readouterr().err == ("unknown command 00CA0050\n" * 3
                                       + "unknown command 00CA0051\nunknown command 00CA0052\n")
    monkeypatch.setattr(sys, "stdin", None)
    assert asked(card, "00CA005000") == ["6D00"]


def test_the_program_asks(tmp_path):
    """While it waits for a person, it asks the terminal for more time."""
    atr = {**ATR, "characters": "3B804001"}
    lines = [json.dumps(it, separators=(",", ":")) for it in (atr, *COUNTER)]
    (tmp_path / "capture").write_text("\n".join(lines))
    words = ["--replay", tmp_path / "capture", "--no-echo", "--unknown", "ask"]
    card = AtPty(*words, stdin=subprocess.PIPE).open("3B804001")
    assert card.talk(bytes.fromhex("80CA000003"), 1) == b"\x60"
    card.program.stdin.write("4A4F45 9000\n")
    card.program.stdin.flush()
    found = card.read(1)
    while found == b"\x60":
        found = card.read(1)
    assert found + card.read(5) == b"\xcaJOE\x90\x00"
    assert card.end()[1] == "unknown command 80CA0000\n"


def test_lines_that_an_editor_of_another_system_wrote(replay, tmp_path):
    """With a byte order mark, and CR before LF."""
    replay(ATR, *COUNTER)
    text = (tmp_path / "capture").read_bytes().replace(b"\n", b"\r\n")
    (tmp_path / "capture").write_bytes(b"\xEF\xBB\xBF" + text)
    assert asked(Replay(str(tmp_path / "capture")), "8010000001") == ["019000"]


NO_TPDUS = {"type": "command", "line": 2}
WRONG_PARTS = {"line": "two", "cla": "8", "ins": None, "p1": "0", "p2": [], "sent": "zz",
               "received": "4", "status": "zzzz"}
NOT_ITS = [7, [], "error", {}, {"line": 1}, NO_TPDUS, {**NO_TPDUS, "tpdus": 7},
           {**NO_TPDUS, "tpdus": [{"status": 7}]}, {"type": "atr", "characters": "3"},
           {**NO_TPDUS, "tpdus": [1]}, {**NO_TPDUS, "tpdus": ["9000"]},
           {"type": "error"}, one(2, "80100000", status="6000"),
           *(command({**tpdu(2, "80100000", "", "", "9000"), name: wrong})
             for name, wrong in WRONG_PARTS.items())]


@pytest.mark.parametrize("line", [*map(json.dumps, NOT_ITS), "{", "[" * 99999, "9" * 9999],
                         ids=lambda it: it[-50:])
def test_lines_that_another_program_wrote(tmp_path, line):
    lines = [json.dumps(RESET), "", line, json.dumps(COUNTER[0])]
    (tmp_path / "capture").write_text("\n".join(lines))
    with pytest.raises(Mistake, match=f"^{tmp_path}/capture: line 3: not of trace_explain --json:"):
        Replay(str(tmp_path / "capture"))


def test_a_masked_note_does_not_matter(replay):
    assert replay({"type": "note", "line": 1, "text": None, "masked": True}, *COUNTER).sessions
    assert len(replay(one(1, "00CA0050", "", "", ""), *COUNTER).sessions[0].commands) == 2


# The dialogue of sim_tracer.trace: commands, and answers by GSM 11.11.
SIM = ["A0A40000023F00 9F16", "A0C0000016 00001A2C3F00010000000000091303080500838A838A9000",
       "A0A40000022FE2 9F0F", "A0B000000A 980001214365870921439000", "A0A40000027F20 9F17",
       "A0A40000026F07 9F0F", "A0B0000009 9804", "A02000010831323335FFFFFFFF 9804",
       "A02000010831323334FFFFFFFF 9000", "A0B0000009 0809101010325476989000",
       "A08800001000112233445566778899AABBCCDDEEFF 9F0C", "A0C000000C A1B2C3D401020304050607009000",
       "A0F2000016 00001A2C7F20020000000000091303080500838A838A910D"]


def test_a_capture_is_a_card(capsys):
    """At whole commands and at a line of characters it gives the answers of the phone's SIM."""
    path = str(CAPTURES / "sim_tracer.trace")
    assert Replay(path).atr.hex() == "3f2f008059af0102013100000000831e9f0c"
    words = [each.split() for each in SIM]
    assert asked(Replay(path, is_strict=True), *(it for it, _ in words)) == [it for _, it in words]
    line = End(Simulator(OwnCard(Replay(path, is_strict=True))), at_t0)
    found = []
    for each, _ in words:
        found.append(b"".join(line.take_in(bytes([it])) for it in bytes.fromhex(each)))
    # INS before data of either end; a status alone refuses
    assert found[0].hex() == "a49f16" and found[6].hex() == "9804"
    assert [it[1:].hex().upper() for at, it in enumerate(found) if at != 6] == [
        it for at, (_, it) in enumerate(words) if at != 6]


def test_another_card_of_a_capture(replay):
    """It begins with the first command of the first session, and is no part of the other one."""
    card = replay(*SESSIONS)
    verify = Command(bytes.fromhex("00200080"), b"", 256)
    assert card.carry_out(verify) == (0x63C2, b"")
    card.reset()
    again = card.fresh()
    assert again.carry_out(verify) == (0x63C2, b"") and card.carry_out(verify) == (0x63C1, b"")
    card = replay(*COUNTER)
    counts = Command(bytes.fromhex("80100000"), b"", 1)
    both = [(0x9000, b"\x01"), (0x6283, b"\x02")]
    assert [card.carry_out(counts) for _ in both] == both
    again = card.fresh()
    assert [again.carry_out(counts) for _ in both] == both


def seconds_each(replay, count):
    """The time of one command of a session, at best."""
    card = replay(*(one(it, "80100000", "", f"{it:08X}") for it in range(1, count + 1)))
    command = Command(bytes.fromhex("80100000"), b"", 4)
    times = []
    for _ in range(5):
        it = card.fresh()
        begun = time.process_time()
        answers = [it.carry_out(command) for _ in range(count)]
        times.append((time.process_time() - begun) / count)
        assert answers[-1] == (0x9000, count.to_bytes(4, "big"))
    return min(times)


def test_a_long_capture(replay):
    """A command takes as long as in a short one. By a search it would take 20 times as long."""
    assert seconds_each(replay, 6000) < 3 * seconds_each(replay, 300)


def test_a_capture_with_a_fault(tmp_path):
    """The program's own words name the line."""
    with pytest.raises(Mistake, match="line 7, character 17: unexpected byte"):
        Replay(str(CAPTURES / "lost_character.trace"))
    (tmp_path / "capture").write_text("nothing\n")
    with pytest.raises(Mistake, match="capture: "):
        Replay(str(tmp_path / "capture"))


def test_without_the_program(monkeypatch, capsys):
    monkeypatch.setenv("PATH", "/none")
    path = str(CAPTURES / "sim_tracer.trace")
    assert main(["--replay", path, "--pty"]) == 2
    error = capsys.readouterr().err
    assert error.startswith(f"{path}: trace_explain, which reads captures, is not on the PATH. It")
    # bindings/debian puts the program there
    assert "bindings/bin" in error and error.endswith("Debian package galliumtoad\n")


LONG = bytes(it % 251 for it in range(200))


READS = one(20, "00B0000000", "", LONG.hex())


def test_at_t1(replay):
    """Pieces of a chain, and a response of several blocks."""
    card = replay(CHAIN, READS)
    end = End(Simulator(OwnCard(card), bytes.fromhex("3B800181")), at_t1)
    with T1(end.pass_block) as terminal:
        asks = ["10DA005001AA", "00DA005001BB", "00B0000000", "00B0000009", "00CA000000"]
        answers = [terminal(bytes.fromhex(it)) for it in asks]
    assert [it.hex() for it in answers[:2]] == ["9000", "6a84"]
    assert answers[2] == LONG + b"\x90\x00" and answers[3] == LONG[:9] + b"\x61" + bytes([191])
    assert answers[4].hex() == "6d00"


def test_over_vpcd(replay):
    it = Vpcd(of=Simulator(OwnCard(replay(*SESSIONS))))
    for asked_for, answer in [("00200080", "63c2"), ("00200080", "63c2"), ("05", "6700")]:
        assert it.ask(bytes.fromhex(asked_for)).hex() == answer
    for _ in range(3):
        it.say(b"\x02")
    assert it.ask(bytes.fromhex("00200080")).hex() == "63c1"
    it.end()


@pytest.fixture
def program(tmp_path, request):
    """Runs the program with this capture at a pseudo terminal. It has its answer to reset."""
    def start(*words):
        lines = [json.dumps(it, separators=(",", ":")) for it in (ATR, *COUNTER, SELECT)]
        (tmp_path / "capture").write_text("\n".join(lines))
        card = AtPty("--replay", tmp_path / "capture", "--no-echo", *words)
        request.addfinalizer(card.end)
        return card.open("3B021450")

    return start


ASKS = bytes.fromhex("8010000001")


def test_the_program(program):
    card = program("--unknown", "6a88")
    assert [card.talk(ASKS, 4).hex() for _ in range(3)] == ["10019000", "10026283", "10026283"]
    assert card.talk(bytes.fromhex("80CA000000"), 2).hex() == "6a88"


def test_the_program_ends_at_a_departure(program, tmp_path):
    card = program("--strict")
    assert [card.talk(ASKS, 4).hex() for _ in range(2)] == ["10019000", "10026283"]
    os.write(card.line, bytes.fromhex("80CA000000"))
    assert card.program.wait(60) == 2
    said = f"{tmp_path}/capture: line 6 has 00A40400A000000003, not 80CA0000\n"
    assert card.end()[1] == said


@pytest.mark.parametrize("words", [["--unknown", "6100"], ["--unknown", "900"], ["--strict", "x"],
                                   ["--program", "true"]])
def test_words_that_are_refused(tmp_path, capsys, words):
    with pytest.raises(SystemExit) as why:
        main(["--replay", str(tmp_path), "--pty", *words])
    assert why.value.code == 2 and "usage: galliumtoad.simulate" in capsys.readouterr().err
