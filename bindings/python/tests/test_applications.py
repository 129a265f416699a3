"""Tests cards of applications of one's own in `galliumtoad.simulate`, in Python and in programs.
The examples give the same answers at T=0 and at T=1."""

import importlib
import json
import os
import select
import shlex
import signal
import subprocess
import sys
from pathlib import Path

import pytest
from galliumtoad import T1, Exchange, OwnCard
from galliumtoad.cards import Program, application, programs
from galliumtoad.edits import block
from galliumtoad.mistakes import Mistake
from galliumtoad.simulate import Simulator, main, serve
from room import folder_of_programs
from waiting import AtPty, wait_until

EXAMPLES = Path(__file__).resolve().parents[1] / "examples"
sys.path.insert(0, str(EXAMPLES))

# Commands and their answers, by EMV 4.3, ETSI TS 102 221, the OpenPGP application 3.4, PKCS #15 and
# ISO/IEC 7816-4. After a + they continue in the next line.
COUNTER = """
8010000000 019000 8010000001 029000 80100001 6D00 0010000000 6D00
"""
PAYMENT = """
00A404000E325041592E5359532E444446303100 6F29840E325041592E5359532E4444463031A517BF0C1461124F07A0+
0000000410105004544553548701019000
80A80000088306112233440978 6985 00A4040007A000000004101100 6A82 00A4040407A000000004101000 6A86
00A4040005A00000000400 6F1D8407A0000000041010A5125004544553548701019F38069F37045F2A02_9000
00B2010C00 6985 80A8000003830100 6A80 80A80000080806112233440978 6A80
80A8000008830611223344097800 770A820218009404080102009000 80A80000088306112233440978 6985
00B2010C00 701D570C1234567890123452D30122015F200C544F41442F47414C4C49554D9000
00B2020C00 70225A0812345678901234525F24033012315F3401008E0C000000000000000041031F039000
00B2030C00 6A83 00B2011400 6A82 00B2010800 6A86 80B2010C00 6E00 00D0000000 6D00
80CA9F1700 9F1701039000 80CA9F3600 9F360200019000 80CA9F4F00 6A88
0020008008241235FFFFFFFFFF 63C2 80CA9F1700 9F1701029000 0020008008241234FFFFFFFFFF 9000
80CA9F1700 9F1701039000 0020008108241234FFFFFFFFFF 6A86 0020008002241234 63C2
0020008008241234FFFFFFFFFE 63C1 0020008008241230FFFFFFFFFF 63C0 0020008008241234FFFFFFFFFF 6983
"""
UICC = """
00A40004022FE200 620F8202412183022FE28A01058002000A9000 00B000000A 980000000000000000109000
00B0000800 00109000 00B0000A00 6B00 00B2010414 6981 00D600000100 6982 80B000000A 6E00
00A40004023F0000 620B8202782183023F008A01059000 00B0000000 6986 00A4000C026F07 6A82
00A40004022F0000 62128205422100140183022F008A0105800200149000 00B0000014 6981 00B2020414 6A83
00B2010414 610D4F07A000000087100250025553FFFFFFFFFF9000 00B2010214 6A86 00E0000000 6D00
00A4040407A000000087100200 62148202782183027FFF8407A00000008710028A01059000
00A4000C026F07 9000 00B0000009 6982 00200001 63C3 002000010831323335FFFFFFFF 63C2
002000010831323334FFFFFFFF 9000 00200001 63C3 00B0000009 0809101010325476989000
00D60007025599 9000 00B0000009 0809101010325455999000 00D6000802AAAA 6B00 00200002 6A88
00A4080C047FFF6FAD 9000 00B0000004 000000029000 00F2000000 62148202782183027FFF8407A0000000871002+
8A01059000
00A4080C022FE2 9000 00A4080C026F07 6A82 00A4100C02FFFF 6A86
"""
# The fingerprint is what gpg prints of the key's packet.
OPENPGP = """
00CA004F00 6985 00A4040006D2760001240200 6A82 00A4040005D276000124 6A82 00A4010006D27600012401 6A86
00A4040006D27600012401 9000 00CA004F00 D276000124010304FFFF0000000100009000
00CA5F5200 0031F573C001000590009000 00CA00C400 002020200300039000 00CA006500 65185B0D546F61643C3C+
47616C6C69756D5F2D02656E5F3501399000 00CA005E00 67616C6C69756D9000 00CA5F5000 9000
00CA007A00 7A0593030000009000 00CA010100 9000 00CA010300 6982 00CA010400 6982 00CA006F00 6A88
00CA006E00 6E81D94F10D276000124010304FFFF0000000100005F520A0031F573C00100059000_7381B7+
C00A18000000000000FE0000C106010800001100C206010800001100C306010800001100C40700202020030003+
C53CFC80BBA8C82771C939FFCD9BF9A547D196E3E472_0000000000000000000000000000000000000000+
_0000000000000000000000000000000000000000+
C63C_0000000000000000000000000000000000000000+
_0000000000000000000000000000000000000000+
_0000000000000000000000000000000000000000+
CD0C5E0BE10000000000000000009000
00200081 63C3 0020008106313233343537 6982 00200081 63C2 00CA00C400 002020200200039000
00DA005E03414243 6982 0020008308313233343536373A 6982 00200083083132333435363738 9000
00200083 9000 00DA005E03414243 9000 00CA005E00 4142439000 00DA004F03414243 6A88
00DA010102AABB 6982 0020008206313233343536 9000 00DA010102AABB 9000 00CA010100 AABB9000
00DA010302CCDD 9000 00CA010300 CCDD9000 00CA010400 9000 0020FF82 9000 00CA010300 6982
00200182 6A86 00200084 6A86 002400830F313233343536373841424344454647 6A80
002400810F313233343536414243444546474849 9000 0020008206313233343536 6982
002000820A41424344454647484950 6982 0020008106313233343536 6982 0020008109414243444546474849 6983
00200081 63C0 00CA00C400 002020200000039000
002C028106313233343536 9000 00CA00C400 002020200300039000 002C0281053132333435 6A80
002C008106313233343536 6A86 0024008206313233343536 6A86 0020008106313233343536 9000
00DA00C40101 9000 00CA00C400 012020200300039000 00DA00C40102 6A80 00DA00C4 6A80
002A9E9A00 6700 002A8086 6A86 0047800002B600 6A81 0047810002B800 6A88
00F2000000 6D00 80CA004F00 6E00 00A4040006D27600012401 9000 002C028106313233343536 6982
00DA005E 6982 002A9E9A0130 6982 00CA005E00 4142439000
"""
PKCS15 = """
00B0000000 6986 00A4000C022F00 9000
00B0000000 61214F0CA000000063504B43532D3135500B47616C6C69756D746F616451043F0050159000
00B0001D00 51043F0050159000 00B0002300 6B00 00B0800000 6A82 00B0000002 61219000
00A4000002501500 6F158201388302501584_0CA000000063504B43532D31359000 00A4000C025031 9000
00A4000C024402 9000 00A4000C025015 9000 00A4000C023F00 9000 00A4000C024402 6A82
00A4000C025015 9000 00A4000402503100 6F0B800200248201018302_50319000
00B0000000 A40A300804063F0050154402A70A300804063F0050154403A80A300804063F00501544019000
00A4080C0450155032 9000 00B0000000 30280201000405_00000000010C0B47616C6C69756D746F6164800B_+
47616C6C69756D746F6164030206409000
00A4080C0450154401 9000 00B0000000 302B30050C0350494E3003040101A11D301B030203880A01010201040201_+
08020108800101300604043F0050159000
00A4080C0450154402 9000 00B0000000 3022300D0C0B4365727469666963617465_3003040145A10C300A3008_+
04063F00501545019000
00A4040C0CA000000063504B43532D3135 9000 00A4040C05A000000063 9000 00A4040C04A0000000 6A82
00A4040C0CA000000063504B43532D3136 6A82 00A40400 6A82 00A4100C025015 6A86 00A4090C025015 6A82
00A4040C05A000000063 9000 00A4090C024501 9000 00B0014000 CBDACFF733D8133B12D395E94C9000
00A4000C024509 6A82 00B0000002 30829000
00A4000C024502 9000 00B0000000 6982 00200001 63C3 002000010431323335 63C2 002000010431323334 9000
00200001 9000 00B0000000 5468652050494E20776173207269676874_2E9000 00200002 6A88 00200101 6A88
002000010431323335 63C2 00B0000000 6982 002000010431323335 63C1 002000010431323335 63C0
002000010431323334 6983 00200001 6983 00D6000000 6D00 80B0000001 6E00
"""
T1_ATR = "3B800181"
CARDS = {"counter:Counter": COUNTER, "payment:Payment": PAYMENT, "uicc:Uicc": UICC,
         "openpgp:OpenPgp": OPENPGP, "pkcs15:Pkcs15": PKCS15}


def dialogue(name):
    """The commands and the answers to them."""
    words = CARDS[name].replace("+\n", "").replace("_", "").split()
    return words[::2], words[1::2]


class Card(AtPty):
    """The program without an echo. It talks T=1 with that answer to reset."""

    def __init__(self, *words, cwd=EXAMPLES):
        super().__init__(*words, "--no-echo", cwd=cwd)
        self.t1 = T1(self.carried) if words[-1] == T1_ATR else None
        self.open(T1_ATR if self.t1 else "3B00")

    def carried(self, data, waits):
        """Sends a block, and returns the received bytes."""
        os.write(self.line, data)
        is_there = select.select([self.line], [], [], 8 if data else 2)[0]
        return os.read(self.line, 300) if is_there else b""

    def answer(self, command):
        """The answer of this line to a command."""
        if self.t1:
            return self.t1(bytes.fromhex(command)).hex().upper()
        with Exchange(bytes.fromhex(command)) as it:
            while (found := it.answer()) is None:
                os.write(self.line, it.send_bytes())
                byte = self.read(1)
                assert byte, "the card is silent"
                it.receive_bytes(byte)
            return (found.data + found.status.to_bytes(2, "big")).hex().upper()


@pytest.mark.parametrize("atr", ["3B00", T1_ATR])
@pytest.mark.parametrize("name", CARDS)
def test_an_example_at_a_line(name, atr):
    card = Card("--application", name, "--atr", atr)
    commands, answers = dialogue(name)
    assert [card.answer(it) for it in commands] == answers
    card.end()


def at(card):
    """What a card answers to a command, in digits."""
    return lambda command: card.apdu(bytes.fromhex(command)).hex().upper()


VERIFY_TO_SIGN = "0020008106313233343536"
SIGN = f"002A9E9A13{bytes(range(19)).hex()}00"


def test_the_key_of_the_openpgp_card():
    """What it signs is padded by RFC 8017, 9.2. A password is good for one signature."""
    with OwnCard(application("openpgp:OpenPgp")) as card:
        ask = at(card)
        ask("00A4040006D27600012401")
        first = ask("0047810002B60000")
        rest = ask("00C000000E")
        assert (first[-4:], rest[-4:]) == ("610E", "9000")
        key = first[:-4] + rest[:-4]
        assert (key[:18], key[-10:]) == ("7F4982010981820100", "8203010001")
        modulus = int(key[18:-10], 16)
        assert modulus == (2**1024 - 105) * (2**1024 - 179) and modulus.bit_length() == 2048
        assert ask(SIGN) == "6982"
        for count in (1, 2):
            assert ask(VERIFY_TO_SIGN) == "9000"
            signed = ask(SIGN)
            assert signed[-4:] == "9000"
            padded = pow(int(signed[:-4], 16), 65537, modulus)
            assert padded == int(f"0001{'FF' * 234}00{bytes(range(19)).hex()}", 16)
            assert ask("00CA007A00") == f"7A0593030000{count:02X}9000"
            assert ask(SIGN) == "6982"
        ask("00200083083132333435363738")
        ask("00DA00C40101")
        ask(VERIFY_TO_SIGN)
        assert [ask(SIGN)[-4:] for _ in range(2)] == ["9000", "9000"]
        # a wrong password takes the right one back
        assert [ask("0020008106313233343530"), ask(SIGN)] == ["6982", "6982"]
        ask(VERIFY_TO_SIGN)
        assert ask(f"002A9E9A67{'00' * 103}00") == "6700"


def test_what_a_reset_of_the_openpgp_card_drops():
    """A change whose status did not leave, and all passwords, but no try."""
    with OwnCard(application("openpgp:OpenPgp")) as card:
        ask = at(card)
        ask("00A4040006D27600012401")
        ask("00200083083132333435363738")
        card.receive_bytes(bytes.fromhex("00DA005E02"))
        assert card.send_bytes() == b"\xDA"
        card.receive_bytes(b"AB")
        assert card.send_bytes(1) == b"\x90"
        card.reset()
        ask("00A4040006D27600012401")
        assert ask("00CA005E00") == "67616C6C69756D9000"
        assert [ask("00DA005E00"), ask("0020008306313233343536"), ask("00200083")] == [
            "6700", "6982", "63C2"]
        card.reset()
        ask("00A4040006D27600012401")
        assert [ask("00200083"), ask("00200081")] == ["63C2", "63C3"]
        card.receive_bytes(bytes.fromhex("002400810C"))
        assert card.send_bytes() == b"\x24"
        card.receive_bytes(b"123456654321")
        assert card.send_bytes(1) == b"\x90"
        card.reset()
        ask("00A4040006D27600012401")
        assert ask(VERIFY_TO_SIGN) == "9000"


def test_what_a_reset_of_the_pkcs15_card_drops():
    """The selected file, and that the PIN was right."""
    with OwnCard(application("pkcs15:Pkcs15")) as card:
        ask = at(card)
        select = "00A4080C0450154502"
        read = "00B0000004"
        assert [ask(it) for it in (select, "002000010431323334", read)] == [
            "9000", "9000", "546865209000"]
        card.reset()
        assert [ask(it) for it in (read, select, read)] == ["6986", "9000", "6982"]


def test_the_length_of_a_data_object():
    """ISO/IEC 8825-1, 8.1.3: one byte up to 127, else the number of its bytes comes first."""
    tlv = importlib.import_module("tlv").tlv
    for size, head in ((0, "5000"), (127, "507F"), (128, "508180"), (255, "5081FF"),
                       (256, "50820100")):
        assert tlv("50", bytes(size)).hex().upper() == head + "00" * size


def test_a_card_in_another_language():
    """It gives the answers of the card in Python."""
    commands, answers = dialogue("counter:Counter")
    card = Card("--program", "sh counter.sh")
    assert [card.answer(it) for it in commands] == answers
    card.end()


LOGS = """
import sys
for line in sys.stdin:
    line = line.strip()
    print(line, file=open(sys.argv[1], "a"))
    kind, *rest = line.split()
    if kind == "header":
        print("to-card" if rest[0][2:4] == "D6" else "FROM-CARD", flush=True)
    if kind == "command":
        print("4a4F45 9000" if rest[0][2:4] == "B0" else "9000", flush=True)
"""


def test_the_lines_of_a_program(tmp_path):
    (tmp_path / "logs.py").write_text(LOGS)
    log = tmp_path / "log"
    with OwnCard(Program(shlex.join([sys.executable, f"{tmp_path}/logs.py", str(log)]))) as card:
        card.receive_bytes(bytes.fromhex("00D6000002"))
        assert card.send_bytes().hex() == "d6"
        card.receive_bytes(bytes.fromhex("AABB"))
        assert card.send_bytes().hex() == "9000"
        card.receive_bytes(bytes.fromhex("00B0000003"))
        assert card.send_bytes().hex() == "b04a4f459000"
        card.reset()
        card.receive_bytes(bytes.fromhex("00B0000000"))
        assert card.send_bytes().hex() == "6c03"
        card.application.program.stdin.close()
        card.application.program.wait()
    assert log.read_text().splitlines() == [
        "header 00D60000", "command 00D60000AABB", "settled", "header 00B00000",
        "command 00B00000 3", "settled", "reset", "header 00B00000", "command 00B00000 256",
        "settled"]


HEADER = "header 80100000"
COMMAND = "command 80100000 1"


@pytest.mark.parametrize(
    ("script", "line", "why"),
    [("sleep 100", HEADER, "it said b'', and no more in 4 s"),
     ("printf from; exec sleep 100", HEADER, "it had said b'from'"),
     ("read a; printf from; exec sleep 100", HEADER, "it said b'from', and no more in 4 s"),
     # it fills the pipe faster than it is read
     (f"read a; while printf {999 * 'x'}; do :; done", HEADER,
      "it said b'" + 100 * "x" + "', and no more in"),
     ("read a", HEADER, "it has ended"), ("true", HEADER, "it has ended"),
     ("read a; echo either-card; exec sleep 100", HEADER, "it said b'either-card\\n'"),
     ("read a; echo from-card; read a", COMMAND, "it has ended"),
     ("read a; echo from-card; exec sleep 100", COMMAND, "it said b'', and no more in 4 s"),
     *((f"read a; echo from-card; read a; echo {it}; exec sleep 100", COMMAND,
        f"it said b'{it}\\n'")
       for it in ("4A 6100", "4A 6C01", "6000", "4A4 9000", "4A", "4A 9000 1", "4A9000", "8000")),
     (r'read a; printf "from-card\n9000\n"; exec sleep 100', COMMAND,
      "it had said b'9000\\n'"),
     (r'read a; echo from-card; read a; printf "9000\n\n"; exec sleep 100', "settled",
      "it had said b'\\n'")],
)
def test_a_program_that_is_silent_dead_or_rude(monkeypatch, script, line, why):
    monkeypatch.setattr(programs, "PATIENCE", 4.0 if "no more" in why else 60.0)
    it = Program(f"sh -c '{script}'")
    if not script.startswith(("read", "sleep")):
        select.select([it.program.stdout], [], [], 60)  # it speaks or ends by itself
    with pytest.raises(Mistake) as found, OwnCard(it) as card:
        card.receive_bytes(bytes.fromhex("8010000001"))
        card.send_bytes()
    it.program.kill()
    it.program.wait()
    assert str(found.value).startswith(f"the program at the line '{line}': {why}")


def test_a_program_ends_with_the_simulation():
    """Also one that does not read its input."""
    card = Card("--program", "sh -c 'read a; echo $$ >&2; exec sleep 1000'")
    number = int(card.program.stderr.readline())
    os.write(card.line, bytes.fromhex("80"))
    card.program.send_signal(signal.SIGINT)
    assert card.program.wait(60) == 0
    wait_until(lambda: not Path(f"/proc/{number}/exe").exists())


@pytest.mark.parametrize(
    ("words", "text"),
    [(["--application", "nowhere:It"], "nowhere:It: No module named 'nowhere'"),
     (["--application", "counter:It"], "counter:It: module 'counter' has no attribute 'It'"),
     (["--application", "counter:EXAMPLES"], "has no attribute"),
     (["--application", "pathlib:Path"], "pathlib:Path is no Application"),
     *((["--application", it], f"{it} is not MODULE:CLASS\n")
       for it in (":", "counter", "counter:", ":Counter")),
     (["--program", "/none/at/all"], "No such file"),
     (["--program", " "], "list index out of range"), (["--program", "'"], "No closing quotation")],
)
def test_cards_that_can_not_be_made(capsys, monkeypatch, words, text):
    monkeypatch.setattr(serve, "serve_pty", lambda *_: pytest.fail("it serves"))
    assert main([*words, "--pty"]) == 2
    out, error = capsys.readouterr()
    assert text in error and out == ""


def test_an_application_in_the_folder_of_its_user(tmp_path):
    """Also for the installed program, which Python starts from another folder."""
    (tmp_path / "simulate").write_text("from galliumtoad.simulate import main\nmain()\n")
    words = [sys.executable, tmp_path / "simulate", "--application", "counter:Counter", "--pty"]
    made = subprocess.Popen(words, stdout=subprocess.PIPE, text=True, cwd=EXAMPLES)
    assert made.stdout.readline().startswith("/dev/")
    made.kill()
    made.communicate()


def test_many_applications_of_one_class(monkeypatch):
    """The path of modules grows once."""
    monkeypatch.setattr(sys, "path", sys.path[:])
    application("counter:Counter")
    before = sys.path[:]
    assert application("counter:Counter") is not application("counter:Counter")
    assert sys.path == before


def test_faults_strike_at_such_cards_at_t1(tmp_path):
    """Also with commands and responses of several blocks."""
    (tmp_path / "faults").write_text(
        "command 1, status 6F00\ncommand 2, twice\ncommand 3, forget\n"
        f"command 5, add {'AB' * 40}\ncommand 7, wtx 2\ncommand 8, lose\n")
    words = ["--faults", tmp_path / "faults", "--atr", T1_ATR]
    card = Card("--application", "counter:Counter", *words)
    counts = [card.answer("8010000000") for _ in range(5)]
    assert counts == ["016F00", "039000", "9000", "049000", "05" + "AB" * 40 + "9000"]
    assert card.answer("8010000028" + "00" * 40) == "6700"  # takes no data
    assert [card.answer("8010000000") for _ in range(2)] == ["069000", "079000"]
    card.end()


def test_the_dialogue_is_a_trace():
    """trace_explain reads what -v prints of characters."""
    card = Card("--application", "counter:Counter", "-v", "--atr", "3B00")
    assert [card.answer("8010000000") for _ in range(2)] == ["019000", "029000"]
    done = subprocess.run([f"{folder_of_programs()}/trace_explain", "--json", "--commands"],
                          input=card.end()[0], text=True, capture_output=True, check=True)
    found = [json.loads(it) for it in done.stdout.splitlines()]
    assert [it["characters"] for it in found if it["type"] == "atr"] == ["3B00"]
    commands = [it for it in found if it["type"] == "command"]
    assert [(it["cla"], it["received"], it["status"]) for it in commands] == [
        ("80", "01", "9000"), ("80", "02", "9000")]
    assert found[-1]["errors"] == 0


def test_the_dialogue_at_t1_has_a_line_for_each_block():
    card = Card("--application", "counter:Counter", "-v", "--atr", T1_ATR)
    assert card.answer("8010000000") == "019000"
    blocks = [block(0, 0xC1, b"\xFE"), block(0, 0xE1, b"\xFE"),
              block(0, 0, bytes.fromhex("8010000000")), block(0, 0, bytes.fromhex("019000"))]
    assert card.end()[0].splitlines()[:6] == ["reset", f"< {T1_ATR}", *(
        f"{sign} {it.hex().upper()}" for sign, it in zip("><><", blocks))]


def application_of(tmp_path, monkeypatch, source):
    """The application of a module with this source."""
    (tmp_path / "wrong.py").write_text(source)
    monkeypatch.syspath_prepend(str(tmp_path))
    monkeypatch.delitem(sys.modules, "wrong", raising=False)
    return application("wrong:Wrong")


RESULTS = ["None", "0x9000", "(0x9000,)", "(0x9000, 'text')", "('9000', b'')", "(0x6105, b'')",
           "(0x6C05, b'')", "(0x5000, b'')", "(0x19000, b'')", "(-1, b'')", "(0x9000, bytes(4097))",
           "(0x9000, b'', 1)"]


@pytest.mark.parametrize("atr", ["3B00", T1_ATR])
@pytest.mark.parametrize("result", RESULTS)
def test_a_result_that_no_application_may_return(tmp_path, monkeypatch, result, atr):
    """It is a mistake that names class and method, and the card is reset."""
    made = application_of(tmp_path, monkeypatch, COUNTS.replace("RESULT", result))
    with Simulator(OwnCard(made), bytes.fromhex(atr)) as it:
        with pytest.raises(Mistake) as why:
            it(bytes.fromhex("8010000001"))
        assert made.resets == 1
    text = f"wrong:Wrong.carry_out returned {eval(result)!r:.60}"
    assert str(why.value).startswith(text) and "not a status and up to 4096 bytes" in str(why.value)


COUNTS = """
from galliumtoad import Application

class Wrong(Application):
    resets = 0
    def takes_data(self, header):
        return False
    def carry_out(self, command):
        return RESULT
    def reset(self):
        self.resets += 1
"""


METHODS = ("takes_data", "carry_out", "settle", "reset")
FAILS = COUNTS.replace("RESULT", "0x9000, b''") + "    def METHOD(self, *_):\n        "
NO_FILE = ": [Errno 2] No such file or directory: '/none'\n"


@pytest.mark.parametrize(("method", "does", "said"), [
    ("carry_out", "pass", " returned None, not a status and up to 4096 bytes of data\n"),
    *((it, "open('/none')", NO_FILE) for it in METHODS),
])
def test_the_simulation_ends_at_such_a_result(tmp_path, method, does, said):
    """And at an error of the application, which is not the end of the line."""
    (tmp_path / "wrong.py").write_text(FAILS.replace("METHOD", method) + does)
    card = AtPty("--application", "wrong:Wrong", "--no-echo", cwd=tmp_path).open("")
    os.write(card.line, bytes.fromhex("8010000000"))
    assert card.program.wait(60) == 2
    assert card.end()[1] == f"wrong:Wrong.{method}{said}"


@pytest.mark.parametrize("method", METHODS)
def test_an_error_of_the_library_in_an_application_is_no_status(tmp_path, monkeypatch, method):
    """A command of its own that is refused is not the terminal's."""
    source = FAILS.replace("METHOD", method) + "__import__('galliumtoad').Exchange(b'')"
    made = application_of(tmp_path, monkeypatch, source)
    with Simulator(OwnCard(made)) as it:
        with pytest.raises(Mistake, match=f"^wrong:Wrong.{method}: command too short$"):
            it(bytes.fromhex("8010000001"))
            it.reset()


@pytest.mark.parametrize("result", ["(0x9000, bytearray(b'AB'))", "[0x9000, memoryview(b'AB')]"])
def test_a_result_in_other_types(tmp_path, monkeypatch, result):
    made = application_of(tmp_path, monkeypatch, COUNTS.replace("RESULT", result))
    with Simulator(OwnCard(made)) as it:
        assert it(bytes.fromhex("8010000002")).hex() == "41429000"
