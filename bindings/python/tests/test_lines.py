"""Tests that each trial of a line strikes, by what the line carries: characters (`<`), those of
wrong parity (`!`), and pauses in seconds (`~`). Expected bytes are written from the standard's
forms. That gt_serial passes all is in test_serial_lines.py."""

import contextlib

import pytest
from galliumtoad import T1, BlockError, Card, Pps
from galliumtoad.edits import block, with_lrc
from galliumtoad.faults import MARKS, PPS, RESET, Faults, read
from galliumtoad.simulate import Simulator
from galliumtoad.trials.fixed import AID, VALUE
from galliumtoad.trials.lines import trials
from line_in_memory import RESET as A_RESET
from line_in_memory import End, from_reset

SLACK = 0.5
BEYOND = 1.5
FCI = "6F098407A0000000031010"
OBJECT = bytes.fromhex("51820258") + VALUE
FIRST = OBJECT[:256]
SELECT = bytes.fromhex("00A4040007A0000000031010")
PUTS = [bytes([cla, 0xDA, 0, 0x51, len(it)]) + it
        for cla, it in ((0x10, VALUE[:255]), (0x10, VALUE[255:510]), (0, VALUE[510:]))]
GET = bytes.fromhex("00CA005100")
JOB = [SELECT, bytes.fromhex("00C000000B"), *PUTS, GET]  # at T=0
PLACES = {1: 0, 2: 2, 3: 3, 4: 4, 5: 5}  # of a command in it
BYTES = range(len(FIRST))
HEX = [f"{it:02X}" for it in FIRST]
LONG = "3B09474F4F44434152440A"


def after(etu, more=0.0):
    """A pause."""
    return f"~ {etu / 9600 + more:g}"


def slowly(etu):
    """The long answer, with a pause before each character but the first."""
    first, *others = (LONG[at : at + 2] for at in range(0, len(LONG), 2))
    return " ".join([f"< {first}", *(f"{after(etu)} < {it}" for it in others)])


# What the line carries as the answer to reset; if there are more, after the next resets.
ANSWERS = {
    "answer without TS": "< 3A00",
    "answer with TS of the other convention": "< 3F00",
    "answer whose T0 announces a byte too many": "< 3B01",
    "answer whose T0 announces an interface byte too many": "< 3B10",
    "answer whose TD2 is out of order": "< 3B8081801F",
    "answer with a wrong TCK": "< 3B800180",
    "answer without TCK": "< 3B8001",
    "answer that is cut": "< 3B8081",
    "answer that is too long": "< 3BF0" + "000000F0" * 7 + "000000",
    "byte after the answer": "< 3B0055",
    "answer twice": "< 3B003B00",
    "answer before the reset": "< 3B003B00",
    "late answer": f"{after(100)} < 3B00",
    "answer that is too late": f"{after(108, BEYOND)} < 3B00",
    "answer with a gap": f"< 3B {after(9500)} < 00",
    "answer with a gap that is too long": f"< 3B {after(9600, BEYOND)} < 00",
    "answer of 18,000 etu": slowly(1800),
    "answer of 24,000 etu": slowly(2400),
    "inverse convention": "< 03FF",
    "inverse convention at T=1": "< 03FE7F7E",
    "extra guard time": "< 3B401E",
    "least guard time": "< 3B40FF",
    "TB1 that asks for a voltage": "< 3B2025",
    "TB1 without a voltage": "< 3B2000",
    "T=15 after T=0": "< 3B80801FC7D8",
    "T=15 first": "< 3B800F8F",
    "T=14 alone": "< 3B800E8E",
    "wrong answer at the first reset": ["< 3B800180", "< 3B800181"],
    "no answer at the first reset": ["", "< 3B00"],
    "no answer": ["", "", ""],
    "reserved Fi": "< 3B1071",
    "another rate without PPS": "< 3B1011",
    "specific mode at another rate": "< 3B90951000",
    "specific mode at an implicit rate": "< 3B90951010",
    "reserved waiting time": "< 3B804000",
    "both protocols": "< 3B80800101",
    "wrong parity of the answer": "< 3B ! 00",
    "gone in its answer": ["< 3B", ""],
}
# What it carries as a PPS response.
RESPONSES = {
    "PPS that changes the rate": "< FF10957A",
    "PPS with another PPSS": "< FE10957A",
    "PPS with another T": "< FF11957B",
    "PPS with another PPS1": "< FF10947B",
    "PPS with a PPS2 that nobody asked for": "< FF3095005A",
    "PPS without PPS1": "< FF00FF",
    "PPS with a wrong PCK": "< FF10957B",
    "PPS without a response": "",
    "PPS with half a response": "< FF10",
    "PPS with a late response": f"{after(9300)} < FF10957A",
    "PPS with a response that is too late": f"{after(9600, BEYOND)} < FF10957A",
    "PPS with a byte after its response": "< FF10957A55",
    "wrong parity of PPS": "< FF ! 10 < 957A",
    "gone before PPS ends": "< FF",
}
# What it carries in a command at T=0: procedure bytes, data and a status.
TPDUS = {
    "wrong parity once": "! DA < DA9000",
    "wrong parity three times": "! DA ! DA ! DA < DA9000",
    "wrong parity without end": "! DA " * 100 + "< DA9000",
    "wrong parity of a status": "< DA90 ! 00 < 00",
    "procedure byte that is late": f"{after(9300)} < DA9000",
    "procedure byte that is too late": f"{after(9600, BEYOND)} < DA9000",
    "byte of a response that is late": (
        f"< CA{''.join(HEX[:8])} {after(9300)} < {''.join(HEX[8:])}6100"),
    "byte of a response that is too late": (
        f"< CA{''.join(HEX[:8])} {after(9600, BEYOND)} < {''.join(HEX[8:])}6100"),
    "status that is too late": f"< DA {after(9600, BEYOND)} < 9000",
    "longer waiting time": f"{after(20000)} < DA9000",
    "NULL in time": f"{after(9300)} < 60 {after(9300)} < DA9000",
    "put byte by byte": "< " + "25" * 255 + "9000",
    "get byte by byte": "< " + "".join(f"35{it}" for it in HEX) + "6100",
    "put of some bytes alone": "< 252525DA9000",
    "get of some bytes alone": (
        "< " + "".join(f"35{it}" for it in HEX[:3]) + f"CA{''.join(HEX[3:])}6100"),
    "put with NULL before each byte": "< " + "6025" * 255 + "609000",
    "get with NULL before each byte": "< " + "".join(f"6035{it}" for it in HEX) + "606100",
    "procedure byte of another INS at a put": "< DB9000",
    "procedure byte of another INS at a get": f"< CB{''.join(HEX)}6100",
    "SW1 alone after a put": "< DA90",
    "SW1 alone after a get": f"< CA{''.join(HEX)}61",
    "status that begins as NULL": "< DA6000",
    "bytes after the status": "< DA90009000",
    "gone before the first command ends": "",
    "gone before a procedure byte": "",
    "gone before a status": "< DA",
    "gone within a status": "< DA90",
    "gone within a response": f"< CA{''.join(HEX[:98])}",
}
# The same with an echo, after a character of the header that the card has not taken: how often.
SIGNALS = {"error signalled once": 1, "error signalled three times": 3,
           "error signalled without end": 100}


def sent(*blocks):
    """What the line carries with these blocks of the card."""
    return f"< {b''.join(blocks).hex().upper()}"


def pcb(pcb_, field=b""):
    return block(0, pcb_, field)


OK = pcb(0x40, b"\x90\x00")  # the response to the first put
AGAIN = sent(OK)
ACKNOWLEDGED = sent(pcb(0x90))  # its second block
ASKED = sent(pcb(0x92))  # the same after a terminal's R, with the error that says so
THIRD = sent(pcb(0x80))
PART = OBJECT[:254]
REST = OBJECT[254:256] + b"\x61\x00"
# At T=1: the command, which block of the card, and what the line carries in place of this one and
# of those after it.
BLOCKS = {
    "wrong parity in a block": (2, 9, ["< 0040 ! 02 < 9000D2", AGAIN]),
    "wrong parity of an acknowledgement": (2, 2, ["< 00 ! 90 < 0090", ASKED]),
    "character of a block that is late": (2, 9, [f"< 00400290 {after(7900)} < 00D2"]),
    "character of a block that is too late": (2, 9, [
        f"< 00400290 {after(8203, BEYOND)} < 00D2"]),
    "block that is late": (2, 9, [f"{after(15000)} {AGAIN}"]),
    "block that is too late": (2, 9, [f"{after(15371, BEYOND)} {AGAIN}"]),
    "block within its extension": (2, 9, [sent(pcb(0xC3, b"\2")), f"{after(20000)} {AGAIN}"]),
    "block with a wrong N(S)": (2, 9, [sent(pcb(0, b"\x90\x00")), AGAIN]),
    "block with a reserved bit": (2, 9, [sent(pcb(0x5F, b"\x90\x00")), AGAIN]),
    "block of an unknown kind": (2, 9, [sent(pcb(0xC4, b"\x90\x00")), AGAIN]),
    "block that is longer than LEN": (2, 9, ["< 0040019000D1", AGAIN]),
    "block that is shorter than LEN": (2, 9, ["< 0040059000D5", AGAIN]),
    "block with a reserved LEN": (2, 9, ["< 0040FF90002F", AGAIN]),
    "acknowledgement with another address": (2, 2, ["< 219000B1", ASKED]),
    "acknowledgement with a wrong check": (2, 2, ["< 0090006F", ASKED]),
    "acknowledgement with a wrong N(R)": (2, 2, [THIRD]),
    "acknowledgement that is lost": (2, 2, ["", ASKED]),
    "first block with a wrong check": (1, 1, ["< 00E101FEE1", sent(pcb(0xE1, b"\xFE"))]),
    "block that the card says was damaged": (2, 2, [sent(pcb(0x81)), ACKNOWLEDGED]),
    "block that the card says was wrong": (4, 1, [sent(pcb(0x92)), THIRD]),
    "two blocks damaged on their way": (2, 2, [sent(pcb(0x81)), sent(pcb(0x82)), ACKNOWLEDGED]),
    "blocks damaged without end": (2, 2, [sent(pcb(0x81))] * 5),
    "response that is lost three times": (4, 3, ["", "", "", AGAIN]),
    "resynchronisation by the card": (2, 9, ["< 00C000C0", AGAIN]),
    "resynchronisation that nobody asked for": (2, 9, ["< 00E000E0", AGAIN]),
    "extension that nobody asked for": (2, 9, ["< 00E30102E0", AGAIN]),
    "fields of 1 byte in a chain": (2, 3, ["< 00C10101C1", THIRD]),
    "fields of 254 bytes in a chain": (2, 3, ["< 00C101FE3E", THIRD]),
    "fields of 255 bytes": (2, 9, ["< 00C101FF3F"] * 4 + [AGAIN]),
    "extension of 1": (2, 9, ["< 00C30101C3", AGAIN]),
    "extension of 255 in a chain": (2, 3, ["< 00C301FF3D", THIRD]),
    "extension of 0": (2, 9, ["< 00C30100C2"]),
    "many extensions": (2, 9, ["< 00C30101C3"] * 50 + [AGAIN]),
    "chain that stops": (5, 1, [sent(pcb(0x20, PART)), "", ""]),
    "chain without its more-data bit": (5, 1, [sent(pcb(0, PART))]),
    "command that the card aborts": (2, 3, ["< 00C200C2"]),
    "response that the card aborts": (5, 1, [sent(pcb(0x20, PART)), "< 00C200C2"]),
    "block after the end": (2, 9, [sent(OK, pcb(0, b"\x90\x00"))]),
    "byte after a block": (2, 9, [sent(OK, b"\x55")]),
    "gone before the first block": (1, 1, ["", ""]),
    "gone within a chain": (2, 3, ["", ""]),
    "gone before the end of a put": (4, 3, ["", ""]),
    "gone within a block": (5, 1, [sent(pcb(0x20, PART)[:49]), ""]),
}
# How many blocks the first put has: three of 32 bytes, and S(IFS response), and then the others.
COUNTS = {"fields of 1 byte in a chain": 3 + 1 + 164, "fields of 254 bytes in a chain": 3 + 1 + 1}
TRIALS = {it.name: it for it in trials(SLACK)}


def end_of(name, has_echo=False):
    """The card's end of a line for a trial, and the list of faults that struck."""
    trial = TRIALS[name]
    struck = []
    simulator = Simulator(Card({AID: {}}), bytes.fromhex(trial.atr), Faults(trial.read()))
    simulator.faults.tell = struck.append
    return End(simulator, from_reset, has_echo, MARKS in trial.places), struck


def test_each_trial_is_tried():
    names = [*ANSWERS, *RESPONSES, *TPDUS, *SIGNALS, *BLOCKS]
    assert sorted(names) == sorted(TRIALS) and len(names) == len(set(names)) == 126
    assert all(it.clause.startswith(("ISO/IEC 7816-3, ", "EMV 4.3, Book 1, ")) and
               it.clause.endswith(".") and it.expected[-1].isalnum() for it in TRIALS.values())


@pytest.mark.parametrize("name", ANSWERS)
def test_an_answer_to_reset(name):
    end, struck = end_of(name)
    expected = ANSWERS[name]
    first, *others = expected if isinstance(expected, list) else [expected]
    assert end.note() == first
    if TRIALS[name].faults.startswith("every reset"):
        others = others or [first]
    for it in others:
        end.take_in(A_RESET)
        assert end.note() == it
    events = [it for it in TRIALS[name].read() if it.event == RESET]
    assert bool(struck) == bool(events)


@pytest.mark.parametrize(
    ("name", "rates"),
    [("specific mode at another rate", [111600]), ("another rate without PPS", []),
     ("reserved Fi", [])])
def test_a_rate_without_pps(name, rates):
    end, _ = end_of(name)
    assert carried(end, [SELECT]) == ["< A4610B"] and end.port.rates == rates


@pytest.mark.parametrize("name", RESPONSES)
def test_a_pps_response(name):
    """And the rate after it."""
    end, struck = end_of(name)
    end.note()
    for byte in Pps(0, 0x95).request:
        end.take_in(bytes([byte]))
    assert end.note() == RESPONSES[name]
    assert bool(struck) == any(it.event == PPS for it in TRIALS[name].read())
    with contextlib.suppress(IndexError):
        end.take_in(b"\0")
    accepted = ("that changes", "late response", "too late", "byte after", "parity")
    is_accepted = any(it in name for it in accepted)
    assert end.port.rates == ([111600] if is_accepted else [])


def test_a_reset_ends_the_rate_of_pps():
    """Also that of the tty, and the waiting time, which goes by Fi."""
    end, _ = end_of("PPS that changes the rate")
    for byte in (*Pps(0, 0x95).request, 0):
        end.take_in(bytes([byte]))
    assert (end.port.rates, end.baud, end.fi) == ([111600], 111600, 512)
    end.take_in(A_RESET)
    assert (end.port.rates, end.baud, end.fi) == ([111600, 9600], 9600, 372)
    assert end.note()[-6:] == "3B1095"


@pytest.mark.parametrize(
    ("fault", "request_"), [("reset 1, byte 3 flip", b""), ("pps, byte 5 flip", Pps(0).request)])
def test_a_fault_of_an_event_ends_with_it(fault, request_):
    """It strikes no command, if the answer or the response has no such byte."""
    struck = []
    simulator = Simulator(Card({AID: {}}), b"\x3b\x00", Faults(read(fault)))
    simulator.faults.tell = struck.append
    end = End(simulator, from_reset)
    for byte in request_:
        end.take_in(bytes([byte]))
    assert carried(end, JOB[:2]) == USUAL[:2] and not struck


def test_a_terminal_that_keeps_its_rate_hears_nothing():
    """After PPS, and in specific mode."""
    for name, request in (("PPS that changes the rate", Pps(0, 0x95).request),
                          ("specific mode at another rate", b"")):
        for rate, is_heard in ((9600, False), (111600, True), (109369, True), (109367, False)):
            end, _ = end_of(name)
            end.port.rate = 9600
            for byte in request:
                end.take_in(bytes([byte]))
            end.port.rate = rate
            end.note()
            for byte in SELECT[:5]:
                end.take_in(bytes([byte]))
            assert end.note() == ("< A4" if is_heard else "")


def carried(end, job=JOB):
    """What the line carries in each TPDU of a job."""
    found = []
    end.note()
    for tpdu in job:
        for byte in tpdu:
            end.take_in(bytes([byte]))
        found.append(end.note())
    return found


def command_of(name):
    """The number of the command at which the first fault of a trial strikes."""
    return TRIALS[name].read()[0].numbers[0]


USUAL = ["< A4610B", f"< C0{FCI}9000", *["< DA9000"] * 3, f"< CA{''.join(HEX)}6100"]


@pytest.mark.parametrize("name", TPDUS)
def test_a_command_at_t0(name):
    """What comes before it is as without a fault."""
    end, struck = end_of(name)
    place = PLACES[command_of(name)]
    found = carried(end)
    assert found[: place + 1] == [*USUAL[:place], TPDUS[name]]
    assert len(struck) == len(TRIALS[name].read())


@pytest.mark.parametrize("name", SIGNALS)
def test_an_error_that_the_card_signals(name):
    """Each time the terminal sends the character again."""
    end, struck = end_of(name, has_echo=True)
    times = SIGNALS[name]
    job = [*JOB]
    job[2] = PUTS[0][:5] + b"\xFF" * times + PUTS[0][5:]
    echo = VALUE[:255].hex().upper()
    assert carried(end, job)[2] == f"< 10DA0051{' ! FF' * times} < FFDA{echo}9000"
    assert len(struck) == 1


def turns_of(end):
    """What the line carries at T=1 in each turn of the card, by the number of the command."""
    found = {}
    commands = [SELECT + b"\0", *PUTS, GET]

    def line(data, waits):
        if not data:
            return b""
        came = b"".join(end.take_in(bytes([it])) for it in data)
        found[number].append(end.note())
        return came

    end.come()
    end.note()
    with T1(line) as terminal, contextlib.suppress(BlockError):
        for number, command in enumerate(commands, 1):
            found[number] = []
            terminal(command)
    return found


@pytest.mark.parametrize("name", BLOCKS)
def test_blocks(name):
    end, struck = end_of(name)
    number, place, expected = BLOCKS[name]
    turns = turns_of(end)[number]
    assert turns[place - 1 :][: len(expected)] == expected
    assert len(turns) == COUNTS.get(name, len(turns))
    faults = TRIALS[name].read()
    assert len(struck) == (5 if name == "blocks damaged without end" else len(faults))


def test_blocks_of_a_chain():
    """What they are without a fault, so that the places above are right."""
    turns = turns_of(End(Simulator(Card({AID: {}}), bytes.fromhex("3B800181")), from_reset))
    assert [len(it) for it in turns.values()] == [2, 9, 9, 3, 2]
    assert turns[2] == [sent(pcb(0x80 | place % 2 << 4)) for place in range(8)] + [AGAIN]


def test_a_field_that_the_card_has_no_room_for():
    """More than IFSC is a damaged block."""
    end = End(Simulator(Card({AID: {}}), bytes.fromhex("3B800181")), from_reset)
    end.note()
    long = with_lrc(bytes([0, 0x20, 33]) + bytes(33))
    for byte in long:
        end.take_in(bytes([byte]))
    assert end.note() == sent(pcb(0x82))
