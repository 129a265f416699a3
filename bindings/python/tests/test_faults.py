"""Tests what faults do to whole commands, TPDUs, characters and blocks: each strikes, and a card
without a struck fault is as the library's. Expected bytes are written from the standard's forms."""

import pytest
from galliumtoad import (T1, Application, BlockError, Card, Get, Level, OwnCard, Put, Select,
                         Terminal)
from galliumtoad.edits import block, head_size, one_by_one
from galliumtoad.faults import ECHO, KINDS, LINE, T0, WHENS, Faults, Gone, read
from galliumtoad.mistakes import Mistake
from galliumtoad.simulate import Simulator, main
from galliumtoad.trials.fixed import AID, VALUE, trials
from line_in_memory import End, at_t0, at_t1

FCI = bytes.fromhex("6F098407A0000000031010")
OBJECT = bytes.fromhex("51820258") + VALUE
SELECT = bytes.fromhex("00A4040007A0000000031010")
PUTS = [
    bytes([cla, 0xDA, 0, 0x51, len(it)]) + it
    for cla, it in ((0x10, VALUE[:255]), (0x10, VALUE[255:510]), (0, VALUE[510:]))
]
GET, REST, LAST = (bytes.fromhex(it) for it in ("00CA005100", "00C0000000", "00C000005C"))
JOB = [SELECT + b"\x00", *PUTS, GET, REST, LAST]
ANSWERS = [FCI + b"\x90\x00", *[b"\x90\x00"] * 3, OBJECT[:256] + b"\x61\x00"]
ANSWERS += [OBJECT[256:512] + b"\x61\x5c", OBJECT[512:] + b"\x90\x00"]
FIRST = OBJECT[:256]


def simulator(text, t=1, **more):
    """A card with these faults, and the list of those that struck."""
    struck = []
    faults = Faults(read(text.replace("; ", "\n")), **more)
    atr = bytes.fromhex("3B800181" if t else "3B00")
    it = Simulator(Card({AID: {0x5F20: b"JOE"}}), atr, faults)
    faults.tell = struck.append
    return it, struck


def whole(it, commands=JOB):
    """What the card answers to whole commands, with None from where it is gone."""
    answers = []
    for command in commands:
        try:
            answers.append(it.whole(command))
        except Gone:
            return [*answers, None]
    return answers


def with_status(number, status):
    return {number: ANSWERS[number - 1][:-2] + bytes.fromhex(status)}


# What a struck trial changes of the answers to whole commands, by the number of the command.
CHANGES = {
    "select refused": {1: b"\x6a\x82", 2: b"\x69\x85"},
    "select warns": with_status(1, "6283"),
    "select without answer": {1: None},
    "select without power": {1: None},
    "select late": {},
    "select cut": {1: FCI[:-3] + b"\x90\x00"},
    "select with a wrong template": {1: b"\x6e" + FCI[1:] + b"\x90\x00"},
    "select with too much": {1: FCI + b"\x5a\x5a\x5a\x90\x00"},
    "put refused at the first piece": {2: b"\x6a\x84", 5: 345},
    "put refused in the middle": {3: b"\x6a\x84", 5: 345},
    "put refused at the end": {4: b"\x65\x81", 5: b"\x68\x83"},
    "put that must be last": {2: b"\x68\x83", 5: 345},
    "put without chaining": {2: b"\x68\x84", 5: 345},
    "put warns at the first piece": with_status(2, "6200"),
    "put warns in the middle": with_status(3, "6200"),
    "put warns at the end": with_status(4, "6300"),
    "put with a reserved status": with_status(4, "9001"),
    "put with a response": with_status(4, "6110"),
    "put with another length": with_status(4, "6C5A"),
    # the second piece has the same header, so the card takes it for the first one again
    "put that asks for a length again and again": {2: b"\x6c\x01", 3: b"\x6c\x01", 5: 90},
    "put forgotten at the end": {5: b"\x68\x83", 6: b"\x69\x85", 7: b"\x69\x85"},
    "put forgotten at the first piece": {5: 345},
    "put forgotten in the middle": {5: 345},
    "put twice at the first piece": {5: 855},
    "put twice at the end": {5: 90},
    "put without answer in the middle": {3: None},
    "put without answer at the end": {4: None},
    "put without power at the end": {4: None},
    "put with a reset in the middle": {3: b"\x69\x85"},
    "put with a reset at the end": {4: b"\x69\x85"},
    "put late": {},
    "put with data": {4: b"\x01\x02\x90\x00"},
    "get refused": {5: b"\x6a\x88"},
    "get with an error": with_status(7, "6F00"),
    "get that may be damaged": with_status(7, "6281"),
    "get refused at its second part": {6: b"\x6f\x00"},
    "get cut": {5: FIRST[:-3] + b"\x61\x00"},
    "get without data": {5: b"\x90\x00"},
    "get with too much": {7: ANSWERS[6][:-2] + b"\x5a\x5a\x5a\x90\x00"},
    "get with a wrong tag": {5: b"\x50" + FIRST[1:] + b"\x61\x00"},
    "get with a wrong length": {5: FIRST[:2] + b"\x03" + FIRST[3:] + b"\x61\x00"},
    "get with a wrong bit": {5: FIRST[:12] + bytes([FIRST[12] ^ 0x10]) + FIRST[13:] + b"\x61\x00"},
    "get of another value": {5: FIRST[:4] + bytes(it ^ 0xFF for it in FIRST[4:]) + b"\x61\x00"},
    "get with another length": {5: b"\x6c\x10"},
    "get that asks for a length again and again": {5: b"\x6c\x01"},
    "get without an end": {5: FIRST + b"\x61\x10", 6: bytes(256) + b"\x61\x10",
                           7: bytes(92) + b"\x61\x10"},
    "get without answer": {5: None},
}
ECHOES = [it.name for it in trials() if ECHO in it.places]
ANYWHERE = [it for it in trials() if not it.places]


def test_each_trial_has_its_row():
    assert set(CHANGES) == {it.name for it in ANYWHERE}
    assert len(trials()) == len({it.name for it in trials()}) == 65
    assert all(it.clause.endswith(".") and it.expected[-1].isalnum() for it in trials())


@pytest.mark.parametrize("trial", ANYWHERE, ids=lambda it: it.name)
def test_whole_commands(trial):
    it, struck = simulator(trial.faults)
    it.is_over.set()  # no waiting
    found = whole(it)
    changes = CHANGES[trial.name]
    assert len(struck) == len(trial.read())
    for number, expected in changes.items():
        if isinstance(expected, int):  # the size of the stored value
            size = int.from_bytes(found[4][2:4], "big") if found[4][1] == 0x82 else found[4][1]
            assert size == expected
        else:
            assert found[number - 1] == expected
    before = min(changes, default=8) - 1
    assert found[:before] == ANSWERS[:before]


def said(it, *tpdus):
    """What the card sends in each TPDU."""
    end = End(it, at_t0)
    found = []
    for tpdu in tpdus:
        found.append(b"")
        try:
            for byte in tpdu:
                found[-1] += end.take_in(bytes([byte]))
        except Gone:
            found[-1] += b"gone"
    return found


T0_JOB = [SELECT, bytes.fromhex("00C000000B"), *PUTS, GET]
# What the card sends in a TPDU of the job at T=0, by its place: procedure bytes, data and status.
AT_T0 = {
    "nulls before the answer": (2, b"\x60" * 1000 + b"\xda\x90\x00"),
    "procedure byte that is invalid": (2, b"\x33\x90\x00"),
    "procedure byte for one byte": (2, b"\x25\x90\x00"),
    "status before the data": (2, b"\x90\x00"),
    "status before the last data": (4, b"\x90\x00"),
    "byte lost at T=0": (5, b"\xca" + FIRST[:8] + FIRST[9:] + b"\x61\x00"),
    "byte too many at T=0": (5, b"\xca" + FIRST[:8] + b"\x55" + FIRST[8:] + b"\x61\x00"),
    "put of one byte, and of the rest": (2, b"\x25\xda\x90\x00"),
    "get of one byte, and of the rest": (
        5, b"\x35" + FIRST[:1] + b"\xca" + FIRST[1:] + b"\x61\x00"),
}


WHOLE_AT_T0 = [
    ("command 1, status 6F00", 0, b"\xa4\x6f\x00"),
    ("command 1, cut 3", 1, b"\xc0" + FCI[:-3] + b"\x90\x00"),
    ("command 1, add 5A", 1, b"\xc0" + FCI + b"\x5a\x90\x00"),
    ("command 1, wrong tag", 1, b"\xc0\x6e" + FCI[1:] + b"\x90\x00"),
    ("command 1, data AA", 1, b"\xc0\xaa\x90\x00"),
    ("command 2, forget", 2, b"\xda\x90\x00"),
    ("command 1, refuse 6A82", 0, b"\xa4\x6a\x82"),
    ("command 2, refuse 6A84", 2, b"\xda\x6a\x84"),
    ("command 5, refuse 6C10", 5, b"\x6c\x10"),
    ("command 1 part 2, refuse 6F00", 1, b"\x6f\x00"),
    ("command 2, 6C again", 2, b"\xda\x6c\x01"),
    ("command 2, mute", 2, b"\xdagone"),
    ("command 2, power off", 2, b"\xdagone"),
    ("command 2, reset", 2, b"\x69\x85"),
    ("command 2, byte 2 flip", 2, b"\xda\x91\x00"),
    ("command 4, data 0102", 4, b"\xda\x01\x02\x90\x00"),
    ("command 5, 6C again", 5, b"\x6c\x01"),
    ("command 5, 61 without end", 5, b"\xca" + FIRST + b"\x61\x10"),
    ("every C0, flip 7", 1, b"\xc0\xef" + FCI[1:] + b"\x90\x00"),
]


WHOLE_AT_T0 += [(it.faults, *AT_T0[it.name]) for it in trials() if it.name in AT_T0]


@pytest.mark.parametrize(("fault", "place", "expected"), WHOLE_AT_T0)
def test_characters(fault, place, expected):
    it, struck = simulator(fault, 0)
    job = T0_JOB[: place + 1]
    if fault.endswith(("reset", "early status")):
        job[place] = job[place][:5]  # a TPDU that ends early takes no data
    assert said(it, *job)[place] == expected and len(struck) == 1


@pytest.mark.parametrize(
    ("tpdu", "expected"),
    [("00DA0050024142", ["", "", "", "", "25", "da", "9000"]),
     ("00DA00500141", ["", "", "", "", "da", "9000"]),  # INS asks for nothing after the only byte
     ("00CA005003", ["", "", "", "", "6a88"])],  # a status alone
)
def test_the_byte_after_a_complement(tpdu, expected):
    """It comes alone. The card asks for the rest, if there is any."""
    it, struck = simulator("command 2, complement", 0)
    end = End(it, at_t0)
    for byte in SELECT:
        end.take_in(bytes([byte]))
    assert [end.take_in(bytes([byte])).hex() for byte in bytes.fromhex(tpdu)] == expected
    assert bool(struck) == ("25" in expected)


@pytest.mark.parametrize(
    ("whole", "sent"), [("ca51419000", "3551ca419000"), ("ca519000", "35519000"),
                        ("ca9000", "ca9000"), ("9000", "9000")])
def test_data_after_a_complement(whole, sent):
    assert one_by_one(bytes.fromhex(whole), 1).hex() == sent


@pytest.mark.parametrize(
    ("fault", "size"),
    [("command 2, forget", 345), ("command 2, twice", 855), ("command 4, twice", 90), ("", 600),
     ("command 2, refuse 9000", 345), ("command 2, complement", 600)],
)
def test_what_is_stored_over_a_line(fault, size):
    for t in (0,) if "complement" in fault else (0, 1):
        it, _ = simulator(fault, t)
        if t:
            end = End(it, at_t1)
            with T1(end.pass_block) as terminal:
                assert [terminal(each)[-2:] for each in JOB[:4]] == [b"\x90\x00"] * 4
                # IFS, SELECT, and the pieces in fields of 32 bytes: nothing is asked for again
                assert len(end.blocks) == 1 + 1 + 9 + 9 + 3
                assert terminal(bytes.fromhex("00CA005F00"))[-2:] != b"\x90\x00"
        else:
            said(it, *T0_JOB[:5])
        assert {each.tag: len(each.value) for each in it.card.entries(AID)}[0x51] == size


# What the card's blocks carry for the command at which the fault strikes, in order.
AT_T1 = {
    "lrc": lambda b: [b[:-1] + bytes([b[-1] ^ 0xFF]), b],
    "lose": lambda b: [b"", b],
    "double": lambda b: [b + b],
    "nad": lambda b: [block(0x21, b[1], b[3:-1]), b],
    "byte 2 flip": lambda b: [b[:1] + bytes([b[1] ^ 1]) + b[2:], b],
    "byte 4 drop": lambda b: [b[:3] + b[4:], b],
    "byte 1 insert 55": lambda b: [b"\x55" + b, b],
    "wtx 255": lambda b: [block(0, 0xC3, b"\xff"), b],
    "ifs 0": lambda b: [block(0, 0xC1, b"\0")] * 4 + [b],
}


BLOCKS = [it for it in trials() if "a line at T=1" in it.places]


def test_each_trial_of_a_line_is_tried():
    """By what the line carries: as whole commands, characters, blocks, or an echo."""
    names = [*CHANGES, *AT_T0, *(it.name for it in BLOCKS), *ECHOES]
    assert sorted(names) == sorted(it.name for it in trials())


OF_BYTES = [f"command 2, {it}" for it in AT_T1 if it.startswith("byte")]
OF_BLOCKS = [it.faults for it in BLOCKS if ";" not in it.faults]


def test_a_damaged_block_has_a_wrong_check():
    it, struck = simulator(*(it.faults for it in BLOCKS if it.faults not in OF_BLOCKS))
    end = End(it, at_t1)
    with T1(end.pass_block) as terminal:
        assert [terminal(command) for command in JOB] == ANSWERS
    damaged, right = next((one, two) for one, two in zip(end.blocks, end.blocks[1:])
                          if one[1:2] == two[1:2])
    assert [a ^ b for a, b in zip(damaged, right) if a != b] == [1, 0xFF] and len(struck) == 2


@pytest.mark.parametrize("fault", ["command 3, lrc", *OF_BLOCKS, *OF_BYTES])
def test_blocks(fault):
    """They come in place of the response of its command, which has one block, and the rest of the
    job is as without a fault, unless the card aborts."""
    it, struck = simulator(fault)
    end = End(it, at_t1)
    sent, (when, kind) = end.blocks, fault.split(", ")
    number = int(when.split()[1])
    with T1(end.pass_block) as terminal:
        for place, (command, answer) in enumerate(zip(JOB, ANSWERS), 1):
            sent.clear()
            if (place, kind) == (number, "abort"):
                with pytest.raises(BlockError):
                    terminal(command)
                assert block(0, 0xC2, b"") in sent
                break
            assert terminal(command) == answer
            if place == number:
                expected = AT_T1[kind](block(0, (place - 1) % 2 << 6, answer))
                assert sent[-len(expected) :] == expected
                assert {it[1] & 0xEF for it in sent[: -len(expected)]} == {0x80}  # acknowledged
    assert len(struck) == 1


def test_a_response_that_is_longer_than_any_terminal_takes():
    """The last block has the rest."""
    it, _ = simulator("command 5, add 5A5A5A")
    end = End(it, at_t1)
    with T1(end.pass_block) as terminal:
        for command in JOB[:4]:
            terminal(command)
        with pytest.raises(BlockError):
            terminal(GET)
    longer = FIRST + b"\x5a\x5a\x5a\x61\x00"
    assert end.blocks[-2:] == [block(0, 0x20, longer[:254]), block(0, 0x40, longer[254:])]


def blocks(it, *sent):
    """What the card's end at T=1 answers to each of these blocks."""
    end = End(it, at_t1)
    return [end.pass_block(one) for one in sent]


GET_NAME = bytes.fromhex("00CA5F2000")
NAME = bytes.fromhex("5F20034A4F459000")


@pytest.mark.parametrize("size", [1, 2, 3, 32, 254])
def test_fields_of_each_size(size):
    """Of a status alone, and of the longest response. A block that was damaged comes again."""
    it, _ = simulator("")
    value = VALUE[:253]
    for command in (SELECT, bytes.fromhex("00DA0051FD") + value):
        it.card.apdu(command)
    end = End(it, at_t1)
    number = 0

    def ask(pcb, field=b""):
        return end.pass_block(block(0, pcb, field))

    assert ask(0xC1, bytes([size])) == block(0, 0xE1, bytes([size]))
    asks = [(b"\x00\xDA\x00\x51\x00", b"\x67\x00"), (GET, b"\x51\x81\xFD" + value + b"\x90\x00")]
    for place, (command, expected) in enumerate(asks):
        sent = ask(place << 6, command)
        for at in range(0, len(expected), size):
            is_last = at + size >= len(expected)
            field = expected[at : at + size]
            assert sent == block(0, number << 6 | (not is_last) << 5, field)
            assert ask(0x81 | number << 4) == sent
            number ^= 1
            sent = b"" if is_last else ask(0x80 | number << 4)


def test_a_card_whose_first_protocol_is_t0_carries_out_commands_at_t1():
    sent = blocks(simulator("", 0)[0], block(0, 0, SELECT + b"\0"))
    assert sent == [block(0, 0, FCI + b"\x90\0")]


PART = block(0, 0x60, GET_NAME[:2])
DAMAGED = block(0, 0x60, GET_NAME[:2])[:-1] + b"\0"
# Faults, blocks of a terminal that has selected, and the card's answers.
TALKS = [
    # an abort drops the part of a command, and keeps the numbers
    ("", [PART, block(0, 0xC2, b""), block(0, 0, GET_NAME)],
     [block(0, 0x80, b""), block(0, 0xE2, b""), block(0, 0x40, NAME)]),
    # a resynchronisation also begins the numbers and the field size again
    ("", [block(0, 0xC1, b"\x04"), PART, block(0, 0xC0, b""), block(0, 0, GET_NAME)],
     [block(0, 0xE1, b"\x04"), block(0, 0x80, b""), block(0, 0xE0, b""), block(0, 0, NAME)]),
    # a part that was damaged counts once, when it comes again
    ("", [DAMAGED, PART, block(0, 0, GET_NAME[2:])],
     [block(0, 0x91, b""), block(0, 0x80, b""), block(0, 0x40, NAME)]),
    # only the first block of a response has faults
    ("command 2, lose; command 2, lrc",
     [block(0, 0xC1, b"\x04"), block(0, 0x40, GET_NAME), block(0, 0x92, b""), block(0, 0x80, b"")],
     [block(0, 0xE1, b"\x04"), b"", block(0, 0x60, NAME[:4]), block(0, 0, NAME[4:])]),
    # nothing is left of a lost block to change, nor when it is sent again
    *((f"command 2, lose; command 2, {it}", [block(0, 0x40, GET_NAME), block(0, 0x92, b"")],
       [b"", block(0, 0x40, NAME)]) for it in ("lrc", "nad", "double", "byte 1 flip")),
]  # fmt: skip


@pytest.mark.parametrize(("faults", "sent", "answers"), TALKS)
def test_a_talk_in_blocks(faults, sent, answers):
    it, struck = simulator(faults)
    assert blocks(it, block(0, 0, SELECT), *sent)[1:] == answers and len(struck) == bool(faults)


@pytest.mark.parametrize(
    "damaged", [block(0x21, 0, GET_NAME), block(0, 0, GET_NAME)[:-1] + b"\0", block(0, 0x10, b"\0"),
                block(0, 0x20, b""), block(0, 0, bytes(255))])
def test_a_block_that_is_none(damaged):
    """Another address, another LRC, a reserved bit, more data without any, a reserved length: none
    is carried out."""
    it, _ = simulator("")
    it.carried_out = (done := []).append
    [sent] = blocks(it, damaged)
    assert sent[:3].hex() in ("008100", "008200") and not done


@pytest.mark.parametrize("t", [0, 1])
def test_a_transport(t):
    it, struck = simulator("INS DA once, status 6A84", t)
    assert it.level is (Level.APDU if t else Level.TPDU)
    with it as reader, Terminal() as terminal:
        asked = (Select(AID), Put(0x50, b"A"), Put(0x50, b"B"), Get(0x50))
        answers = [terminal.run(reader, each) for each in asked]
        assert [each.status for each in answers] == [0x9000, 0x6A84, 0x9000, 0x9000]
        assert answers[3].object(0x50).value == b"B"
    assert struck == ["fault at command 2: faults:1: INS DA once, status 6A84"]


@pytest.mark.parametrize("text", ["command 1, mute", "command 1, power off"])
def test_a_transport_that_is_gone(text):
    it, _ = simulator(text)
    with it as reader, Terminal() as terminal, pytest.raises(Gone):
        terminal.run(reader, Select(AID))
    it, _ = simulator(text)
    with pytest.raises(Gone):
        it(SELECT)
    with pytest.raises(Gone):
        it(SELECT)
    it.reset()
    assert it(SELECT)[-2:] == b"\x61\x0b"


def test_when():
    """Which of eight equal commands each form strikes."""
    name = bytes.fromhex("00CA5F2000")

    def places(text, seed=0):
        it, struck = simulator(text, seed=seed)
        found = [answer[-2:] == b"\x6f\x00" for answer in whole(it, [JOB[0], *[name] * 7])]
        assert len(struck) == sum(found)
        return [at for at, each in enumerate(found, 1) if each]

    assert places("command 3, status 6F00") == places("command 3 part 1, status 6F00") == [3]
    assert places("command 3 part 2, status 6F00") == []
    assert places("every CA, status 6F00") == [2, 3, 4, 5, 6, 7, 8]
    assert places("INS CA once, status 6F00") == [2]
    assert places("after 5, status 6F00") == [6, 7, 8]
    assert places("p 0, status 6F00") == [] and len(places("p 1, status 6F00")) == 8
    assert places("p 0.5, status 6F00", 1) == places("p 0.5, status 6F00", 1)
    assert len({tuple(places("p .5, status 6F00", seed)) for seed in range(8)}) > 4


@pytest.mark.parametrize(
    ("what", "expected"),
    [("other value", "5f2003b5b0ba9000"), ("wrong tag", "5f21034a4f459000"),
     ("cut 2", "5f20034a9000"), ("cut 6", "9000"),
     ("cut 8", "9000"), ("flip 0", "5e20034a4f459000"), ("flip 47", "5f20034a4fc59000"),
     ("flip 48", "5f20034a4f459000"), ("data 01", "019000"), ("add 01", "5f20034a4f45019000")],
)
def test_changes_of_data(what, expected):
    it, struck = simulator(f"command 2, {what}")
    answers = whole(it, [JOB[0], bytes.fromhex("00CA5F2000")])
    assert answers[1].hex() == expected and len(struck) == (what != "flip 48")


def test_what_a_repetition_is():
    """After 6CXX the same header is of the same command, and a fault of bytes waits for it."""
    get, again = (bytes.fromhex(f"00CA5F20{it}") for it in ("00", "06"))
    it, struck = simulator("command 2, byte 7 flip; command 3, status 6F00", 0)
    found = said(it, SELECT, get, again, SELECT)
    assert [each.hex() for each in found[1:]] == ["6c06", "ca5f20034a4f449000", "a46f00"]
    it, _ = simulator("", 0)
    said(it, SELECT, get, SELECT, SELECT, again)
    assert it.faults.count == 5 and len(struck) == 2


def test_forget_sends_no_procedure_byte_if_no_data_follow():
    it, _ = simulator("command 2, forget", 0)
    assert said(it, SELECT, bytes.fromhex("00CA5F2006"))[1] == b"\x90\x00"


@pytest.mark.parametrize(("text", "expected"), [
    ("command 1, procedure 33", "336985"),
    ("command 1, forget; command 1, procedure 33", "339000")])
def test_a_procedure_byte_comes_before_a_status_alone(text, expected):
    """It does not replace the first byte of that."""
    it, _ = simulator(text, 0)
    assert said(it, bytes.fromhex("00CA5F2006")) == [bytes.fromhex(expected)]


class Writes(Application):
    """Takes data of UPDATE BINARY alone."""

    def takes_data(self, header):
        return header[1] == 0xD6

    def carry_out(self, command):
        return 0x9000, b""


def test_an_application_says_whether_data_follow_what_is_forgotten():
    it = Simulator(OwnCard(Writes()), faults=Faults(read("after 0, forget")))
    found = said(it, bytes.fromhex("00D6000002AABB"), bytes.fromhex("00DA000002"))
    assert [each.hex() for each in found] == ["d69000", "9000"]


class Works(Writes):
    """Asks for more time once in a command, and brings 96 bytes."""
    asks = 0

    def more_time(self, command):
        self.asks ^= 1
        return self.asks

    def carry_out(self, command):
        return 0x9000, bytes(96)


def test_a_status_may_end_with_the_byte_of_a_null():
    """The line sends NULLs of its own for what an application asks, so none is here."""
    found = said(Simulator(OwnCard(Works())), bytes.fromhex("00D6000002AABB"),
                 bytes.fromhex("00B0000000"), bytes.fromhex("00B0000060"))
    assert [each.hex() for each in found] == ["d66160", "6c60", "b0" + "00" * 96 + "9000"]


def test_no_command_counts_before_since():
    it, struck = simulator("command 1, status 6F00", since=SELECT[:5] + AID)
    other = bytes.fromhex("00A4040006D2760001240100")
    found = [each[-2:].hex() for each in whole(it, [GET, other, JOB[0], JOB[0]])]
    assert found[2:] == ["6f00", "9000"]
    assert len(struck) == 1


@pytest.mark.parametrize("kind", ["byte {} flip", "flip {}"])
def test_of_two_faults_the_one_that_strikes_is_printed(kind):
    far, near = (f"command 1, {kind.format(it)}" for it in (300, 1))
    it, struck = simulator(f"{far}; {near}")
    blocks(it, block(0, 0, JOB[0]))
    assert struck == [f"fault at command 1: faults:2: {near}"]


def test_changes_come_in_the_order_of_their_lines():
    for text, expected in [("add 0102; cut 1", "5f20034a4f45019000"),
                           ("cut 1; add 0102", "5f20034a4f01029000")]:
        it, struck = simulator("; ".join(f"command 2, {each}" for each in text.split("; ")))
        assert whole(it, [JOB[0], GET_NAME])[1].hex() == expected and len(struck) == 2


def test_a_change_that_finds_no_data_ends_with_its_command():
    it, struck = simulator("command 2, cut 2")
    answers = whole(it, [JOB[0], bytes.fromhex("00DA00510141"), GET_NAME])
    assert answers[1:] == [b"\x90\x00", NAME] and not struck


@pytest.mark.parametrize(
    ("data", "size"), [("5003414243", 2), ("5F2003414243", 3), ("51818000", 3), ("517F", 2),
                       ("51820258", 4), ("5F2082025800", 5)])
def test_the_head_of_an_object(data, size):
    assert head_size(bytes.fromhex(data)) == size


@pytest.mark.parametrize(("t", "expected"), [(0, b"\xa4\x61\x0b"), (1, block(0, 0, b"\x61\x0b"))])
@pytest.mark.parametrize("kind", ["flip", "drop", "insert 55"])
def test_a_byte_after_the_last_one_does_not_change(kind, t, expected):
    """SELECT without Le brings a status alone."""
    for place in (len(expected), len(expected) + 1):
        it, struck = simulator(f"command 1, byte {place} {kind}", t)
        [found] = blocks(it, block(0, 0, SELECT)) if t else said(it, SELECT)
        assert (found != expected) == len(struck) == (place == len(expected))


WRONG = ["command, mute", "command 1", "mute", "every C, mute", "command 1, nonsense", "p 2, mute",
         "command 1 part 0, mute", "command 1, refuse 5000",
         "command 1, status 5000", "command 1, cut", "command 1, wtx 256", "command 1, byte 0 flip",
         "command 1, byte 1 insert", "command 1, data A", "after x, mute", "command 1, delay 5",
         *(f"p 1, {it}" for it in ("nulls 10000000", "delay 10000000s", "byte 10000000 flip"))]


@pytest.mark.parametrize("line", WRONG)
def test_a_wrong_line(line):
    with pytest.raises(Mistake, match=r"^faults:3: not WHEN, WHAT"):
        read(f"# a comment\n\n{line}")


def test_what_can_not_happen():
    text = "command 1, byte 1 flip\ncommand 2, mute\ncommand 1, lrc\ncommand 1, nulls 3"
    faults = Faults([*read(text), *read("command 1, wrong echo")])
    faults.check([LINE, T0, "a line at T=1", ECHO], "this line")
    for places, wrong in (([], 4), ([LINE], 3), ([LINE, T0], 2), ([LINE, T0, ECHO], 1)):
        with pytest.raises(Mistake) as why:
            faults.check(places, "vpcd")
        assert len(str(why.value).splitlines()) == wrong and "and vpcd has none" in str(why.value)
    it, _ = simulator("command 1, lrc")
    with pytest.raises(Mistake, match="this needs a line at T=1"):
        it(SELECT)


def test_the_name_of_a_file_controls_no_terminal():
    told = []
    faults = Faults(read("command 1, status 6A82", "a\x9b"), tell=told.append)
    faults.begin(bytes(5))
    faults.changed(b"\x90\x00")
    assert told == ["fault at command 1: a\\x9b:1: command 1, status 6A82"]


def test_the_list_of_faults(capsys):
    """It has all that a line may say, each with its text in a column or below, and no more."""
    with pytest.raises(SystemExit) as end:
        main(["--list"])
    listed = capsys.readouterr().out.partition("\nWHEN\n")[2].rpartition("\n\n")[0]
    lines = [it for it in listed.splitlines() if it and not it.startswith((" ", "WHAT, "))]
    column = 21
    found = [it[:column].strip() if it[column - 1 : column] == " " else it for it in lines]
    assert end.value.code == 0 and sorted(found) == sorted([*WHENS, *KINDS])
