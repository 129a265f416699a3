"""Programs of others and gt_pcsc with a card at T=0 and T=1, with an echo and without: 100 commands
each, and the answers of the rules. GnuPG and OpenSC have cards of their own. READER_ROUNDS=N does
all N times, and with each kind of card. Each group prints how many commands its card has got."""

import hashlib
import os
import re
import subprocess
import sys
import tempfile
from concurrent.futures import ThreadPoolExecutor
from pathlib import Path

from long_card import LongCard, pattern
from world import (EXAMPLES, INSTALLED, PATIENT, SELECT, SELECTED, TESTED, TOP, Card, Pcscd, Room,
                   run, same)

COUNT = 49
PUT, GET = "00DA005102{:04X}", "00CA005104"
COMMANDS = [SELECT, *(it for at in range(COUNT) for it in (PUT.format(at), GET)), GET]
OBJECTS = [f"5102{at:04X}" for at in range(COUNT)]
ANSWERS = [*(it for of in OBJECTS for it in ("9000", f"{of}9000")), f"{OBJECTS[-1]}9000"]
# without Le the card tells how many bytes wait, at T=1 too
FIRST = "610B"
READERS = [(protocol, echo) for protocol in (0, 1) for echo in (True, False)]
ATRS = {0: "3B00", 1: "3B800181"}
BY_PYSCARD = """
import sys
from smartcard.System import readers
name, protocol, *commands = sys.argv[1:]
card = next(it for it in readers() if str(it) == name).createConnection()
card.connect(int(protocol) + 1)
for command in commands:
    data, sw1, sw2 = card.transmit(list(bytes.fromhex(command)))
    print(bytes([*data, sw1, sw2]).hex().upper())
"""


def with_gt_pcsc(name, protocol):
    script = "".join([f"select {SELECT[10:]}\n", *(f"send {it}\n" for it in COMMANDS[1:])])
    status, said = run(["gt_pcsc", "-r", name, "--protocol", str(protocol), "-f", "-"], script)
    same(said.replace(" ", "").replace("=", "").splitlines(),
         [f"9000{SELECTED}", *(it[-4:] + it[:-4] for it in ANSWERS)])
    return status


def with_opensc_tool(name, protocol):
    sent = [word for it in COMMANDS for word in ("-s", re.sub("(..)(?=.)", r"\1:", it))]
    status, said = run(["opensc-tool", "-r", name, "-c", "default", *sent])
    found = []
    for line in said.splitlines():
        if received := re.match(r"Received \(SW1=0x(..), SW2=0x(..)\)", line):
            found.append(received[1] + received[2])
        elif data := re.match(r"((?:[0-9A-F]{2} )+)", line):
            found[-1] = data[1].replace(" ", "") + found[-1]
    same(found, ["9000", *ANSWERS])
    return status


def with_scriptor(name, protocol):
    status, said = run(["scriptor", "-r", name, "-p", f"T={protocol}"],
                       "".join(f"{it}\n" for it in COMMANDS))
    lines = re.findall(r"^< ((?:[0-9A-F]{2} )+)", said, re.M)
    same([it.replace(" ", "") for it in lines], [FIRST, *ANSWERS])
    return status


def with_pyscard(name, protocol):
    status, said = run([sys.executable, "-c", BY_PYSCARD, name, str(protocol), *COMMANDS])
    same(said.splitlines(), [FIRST, *ANSWERS])
    return status


PROGRAMS = {"gt_pcsc": with_gt_pcsc, "opensc-tool": with_opensc_tool, "scriptor": with_scriptor,
            "pyscard": with_pyscard}
# How often each program does its job. Many rounds are for each kind of card.
ROUNDS = int(os.environ.get("READER_ROUNDS", "1"))
# The answers to reset of cards for GnuPG and OpenSC: T=0, T=1, and T=1 by PPS.
OWN_ATRS = {"T=0": "3B00", "T=1": "3B800181", "PPS": "3B9011800100"}
OWN_READERS = [("T=0", True), ("T=1", False), ("PPS", False)] + [
    ("T=0", False), ("T=1", True), ("PPS", True)] * (ROUNDS > 1)
FINGERPRINT = "FC80BBA8C82771C939FFCD9BF9A547D196E3E472"
STATUS = ["AID:D276000124010304FFFF000000010000:openpgp-card:", "version:0304:",
          "name:Gallium:Toad:", "login:gallium:", "maxpinlen:32:32:32:", f"fpr:{FINGERPRINT}:::"]
DUMP = ["PKCS#15 Card [Galliumtoad]:", "Serial number  : 0000000001", "PIN [PIN]",
        "Reference      : 1 (0x01)", "X.509 Certificate [Certificate]", "Encoded serial : 02 01 01",
        "Data object 'Secret'", "Auth ID:         01"]
SECRET = "54 68 65 20 50 49 4E 20 77 61 73 20 72 69 67 68 74 2E"


def contains(said, parts):
    same([it for it in parts if it not in said], [], f"{said[-700:]} lacks")


class Gpg:
    """GnuPG with a home of its own, and the card in this reader."""

    def __init__(self, room, name):
        self.path = Path(room.enter_context(tempfile.TemporaryDirectory()))
        self.path.chmod(0o700)
        (self.path / "scdaemon.conf").write_text(f"disable-ccid\nreader-port {name}\n")
        room.callback(lambda: run(["gpgconf", "--homedir", self.path, "--kill", "all"]))

    def __call__(self, *words):
        return run(["gpg", "--homedir", self.path, "--batch", "--yes", "--pinentry-mode",
                    "loopback", *words])

    def import_key(self):
        """Takes the public key of the card."""
        done = subprocess.run([sys.executable, EXAMPLES / "openpgp_key.py"], check=True,
                              capture_output=True)
        (self.path / "key").write_bytes(done.stdout)
        same(self("--import", self.path / "key")[0], 0)

    def sign(self, pin):
        return self("--passphrase", pin, "--detach-sign", self.path / "scdaemon.conf")[0]

    def status(self):
        status, said = self("--card-status", "--with-colons")
        same(status, 0, said)
        return said


def with_gpg(name, room):
    """The status of the card, and a signature by its key, with a PIN that was wrong before."""
    gpg = Gpg(room, name)
    gpg.import_key()
    for at in range(ROUNDS):
        contains(gpg.status(), [*STATUS, "pinretry:3:0:3:", f"sigcount:{at}:"])
        same(gpg.sign("123457"), 2, "a wrong PIN:")
        contains(gpg.status(), ["pinretry:2:0:3:", f"sigcount:{at}:"])
        same(gpg.sign("123456"), 0)
        signed = gpg.path / "scdaemon.conf"
        contains(gpg("--verify", f"{signed}.sig", signed)[1],
                 ['Good signature from "Gallium Toad"', FINGERPRINT])


def with_pkcs15_tool(name, room):
    """What is on the card, its certificate, and the object that the PIN protects."""
    settings = room.path / f"{name}.conf"
    settings.write_text("app default { enable_default_driver = true; }\n")
    source = (EXAMPLES / "pkcs15.py").read_text(encoding="utf-8")

    def tool(*words):
        return run(["env", f"OPENSC_CONF={settings}", "pkcs15-tool", "--reader", name, *words])
    for _ in range(ROUNDS):
        status, said = tool("--dump")
        same(status, 0, said)
        contains(said, DUMP)
        contains(tool("--list-certificates")[1], DUMP[4:6])
        lines = re.findall("^[A-Za-z0-9+/=]{4,}$", tool("--read-certificate", "45")[1], re.M)
        same((len(lines), [it for it in lines if f'"{it}"' not in source]), (7, []))
        reads = ["--verify-pin", "--read-data-object", "Secret", "--pin"]
        status, said = tool(*reads, "1235")
        same((status != 0, SECRET in said), (True, False), said)
        status, said = tool(*reads, "1234")
        same((status, SECRET in said), (0, True), said)


OWN = {"gpg": (with_gpg, "openpgp:OpenPgp"), "pkcs15-tool": (with_pkcs15_tool, "pkcs15:Pkcs15")}
# what pyscard makes of the reader's features
FEATURES = """
import sys
from smartcard.System import readers
from smartcard.pcsc.PCSCPart10 import getFeatureRequest, getTlvProperties, hasFeature
from smartcard.pcsc.PCSCPart10 import FEATURE_VERIFY_PIN_DIRECT, SCARD_SHARE_SHARED
card = next(it for it in readers() if str(it) == sys.argv[1]).createConnection()
card.connect(int(sys.argv[2]) + 1)
features = getFeatureRequest(card)
print(len(features), hasFeature(features, FEATURE_VERIFY_PIN_DIRECT))
print(sorted(getTlvProperties(card).items()))
"""


def with_features(name, protocol):
    most = 65536 if protocol else 0
    status, said = run([sys.executable, "-c", FEATURES, name, str(protocol)])
    same(said.splitlines(), ["1 None", f"[('PCSCv2_PART10_PROPERTY_dwMaxAPDUDataSize', {most}), "
                             f"('raw', [10, 4, 0, 0, {int(most > 0)}, 0])]"])
    return status


def has(program):
    if program == "pyscard":
        return subprocess.run([sys.executable, "-c", "import smartcard"], check=False,
                              stderr=subprocess.DEVNULL).returncode == 0
    return run(["sh", "-c", f"command -v {program}"])[0] == 0 or program in ("gt_pcsc", "features")


def group(case):
    """Runs each case: its title and a function."""
    if len(COMMANDS) != 100 or len(ANSWERS) != 99:
        raise ValueError("not 100 commands")
    of_a_table(case)
    for program in OWN:
        of_its_own(case, program)
    case("extended commands of pyscard", extended)
    if has("gpg"):
        case("what READER shows", as_the_page_shows)
    case("the installed library", lambda: with_library(INSTALLED))
    case("the tested library", lambda: with_library(TESTED))


def of_a_table(case):
    with Room() as room:
        cards = [Card(room, f"tty{protocol}{echo}", ATRS[protocol], echo)
                 for protocol, echo in READERS]
        devices = [(f"R{protocol}{'echo' if echo else 'plain'}", device_of(card, echo))
                   for (protocol, echo), card in zip(READERS, cards)]
        pcscd = Pcscd(room, devices)
        names = pcscd.await_readers(len(READERS))

        def each(of):
            (protocol, echo), name = of
            for program, test in PROGRAMS.items():
                title = f"100 commands of {program} at T={protocol}{'' if echo else ', no echo'}"
                if not has(program):
                    case.skip(title, program)
                    continue
                case(title, lambda test=test: same(
                    {test(name, protocol) for _ in range(ROUNDS)}, {0}, "status"))
            case(f"features at T={protocol}", lambda: same(with_features(name, protocol), 0))
        with ThreadPoolExecutor(len(READERS)) as pool:
            list(pool.map(each, zip(READERS, names)))
        case("pcscd's log has no fault", lambda: same(faults_of(pcscd), []))
        pcscd.end()


def faults_of(pcscd):
    """What the readers have logged. pcscd itself logs a program that ends while it waits."""
    return [it for it in pcscd.said().splitlines() if "gt_serial_reader: " in it]


def device_of(card, echo):
    return f"{card.tty}:{PATIENT},echo={'yes' if echo else 'no'}"


def of_its_own(case, program):
    """A program with a card of its own in each reader."""
    test, own = OWN[program]
    with Room() as room:
        cards = [Card(room, f"tty{at}", OWN_ATRS[kind], echo, own=own)
                 for at, (kind, echo) in enumerate(OWN_READERS)]
        pcscd = Pcscd(room, [(f"{program}{at}", device_of(card, echo))
                             for at, (card, (_, echo)) in enumerate(zip(cards, OWN_READERS))])
        names = pcscd.await_readers(len(OWN_READERS))

        def each(of):
            (kind, echo), card, name = of
            title = f"{program} at {kind}{'' if echo else ', no echo'}"
            if not has(program):
                case.skip(title, program)
                return
            case(title, lambda: test(name, room))
            if ROUNDS > 1:
                print(f"{title}: {commands_of(card)} commands", flush=True)
        # each pkcs15-tool looks at all readers, so no two at once
        with ThreadPoolExecutor(len(names) if program == "gpg" else 1) as pool:
            list(pool.map(each, zip(OWN_READERS, cards, names)))
        case(f"pcscd's log has no fault of {program}", lambda: same(faults_of(pcscd), []))
        pcscd.end()


def commands_of(card):
    """How many commands or TPDUs it has got, by its trace: headers, and last blocks of commands."""
    header = r"^> [0-9A-F]{2}(?!C0)[0-9A-F]{8}$" if "\n< 3B00\n" in card.said() else "^> 00[04]0"
    return len(re.findall(header, card.said(), re.M))


def as_the_page_shows():
    """The commands of READER.md print the lines below them."""
    page = (TOP / "docs/READER.md").read_text(encoding="utf-8")
    _, *shown = page.split("```conf")[1].split("```")[0].split("\n$ ")
    with Room() as room:
        card = Card(room, "tty", atr="", own="openpgp:OpenPgp")
        pcscd = Pcscd(room, [("Serial reader", f"{card.tty}:")], INSTALLED)
        pcscd.await_readers(1)
        home = Path(room.enter_context(tempfile.TemporaryDirectory()))
        for part in shown:
            command, *lines = part.splitlines()
            status, said = run(["env", f"HOME={home}", *command.split()])
            same((status, len(lines) > 0), (0, True), said)
            contains(said, lines)
        run(["env", f"HOME={home}", "gpgconf", "--kill", "all"])
        pcscd.end()


def extended():
    """An answer of 65,536 bytes, and a command of as many less one."""
    card = LongCard()
    with Room() as room:
        pcscd = Pcscd(room, [("Long", f"{card.tty}:echo=no,{PATIENT},baud=1000000")])
        name, = pcscd.await_readers(1)
        data = pattern(65535)
        script = room.path / "script"
        script.write_text(BY_PYSCARD.replace("sys.argv[1:]", "open(sys.argv[1]).read().split('|')"))
        given = room.path / "given"
        given.write_text("|".join([name, "1", "00B00000000101", "00B00000000000",
                                   f"00D6000000FFFF{data.hex()}0000"]))
        status, said = run([sys.executable, script, given])
        digest = hashlib.sha256(data).hexdigest()
        same((status, said.lower().split()), (0, [
            f"{pattern(257).hex()}9000", f"{pattern(65536).hex()}9000", f"{digest}9000"]))
        pcscd.end()
    card.end()


def with_library(library):
    """The library itself, with a card that talks both."""
    with Room() as room:
        card = Card(room, "tty", "3B9011800100", echo=False)
        pcscd = Pcscd(room, [("Both", f"{card.tty}:{PATIENT},echo=no")], library)
        name, = pcscd.await_readers(1)
        for protocol in (0, 1, 0):
            same(with_pyscard(name, protocol), 0, "status")
        pcscd.end()
