"""A PKCS#15 card for tests (PKCS #15 v1.1, or ISO/IEC 7816-15): a PIN, a certificate, and an object
that the PIN protects.

    python3 -m galliumtoad.simulate --application pkcs15:Pkcs15 --pty
    echo 'app default { enable_default_driver = true; }' > FILE
    OPENSC_CONF=FILE pkcs15-tool --dump
"""

from base64 import b64decode

from galliumtoad import Application, Command
from tlv import tlv

# ISO/IEC 7816-4, 5.6: the statuses.
OK = 0x9000
NO_EF_IS_SELECTED = 0x6986
NOT_SATISFIED = 0x6982
BLOCKED = 0x6983
NO_FILE = 0x6A82
WRONG_P1_P2 = 0x6A86
NO_REFERENCE = 0x6A88
WRONG_OFFSET = 0x6B00
NO_INS = 0x6D00
NO_CLA = 0x6E00

PIN, PIN_REFERENCE, TRIES = b"1234", 1, 3
LEAST_DIGITS, MOST_DIGITS = 4, 8
LABEL = b"Galliumtoad"
AID = bytes.fromhex("A000000063") + b"PKCS-15"

# The files by their paths from the master file.
MF, APPLICATION, DIR = "3F00", "3F005015", "3F002F00"
OBJECT_DIRECTORY, TOKEN_INFO = APPLICATION + "5031", APPLICATION + "5032"
PINS, CERTIFICATES, OBJECTS = (APPLICATION + it for it in ("4401", "4402", "4403"))
CERTIFICATE, SECRET = APPLICATION + "4501", APPLICATION + "4502"
FOLDERS = {MF: b"", APPLICATION: AID}

# By `openssl req -x509`, and its private key is gone.
X509 = b64decode(
    "MIIBSTCB8aADAgECAgEBMAoGCCqGSM49BAMCMBcxFTATBgNVBAMMDEdhbGxpdW0g"
    "VG9hZDAgFw0yNjEyMDEwODE5MzlaGA8yMDc2MTExODA4MTkzOVowFzEVMBMGA1UE"
    "AwwMR2FsbGl1bSBUb2FkMFkwEwYHKoZIzj0CAQYIKoZIzj0DAQcDQgAEy5qgn1PZ"
    "XW9pvjZLVKyka2k78UIuFf5ekC+NJO2mIP8Va+t+XLg6+T2jF7vPEr3+lbH3rMWS"
    "wJOILhGwOwf5zaMsMCowCQYDVR0TBAIwADAdBgNVHQ4EFgQUw4j+uLB6TmoOENya"
    "3ZxyQ0QRBnAwCgYIKoZIzj0EAwIDRwAwRAIgVuSLp1+djZ//fmoHmCwm0e7KLgPv"
    "Mf7RK6S8M3hPzV8CIEpmMlIjVVc5vB0Mv+3Lx/oMAgnL2s/3M9gTOxLTlelM"
)

Answer = tuple[int, bytes]


# Values in ASN.1, by DER.


def sequence(*parts: bytes) -> bytes:
    return tlv("30", *parts)


def text(value: bytes) -> bytes:
    return tlv("0C", value)


def octets(value: bytes) -> bytes:
    return tlv("04", value)


def integer(value: int) -> bytes:
    return tlv("02", bytes([value]))


def path_of(file: str) -> bytes:
    return sequence(octets(bytes.fromhex(file)))


def named(label: bytes, *more: bytes) -> bytes:
    """CommonObjectAttributes: a label, and what protects the object."""
    return sequence(text(label), *more)


PIN_ID, CERTIFICATE_ID = octets(b"\x01"), octets(b"\x45")
# Strings of bits: the number of unused ones, and the bits. Of objects, tokens and PINs.
IS_PRIVATE = tlv("03", b"\x07\x80")
LOGIN_REQUIRED = tlv("03", b"\x06\x40")
CASE_SENSITIVE_INITIALIZED = tlv("03", b"\x03\x88")
ASCII_NUMERIC = tlv("0A", b"\x01")

CONTENTS = {
    # ISO/IEC 7816-15, 7.4: the application, its label and its path.
    DIR: tlv("61", tlv("4F", AID), tlv("50", LABEL), tlv("51", bytes.fromhex(APPLICATION))),
    # The directories of certificates [4], data objects [7] and PINs [8].
    OBJECT_DIRECTORY: (
        tlv("A4", path_of(CERTIFICATES)) + tlv("A7", path_of(OBJECTS)) + tlv("A8", path_of(PINS))
    ),
    TOKEN_INFO: sequence(
        integer(0),
        octets(bytes.fromhex("0000000001")),
        text(b"Galliumtoad"),
        tlv("80", LABEL),
        LOGIN_REQUIRED,
    ),
    PINS: sequence(
        named(b"PIN"),
        sequence(PIN_ID),
        tlv("A1", sequence(
            CASE_SENSITIVE_INITIALIZED,
            ASCII_NUMERIC,
            integer(LEAST_DIGITS),
            integer(MOST_DIGITS),
            integer(MOST_DIGITS),
            tlv("80", bytes([PIN_REFERENCE])),
            path_of(APPLICATION),
        )),
    ),
    CERTIFICATES: sequence(
        named(b"Certificate"),
        sequence(CERTIFICATE_ID),
        tlv("A1", sequence(path_of(CERTIFICATE))),
    ),
    OBJECTS: sequence(
        named(b"Secret", IS_PRIVATE, PIN_ID),
        sequence(text(b"Galliumtoad")),
        tlv("A1", path_of(SECRET)),
    ),
    CERTIFICATE: X509,
    SECRET: b"The PIN was right.",
}
NEEDS_PIN = (SECRET,)


class Pkcs15(Application):
    """All files are read only. A reset keeps the tries of the PIN."""

    atr = bytes.fromhex("3B80800101")

    def __init__(self) -> None:
        self.tries = TRIES
        self.reset()

    def reset(self) -> None:
        self.file = MF
        self.is_verified = False

    def takes_data(self, header: bytes) -> bool:
        return header[1] in (0x20, 0xA4)

    def carry_out(self, command: Command) -> Answer:
        known = {0x20: self.verify, 0xA4: self.select, 0xB0: self.read}
        cla, ins = command.header[:2]
        if cla != 0x00:
            return NO_CLA, b""
        if ins not in known:
            return NO_INS, b""
        return known[ins](command)

    def select(self, command: Command) -> Answer:
        """SELECT: by an identifier, by the application's name or by a path, with or without the
        control information of the file (ISO/IEC 7816-4, 11.1.1)."""
        p1, p2 = command.header[2:]
        if p2 not in (0x00, 0x04, 0x0C):
            return WRONG_P1_P2, b""
        digits = command.data.hex().upper()
        if p1 == 0x00:
            found = self.by_identifier(digits or MF)
        elif p1 == 0x04:
            found = APPLICATION if len(digits) >= 10 and AID.startswith(command.data) else ""
        elif p1 == 0x08:
            found = MF + digits
        elif p1 == 0x09:
            found = self.folder() + digits
        else:
            return WRONG_P1_P2, b""
        if found not in FOLDERS and found not in CONTENTS:
            return NO_FILE, b""
        self.file = found
        return OK, b"" if p2 == 0x0C else self.control()

    def folder(self) -> str:
        """The selected folder, or that of the selected file."""
        return self.file if self.file in FOLDERS else self.file[:-4]

    def by_identifier(self, digits: str) -> str:
        """The file of this identifier in the folder, or the folder's own, or the master file."""
        folder = self.folder()
        if digits == MF:
            return MF
        return folder if folder.endswith(digits) else folder + digits

    def control(self) -> bytes:
        """The control information of the selected file (ISO/IEC 7816-4, 7.4.3)."""
        identifier = tlv("83", bytes.fromhex(self.file[-4:]))
        if self.file in FOLDERS:
            name = FOLDERS[self.file]
            return tlv("6F", tlv("82", b"\x38"), identifier, tlv("84", name) if name else b"")
        size = len(CONTENTS[self.file]).to_bytes(2, "big")
        return tlv("6F", tlv("80", size), tlv("82", b"\x01"), identifier)

    def read(self, command: Command) -> Answer:
        """READ BINARY of the selected file (11.2.3)."""
        at = int.from_bytes(command.header[2:], "big")
        if self.file in FOLDERS:
            return NO_EF_IS_SELECTED, b""
        if at >= 0x8000:
            return NO_FILE, b""  # there are no short identifiers
        if self.file in NEEDS_PIN and not self.is_verified:
            return NOT_SATISFIED, b""
        content = CONTENTS[self.file]
        if at >= len(content):
            return WRONG_OFFSET, b""
        return OK, content[at : at + command.le]

    def verify(self, command: Command) -> Answer:
        """VERIFY (11.5.6). Without data it reports the tries. A wrong PIN counts before the card
        answers, so a reset gives none back."""
        if command.header[2:] != bytes([0x00, PIN_REFERENCE]):
            return NO_REFERENCE, b""
        if not command.data and self.is_verified:
            return OK, b""
        if self.tries == 0:
            return BLOCKED, b""
        if command.data:
            self.is_verified = command.data == PIN
            self.tries = TRIES if self.is_verified else self.tries - 1
        return (OK if self.is_verified else 0x63C0 | self.tries), b""
