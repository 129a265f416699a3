"""A card of the payment kind, with test data: PPSE, GET PROCESSING OPTIONS, READ RECORD, VERIFY.

    python3 -m galliumtoad.simulate --application payment:Payment --vpcd
"""

from galliumtoad import Application, Command
from tlv import tlv

PPSE, AID = b"2PAY.SYS.DDF01", bytes.fromhex("A0000000041010")
PIN, TRIES = b"1234", 3
# Errors of ISO/IEC 7816-4: no such application, record or object; not in this order; and so on.
OK, NO_FILE, NO_RECORD, NO_OBJECT, WRONG_P1_P2 = 0x9000, 0x6A82, 0x6A83, 0x6A88, 0x6A86
NOT_SATISFIED, BLOCKED, WRONG_DATA, NO_INS, NO_CLA = 0x6985, 0x6983, 0x6A80, 0x6D00, 0x6E00

# The files by their names, and the records by SFI and number: 1234 5678 9012 3452 is no account.
TRACK = bytes.fromhex("1234567890123452D3012201")
FILES = {
    PPSE: tlv("6F", tlv("84", PPSE), tlv("A5", tlv("BF0C", tlv("61", tlv("4F", AID),
              tlv("50", b"TEST"), tlv("87", b"\x01"))))),
    AID: tlv("6F", tlv("84", AID), tlv("A5", tlv("50", b"TEST"), tlv("87", b"\x01"),
             tlv("9F38", bytes.fromhex("9F37045F2A02")))),
}
RECORDS = {
    (1, 1): tlv("70", tlv("57", TRACK), tlv("5F20", b"TOAD/GALLIUM")),
    (1, 2): tlv("70", tlv("5A", TRACK[:8]), tlv("5F24", bytes.fromhex("301231")),
                tlv("5F34", b"\x00"), tlv("8E", bytes(8), bytes.fromhex("41031F03"))),
}
OPTIONS = tlv("77", tlv("82", bytes.fromhex("1800")), tlv("94", bytes.fromhex("08010200")))
PDOL_SIZE = 6  # of an unpredictable number and a currency
Answer = tuple[int, bytes]


class Payment(Application):
    """What a reset keeps are the tries and the transactions; what it drops is all else."""

    def __init__(self) -> None:
        self.wrong, self.transactions = 0, 0
        self.reset()

    def reset(self) -> None:
        self.selected, self.is_ready, self.is_verified = b"", False, False

    def takes_data(self, header: bytes) -> bool:
        return header[1] in (0xA4, 0xA8, 0x20)

    def carry_out(self, command: Command) -> Answer:
        known = {0x00A4: self.select, 0x80A8: self.options, 0x00B2: self.read, 0x0020: self.verify,
                 0x80CA: self.get}
        does = known.get(command.header[0] << 8 | command.header[1])
        if does is None:
            is_ins = any(it & 0xFF == command.header[1] for it in known)
            return NO_CLA if is_ins else NO_INS, b""
        return does(command)

    def select(self, command: Command) -> Answer:
        """SELECT by name; the AID may be cut (EMV Book 1, 12.3.2)."""
        if command.header[2:] != b"\x04\x00":
            return WRONG_P1_P2, b""
        found = [it for it in FILES if len(command.data) > 4 and it.startswith(command.data)]
        self.reset()
        self.selected = found[0] if found else b""
        return (OK, FILES[self.selected]) if found else (NO_FILE, b"")

    def options(self, command: Command) -> Answer:
        """GET PROCESSING OPTIONS (EMV Book 3, 6.5.8): once after each selection."""
        if self.selected != AID or self.is_ready:
            return NOT_SATISFIED, b""
        if command.data[:2] != bytes([0x83, PDOL_SIZE]) or len(command.data) != PDOL_SIZE + 2:
            return WRONG_DATA, b""
        self.is_ready = True
        self.transactions += 1
        return OK, OPTIONS

    def read(self, command: Command) -> Answer:
        """READ RECORD (EMV Book 3, 6.5.11): P2 is the SFI and 100."""
        number, sfi = command.header[2], command.header[3] >> 3
        if command.header[3] & 7 != 4:
            return WRONG_P1_P2, b""
        if not self.is_ready:
            return NOT_SATISFIED, b""
        found = RECORDS.get((sfi, number))
        return (OK, found) if found else (NO_RECORD if sfi == 1 else NO_FILE, b"")

    def verify(self, command: Command) -> Answer:
        """VERIFY with a plain PIN (EMV Book 3, 6.5.12). It counts before it answers."""
        if self.selected != AID or command.header[2:] != b"\x00\x80":
            return WRONG_P1_P2 if self.selected == AID else NOT_SATISFIED, b""
        if self.wrong == TRIES:
            return BLOCKED, b""
        block = bytes([0x20 | len(PIN)]) + bytes.fromhex(PIN.decode()).ljust(7, b"\xFF")
        self.is_verified = command.data == block
        self.wrong = 0 if self.is_verified else self.wrong + 1
        return (OK if self.is_verified else 0x63C0 | TRIES - self.wrong), b""

    def get(self, command: Command) -> Answer:
        """GET DATA: the counter of transactions, and the tries (EMV Book 3, 6.5.7)."""
        found = {b"\x9F\x36": tlv("9F36", self.transactions.to_bytes(2, "big")),
                 b"\x9F\x17": tlv("9F17", bytes([TRIES - self.wrong]))}.get(command.header[2:])
        return (OK, found) if self.selected and found else (NO_OBJECT, b"")
