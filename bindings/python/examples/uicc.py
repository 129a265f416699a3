"""The file system of a UICC in little (ETSI TS 102 221), class 00, with test data.

    python3 -m galliumtoad.simulate --application uicc:Uicc --vpcd
"""

from galliumtoad import Application, Command

MF, DIR, ICCID, ADF, IMSI, AD = 0x3F00, 0x2F00, 0x2FE2, 0x7FFF, 0x6F07, 0x6FAD
AID, PIN, TRIES = bytes.fromhex("A0000000871002"), b"1234".ljust(8, b"\xFF"), 3
FOLDERS = {MF: [DIR, ICCID, ADF], ADF: [IMSI, AD]}
RECORD = bytes.fromhex("610D4F07A000000087100250025553").ljust(20, b"\xFF")
NEEDS_PIN = (IMSI,)
# 11.1 and 10.2.1: no file; no record; no EF; another structure; the PIN; an offset; P1 and P2
NO_FILE, NO_RECORD, NO_EF, NO_SUCH, NO_PIN, NO_PLACE, NO_P = (
    0x6A82, 0x6A83, 0x6986, 0x6981, 0x6982, 0x6B00, 0x6A86)
Answer = tuple[int, bytes]


class Uicc(Application):
    """A reset keeps the files and the tries. A file changes when the command settles."""

    def __init__(self) -> None:
        self.files = {ICCID: bytes.fromhex("98000000000000000010"), AD: bytes.fromhex("00000002"),
                      IMSI: bytes.fromhex("080910101032547698"), DIR: RECORD}
        self.wrong = 0
        self.reset()

    def reset(self) -> None:
        self.folder, self.file, self.is_open = MF, MF, False
        self.change: dict[int, bytes] = {}

    def settle(self) -> None:
        self.files.update(self.change)
        self.change = {}

    def takes_data(self, header: bytes) -> bool:
        return header[1] in (0xA4, 0xD6, 0x20)

    def carry_out(self, command: Command) -> Answer:
        known = {0xA4: self.select, 0xF2: self.status, 0xB0: self.read, 0xB2: self.read_record,
                 0xD6: self.update, 0x20: self.verify}
        if command.header[0] != 0:
            return 0x6E00, b""
        does = known.get(command.header[1])
        return does(command) if does else (0x6D00, b"")

    def select(self, command: Command) -> Answer:
        """SELECT by file identifier, by AID, which may be cut, or by path from the MF (11.1.1)."""
        p1, p2, data = *command.header[2:], command.data
        if p1 not in (0x00, 0x04, 0x08) or p2 not in (0x04, 0x0C):
            return NO_P, b""
        names = [int.from_bytes(data[at : at + 2], "big") for at in range(0, len(data), 2)]
        found = MF if p1 == 0x08 and names else 0
        if p1 == 0x04 and len(data) > 4 and AID.startswith(data):
            found = ADF
        if p1 == 0x00 and len(names) == 1 and names[0] in (MF, *FOLDERS[self.folder]):
            found = names[0]
        for name in names if p1 == 0x08 else []:
            found = name if name in FOLDERS.get(found, []) else 0
        if not found:
            return NO_FILE, b""
        self.file = found
        inside = [it for it in FOLDERS if found in FOLDERS[it]]
        self.folder = found if found in FOLDERS else inside[0]
        return 0x9000, self.control(found) if p2 == 0x04 else b""

    def control(self, file: int) -> bytes:
        """The control parameters of a file (11.1.1.3)."""
        size = len(self.files.get(file, b"")).to_bytes(2, "big")
        kind = "8205422100" + f"{len(RECORD):02X}01" if file == DIR else "82024121"
        found = bytes.fromhex("82027821" if file in FOLDERS else kind)
        found += b"\x83\x02" + file.to_bytes(2, "big")
        found += bytes([0x84, len(AID)]) + AID if file == ADF else b""
        found += b"\x8A\x01\x05" + (b"" if file in FOLDERS else b"\x80\x02" + size)
        return bytes([0x62, len(found)]) + found

    def status(self, command: Command) -> Answer:
        return 0x9000, self.control(self.folder)

    def fault(self, is_record: bool) -> int:
        """Why the selected file can't be read or changed by such a command, or 0."""
        if self.file in FOLDERS:
            return NO_EF
        if (self.file == DIR) != is_record:
            return NO_SUCH
        return NO_PIN if self.file in NEEDS_PIN and not self.is_open else 0

    def read(self, command: Command) -> Answer:
        at, content = int.from_bytes(command.header[2:], "big"), self.files.get(self.file, b"")
        if fault := self.fault(False):
            return fault, b""
        return (0x9000, content[at : at + command.le]) if at < len(content) else (NO_PLACE, b"")

    def read_record(self, command: Command) -> Answer:
        if fault := self.fault(True):
            return fault, b""
        if command.header[3] != 4:
            return NO_P, b""
        return (0x9000, self.files[DIR]) if command.header[2] == 1 else (NO_RECORD, b"")

    def update(self, command: Command) -> Answer:
        """UPDATE BINARY: after the PIN, and within the file."""
        at, content = int.from_bytes(command.header[2:], "big"), self.files.get(self.file, b"")
        end = at + len(command.data)
        if fault := self.fault(False) or (0 if self.is_open else NO_PIN):
            return fault, b""
        if end > len(content):
            return NO_PLACE, b""
        self.change = {self.file: content[:at] + command.data + content[end:]}
        return 0x9000, b""

    def verify(self, command: Command) -> Answer:
        """VERIFY PIN: without data it tells the tries that are left (11.1.9)."""
        if command.header[2:] != b"\x00\x01":
            return 0x6A88, b""
        if command.data and self.wrong < TRIES:
            self.is_open = command.data == PIN
            self.wrong = 0 if self.is_open else self.wrong + 1
        if self.wrong == TRIES:
            return 0x6983, b""
        return (0x9000 if command.data and self.is_open else 0x63C0 | TRIES - self.wrong), b""
