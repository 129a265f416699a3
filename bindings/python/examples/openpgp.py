"""An OpenPGP card for tests (Functional Specification of the OpenPGP Application, 3.4). It has one
key, for signatures, which everybody knows.

    python3 -m galliumtoad.simulate --application openpgp:OpenPgp --pty
    gpg --card-status
    python3 openpgp_key.py | gpg --import
    gpg --detach-sign FILE     # the PIN is 123456
"""

import hashlib
from typing import Callable, Optional

from galliumtoad import Application, Command
from tlv import tlv

# 7.1: the statuses.
OK = 0x9000
WRONG_LENGTH = 0x6700
NOT_SATISFIED = 0x6982  # also the answer to a wrong password
BLOCKED = 0x6983
NOT_NOW = 0x6985
WRONG_DATA = 0x6A80
NO_FUNCTION = 0x6A81
NO_APPLICATION = 0x6A82
WRONG_P1_P2 = 0x6A86
NO_OBJECT = 0x6A88
NO_INS = 0x6D00
NO_CLA = 0x6E00

# 4.2.1: version 3.4, a test card, and its serial number.
AID = bytes.fromhex("D27600012401 0304 FFFF 00000001 0000")
# 6: a whole name or a part of it selects. No chains, no extended lengths; operational.
HISTORICAL = bytes.fromhex("0031F573C00100059000")

# 7.2.2: the password PW1 allows one signature, or the user's commands. PW3 is the administrator's.
SIGN, USER, ADMIN = 0x81, 0x82, 0x83
TRIES, MOST_BYTES = 3, 32

# 4.4.1: the objects that commands change: the password that each needs, and its first value.
OBJECTS = {
    0x005B: (ADMIN, b"Toad<<Gallium"),
    0x005E: (ADMIN, b"gallium"),
    0x5F2D: (ADMIN, b"en"),
    0x5F35: (ADMIN, b"9"),
    0x5F50: (ADMIN, b""),
    0x0101: (USER, b""),
    0x0102: (ADMIN, b""),
    0x0103: (USER, b""),
    0x0104: (ADMIN, b""),
}
# These are read with a password too.
SECRETS = {0x0103: USER, 0x0104: ADMIN}
# 4.4.3.7: objects of up to 254 bytes, private ones, and a password that stays valid if that is set.
CAPABILITIES = bytes.fromhex("18 00 0000 0000 00FE 00 00")
# 4.4.3.9: RSA with 2,048 bits, and 17 of the exponent. The other two keys are missing.
ALGORITHM = bytes.fromhex("01 0800 0011 00")
NO_FINGERPRINT, NO_TIME = bytes(20), bytes(4)

# The primes are the largest ones below 2**1024.
P, Q, E = 2**1024 - 105, 2**1024 - 179, 65537
N = P * Q
D = pow(E, -1, (P - 1) * (Q - 1))
SIZE = 256
CREATED = (1577836800).to_bytes(4, "big")  # 2020-01-01

Answer = tuple[int, bytes]


def mpi(value: int) -> bytes:
    """A number as OpenPGP has it (RFC 4880, 3.2)."""
    bits = value.bit_length()
    return bits.to_bytes(2, "big") + value.to_bytes((bits + 7) // 8, "big")


def key_packet() -> bytes:
    """The public key (RFC 4880, 5.5.2), with the header of its packet."""
    packet = b"\x04" + CREATED + b"\x01" + mpi(N) + mpi(E)
    return b"\x99" + len(packet).to_bytes(2, "big") + packet


def fingerprint() -> bytes:
    """The fingerprint of the key (RFC 4880, 12.2)."""
    return hashlib.sha1(key_packet()).digest()


def signature(digest_info: bytes) -> bytes:
    """The signature of a hash with its header (RFC 8017, 8.2)."""
    padded = b"\x00\x01" + b"\xFF" * (SIZE - 3 - len(digest_info)) + b"\x00" + digest_info
    return pow(int.from_bytes(padded, "big"), D, N).to_bytes(SIZE, "big")


class Password:
    """A password, and the tries that are left."""

    def __init__(self, value: bytes) -> None:
        self.value = value
        self.least_bytes = len(value)
        self.tries = TRIES

    def check(self, given: bytes) -> int:
        """The status of a try. It counts before the card answers, so a reset gives none back."""
        if self.tries == 0:
            return BLOCKED
        if given != self.value:
            self.tries -= 1
            return NOT_SATISFIED
        self.tries = TRIES
        return OK

    def takes(self, new: bytes) -> bool:
        return self.least_bytes <= len(new) <= MOST_BYTES

    def change(self, new: bytes) -> None:
        self.value = new
        self.tries = TRIES


def nothing() -> None:
    """The change of a command that changes nothing."""


class OpenPgp(Application):
    """A reset keeps objects, passwords and tries. An object changes when its command settles."""

    atr = bytes.fromhex("3B8A8001") + HISTORICAL + b"\xE8"

    def __init__(self) -> None:
        self.user, self.admin = Password(b"123456"), Password(b"12345678")
        self.passwords = {SIGN: self.user, USER: self.user, ADMIN: self.admin}
        self.objects = {tag: value for tag, (_, value) in OBJECTS.items()}
        self.signs_often = False
        self.signatures = 0
        self.reset()

    def reset(self) -> None:
        self.is_selected = False
        self.verified: set[int] = set()
        self.change: Callable[[], None] = nothing

    def settle(self) -> None:
        self.change()
        self.change = nothing

    def takes_data(self, header: bytes) -> bool:
        return header[1] in (0x20, 0x24, 0x2A, 0x2C, 0x47, 0xA4, 0xDA)

    def carry_out(self, command: Command) -> Answer:
        known = {
            0x20: self.verify,
            0x24: self.change_password,
            0x2A: self.sign,
            0x2C: self.unblock,
            0x47: self.public_key,
            0xA4: self.select,
            0xCA: self.get,
            0xDA: self.put,
        }
        cla, ins = command.header[:2]
        if cla != 0x00:
            return NO_CLA, b""
        if ins not in known:
            return NO_INS, b""
        if ins != 0xA4 and not self.is_selected:
            return NOT_NOW, b""
        return known[ins](command)

    def select(self, command: Command) -> Answer:
        """SELECT by name, which may be cut (7.2.1)."""
        if command.header[2:] not in (b"\x04\x00", b"\x04\x0C"):
            return WRONG_P1_P2, b""
        self.reset()
        self.is_selected = len(command.data) >= 6 and AID.startswith(command.data)
        return (OK if self.is_selected else NO_APPLICATION), b""

    def verify(self, command: Command) -> Answer:
        """VERIFY (7.2.2): without data it reports, and with P1 FF it forgets."""
        p1, p2 = command.header[2:]
        if p1 not in (0x00, 0xFF) or p2 not in self.passwords:
            return WRONG_P1_P2, b""
        password = self.passwords[p2]
        if p1 == 0xFF:
            self.verified.discard(p2)
            return OK, b""
        if not command.data:
            return (OK if p2 in self.verified else 0x63C0 | password.tries), b""
        self.verified.discard(p2)
        status = password.check(command.data)
        if status == OK:
            self.verified.add(p2)
        return status, b""

    def change_password(self, command: Command) -> Answer:
        """CHANGE REFERENCE DATA (7.2.3): the old password, and right after it the new one."""
        p1, p2 = command.header[2:]
        if p1 != 0x00 or p2 not in (SIGN, ADMIN):
            return WRONG_P1_P2, b""
        password = self.passwords[p2]
        size = len(password.value)
        old, new = command.data[:size], command.data[size:]
        status = password.check(old)
        if status != OK:
            return status, b""
        if not password.takes(new):
            return WRONG_DATA, b""
        self.change = lambda: password.change(new)
        return OK, b""

    def unblock(self, command: Command) -> Answer:
        """RESET RETRY COUNTER (7.2.4) by the administrator, with a new PW1."""
        if command.header[2:] != b"\x02\x81":
            return WRONG_P1_P2, b""
        if ADMIN not in self.verified:
            return NOT_SATISFIED, b""
        if not self.user.takes(command.data):
            return WRONG_DATA, b""
        self.change = lambda: self.user.change(command.data)
        return OK, b""

    def get(self, command: Command) -> Answer:
        """GET DATA (7.2.6): a template with its tag, and the value alone of any other object."""
        tag = int.from_bytes(command.header[2:], "big")
        if tag in SECRETS and SECRETS[tag] not in self.verified:
            return NOT_SATISFIED, b""
        found = self.found(tag)
        return (NO_OBJECT, b"") if found is None else (OK, found)

    def found(self, tag: int) -> Optional[bytes]:
        """The answer to GET DATA for this tag, if there is such an object."""
        if tag == 0x0065:
            return tlv(
                "65",
                tlv("5B", self.objects[0x005B]),
                tlv("5F2D", self.objects[0x5F2D]),
                tlv("5F35", self.objects[0x5F35]),
            )
        if tag == 0x006E:
            return tlv("6E", tlv("4F", AID), tlv("5F52", HISTORICAL), self.discretionary())
        if tag == 0x007A:
            return tlv("7A", tlv("93", self.signatures.to_bytes(3, "big")))
        fixed = {0x004F: AID, 0x5F52: HISTORICAL, 0x00C4: self.password_status()}
        return fixed.get(tag, self.objects.get(tag))

    def discretionary(self) -> bytes:
        """The discretionary objects: what the card can do, and its keys (4.4.1)."""
        return tlv(
            "73",
            tlv("C0", CAPABILITIES),
            tlv("C1", ALGORITHM),
            tlv("C2", ALGORITHM),
            tlv("C3", ALGORITHM),
            tlv("C4", self.password_status()),
            tlv("C5", fingerprint(), NO_FINGERPRINT, NO_FINGERPRINT),
            tlv("C6", NO_FINGERPRINT, NO_FINGERPRINT, NO_FINGERPRINT),
            tlv("CD", CREATED, NO_TIME, NO_TIME),
        )

    def password_status(self) -> bytes:
        """How long PW1 stays valid, the longest passwords, and the tries (4.4.2)."""
        no_resetting_code = 0
        return bytes([self.signs_often, MOST_BYTES, MOST_BYTES, MOST_BYTES,
                      self.user.tries, no_resetting_code, self.admin.tries])

    def put(self, command: Command) -> Answer:
        """PUT DATA (7.2.8)."""
        tag, data = int.from_bytes(command.header[2:], "big"), command.data
        if tag != 0x00C4 and tag not in OBJECTS:
            return NO_OBJECT, b""
        needs = ADMIN if tag == 0x00C4 else OBJECTS[tag][0]
        if needs not in self.verified:
            return NOT_SATISFIED, b""
        if tag != 0x00C4:
            self.change = lambda: self.objects.update({tag: data})
        elif data in (b"\x00", b"\x01"):
            self.change = lambda: setattr(self, "signs_often", data == b"\x01")
        else:
            return WRONG_DATA, b""
        return OK, b""

    def sign(self, command: Command) -> Answer:
        """PSO: COMPUTE DIGITAL SIGNATURE (7.2.10) of a hash with its header."""
        if command.header[2:] != b"\x9E\x9A":
            return WRONG_P1_P2, b""
        if SIGN not in self.verified:
            return NOT_SATISFIED, b""
        if not 0 < len(command.data) <= SIZE * 4 // 10:
            return WRONG_LENGTH, b""
        if not self.signs_often:
            self.verified.discard(SIGN)
        self.signatures += 1
        return OK, signature(command.data)

    def public_key(self, command: Command) -> Answer:
        """GENERATE ASYMMETRIC KEY PAIR (7.2.14), which here only reads the signature key."""
        if command.header[2:] != b"\x81\x00":
            return NO_FUNCTION, b""
        if command.data[:1] != b"\xB6":
            return NO_OBJECT, b""
        return OK, tlv("7F49", tlv("81", N.to_bytes(SIZE, "big")), tlv("82", E.to_bytes(3, "big")))
