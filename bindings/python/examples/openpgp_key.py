"""Prints the public key of the card in openpgp.py, signed by itself, for `gpg --import`."""

import hashlib
import sys

from openpgp import CREATED, fingerprint, key_packet, mpi, signature

USER = b"Gallium Toad"
SHA_256 = 8
# RFC 8017, 9.2: what is signed begins with this, before a hash by SHA-256.
DIGEST_INFO = bytes.fromhex("3031300D060960864801650304020105000420")


def subpacket(kind: int, value: bytes) -> bytes:
    return bytes([len(value) + 1, kind]) + value


def sized(value: bytes, bytes_of_size: int = 2) -> bytes:
    return len(value).to_bytes(bytes_of_size, "big") + value


def user_packet() -> bytes:
    return b"\xB4" + sized(USER, 1)


def signature_packet() -> bytes:
    """The key's signature over itself and its user (RFC 4880, 5.2.3 and 5.2.4)."""
    created, flags, issuer = 2, 27, 16
    certifies_and_signs = b"\x03"
    hashed = b"\x04\x13\x01" + bytes([SHA_256]) + sized(
        subpacket(created, CREATED) + subpacket(flags, certifies_and_signs))
    trailer = b"\x04\xFF" + len(hashed).to_bytes(4, "big")
    digest = hashlib.sha256(key_packet() + b"\xB4" + sized(USER, 4) + hashed + trailer).digest()
    number = int.from_bytes(signature(DIGEST_INFO + digest), "big")
    not_hashed = sized(subpacket(issuer, fingerprint()[-8:]))
    return b"\x89" + sized(hashed + not_hashed + digest[:2] + mpi(number))


if __name__ == "__main__":
    sys.stdout.buffer.write(key_packet() + user_packet() + signature_packet())
