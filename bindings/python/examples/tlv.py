"""Data objects in BER-TLV, as the cards in this folder return them."""


def tlv(tag: str, *parts: bytes) -> bytes:
    """A data object: a tag in hexadecimal digits, the length, and these parts as its value."""
    value = b"".join(parts)
    size = len(value)
    if size < 0x80:
        length = bytes([size])
    elif size < 0x100:
        length = b"\x81" + bytes([size])
    else:
        length = b"\x82" + size.to_bytes(2, "big")
    return bytes.fromhex(tag) + length + value
