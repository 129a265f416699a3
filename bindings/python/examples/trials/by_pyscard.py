"""The job of `galliumtoad.trials` by pyscard, as a script of one's own does it.

usage: by_pyscard.py READER AID TAG VALUE"""

import sys

from smartcard.System import readers

name, aid, tag, value = sys.argv[1:]
card = next(it for it in readers() if str(it) == name).createConnection()
card.connect()


def send(command: str) -> str:
    """Sends a command, asks again after 6CXX, and fetches what 61XX announces."""
    sent = list(bytes.fromhex(command))
    data, sw1, sw2 = card.transmit(sent)
    if sw1 == 0x6C and len(sent) == 5:
        data, sw1, sw2 = card.transmit([*sent[:4], sw2])
    while sw1 == 0x61:
        more, sw1, sw2 = card.transmit([0x00, 0xC0, 0x00, 0x00, sw2])
        data += more
    if (sw1, sw2) != (0x90, 0x00):
        sys.exit(f"{command[:8]}: {sw1:02X}{sw2:02X}")
    return bytes(data).hex().upper()


send(f"00A40400{len(aid) // 2:02X}{aid}00")
pieces = [value[at : at + 510] for at in range(0, len(value), 510)]
for at, it in enumerate(pieces, 1):
    send(f"{'00' if at == len(pieces) else '10'}DA00{tag}{len(it) // 2:02X}{it}")
print(send(f"00CA00{tag}00"))
