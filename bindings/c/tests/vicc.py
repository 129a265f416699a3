#!/usr/bin/python3
"""Runs a card that others wrote: the card `iso7816` of vsmartcard, in its reader vpcd.

usage: vicc.py PORT ATR

Debian's `vicc` does not start, since the modules Crypto and sha are missing; this card needs
neither. The data objects of its files don't work in Python 3, so this file replaces their
functions. The card has one application with three objects."""

import sys
import types

sys.path.insert(0, "/usr/lib/python3/site-packages/virtualsmartcard")
sys.modules["sha"] = types.ModuleType("sha")

import virtualsmartcard.SmartcardFilesystem as filesystem
from virtualsmartcard.ConstantDefinitions import FDB
from virtualsmartcard.VirtualSmartcard import VirtualICC

AID = bytes.fromhex("A0000000031010")
OBJECTS = [(0x5F20, b"JOE"), (0x50, b"A" * 300), (0x51, b"B" * 600)]


def head(tag, length):
    """The tag and the length field of an object."""
    size = (length.bit_length() + 7) // 8
    more = b"" if length < 128 else bytes([0x80 + size])
    return tag.to_bytes(1 + (tag > 255), "big") + more + length.to_bytes(max(size, 1), "big")


def pack(objects):
    """The bytes of a list of objects. Each is a tag, a length, and a value or a list of objects."""
    values = [(it[0], pack(it[2]) if isinstance(it[2], list) else bytes(it[2])) for it in objects]
    return b"".join(head(tag, len(value)) + value for tag, value in values)


def get(file, _simple, wanted):
    """The object of a file with the wanted tag."""
    found = [it for it in file.bertlv_data if it[0] == wanted[0][0]]
    if not found:
        raise filesystem.SwError(filesystem.SW["ERR_DATANOTFOUND"])
    return pack(found)


def put(file, _simple, objects):
    """Stores objects in a file. Each replaces the one with its tag."""
    tags = [it[0] for it in objects]
    file.bertlv_data = [it for it in file.bertlv_data if it[0] not in tags] + objects


filesystem.bertlv_pack = pack
filesystem.File.getdata, filesystem.File.putdata = get, put
filesystem.File.__str__ = filesystem.DF.__str__ = lambda file: "a file"
reader = VirtualICC(None, "iso7816", "localhost", int(sys.argv[1]))
reader.os.atr = bytes.fromhex(sys.argv[2])
objects = [(tag, len(value), value) for tag, value in OBJECTS]
reader.os.mf.append(filesystem.DF(parent=reader.os.mf, fid=0x1234, filedescriptor=FDB["DF"],
                                  dfname=AID, bertlv_data=objects))
reader.run()
