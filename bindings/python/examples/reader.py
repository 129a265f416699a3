"""Reads two objects of the card in the first reader, and stores two others."""

from galliumtoad import Get, Put, Select, Terminal
from galliumtoad.pyscard import transport
from smartcard.System import readers

connection = readers()[0].createConnection()
connection.connect()
with Terminal() as terminal:
    reader = transport(connection)
    print(terminal.run(reader, Select(bytes.fromhex("A0000000031010"))).status.text)
    for tag in (0x50, 0x5F20):
        print(terminal.run(reader, Get(tag)).data.hex())
    for put in (Put(0x50, b"VISA"), Put(0x5F20, b"DOE/JOHN")):
        terminal.run(reader, put).raise_for_status()
