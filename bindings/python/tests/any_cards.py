"""Cards of a few lines for trials of any job: a safe with a PIN, a purse, and a value in pieces."""

import os

from galliumtoad import Application


class Card(Application):
    """A card with SELECT of one application."""

    TAKES = (0xA4,)
    NAME = bytes.fromhex("A000000003")
    selected = False

    def takes_data(self, header):
        return header[1] in (0xA4, *self.TAKES)

    def carry_out(self, command):
        if command.header[1] == 0xA4:
            self.selected = command.data == self.NAME
            return 0x9000 if self.selected else 0x6A82, b""
        if not self.selected:
            return 0x6985, b""
        return self.does(command.header, command.data)

    def reset(self):
        self.selected = False


class Safe(Card):
    """VERIFY of 1234, and READ BINARY of an object."""

    TAKES = (0x20,)
    is_open = False

    def does(self, header, data):
        if header[1] == 0x20:
            self.is_open = data == b"1234"
            return 0x9000 if self.is_open else 0x63C2, b""
        if header[1] != 0xB0:
            return 0x6D00, b""
        return (0x9000, bytes.fromhex("5F2003") + b"JOE") if self.is_open else (0x6982, b"")

    def reset(self):
        super().reset()
        self.is_open = False


class Purse(Card):
    """80 40: a debit, whose amount is P2; 80 50: the balance, which a reset keeps."""

    balance = 100

    def does(self, header, _data):
        if header[1] == 0x40:
            self.balance -= header[3]
            return 0x9000, b""
        return 0x9000, bytes([self.balance])


class Chain(Card):
    """PUT DATA of a value in pieces, and GET DATA."""

    TAKES = (0xDA,)
    value = piece = b""

    def does(self, header, data):
        if header[1] == 0xCA:
            return 0x9000, self.value
        self.piece += data
        if header[0] == 0:
            self.value, self.piece = self.piece, b""
        return 0x9000, b""


class Nonce(Card):
    """GET CHALLENGE brings another number in each run."""

    def does(self, header, _data):
        return 0x9000, os.urandom(4)


class Broken(Card):
    """Its second command is an error of the card's own."""

    def does(self, header, _data):
        raise OSError("the card's database is locked")
