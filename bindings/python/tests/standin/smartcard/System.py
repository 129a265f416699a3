import smartcard
from smartcard.pcsc.PCSCCardConnection import PCSCCardConnection


class Reader:
    def __init__(self, name):
        self.name = name

    def __str__(self):
        return self.name

    def createConnection(self):
        return PCSCCardConnection(self.name)


def readers():
    return [Reader(it) for it in smartcard.readers()]
