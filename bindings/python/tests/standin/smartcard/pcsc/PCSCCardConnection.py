import os

import smartcard
from smartcard.Exceptions import SmartcardException


class PCSCCardConnection:
    def __init__(self, reader):
        self.reader = reader

    def connect(self, protocol=None, mode=None, disposition=None):
        if "SWAPS" in os.environ and smartcard.number_in(self.reader) % 2 == 0:
            smartcard.put_in(self.reader, smartcard.number_in(self.reader) + 1)
        number = smartcard.number_in(self.reader)
        if {str(number), f"{self.reader}-{number}"} & {*os.environ.get("MUTE", "").split()}:
            raise SmartcardException("the card does not answer to reset")
        if (smartcard.ROOM / self.reader / "out").exists():
            raise SmartcardException("there is no card")
        self.inside = smartcard.InReader(self.reader)

    def getProtocol(self):
        return 1

    def transmit(self, sent):
        try:
            answer = self.inside.transmit(sent)
        except ConnectionError as error:
            raise SmartcardException(str(error)) from None
        return answer[:-2], answer[-2], answer[-1]

    def disconnect(self):
        is_in = smartcard.place_of(self.reader) == self.inside.place
        if is_in and "STAYS" not in os.environ:
            smartcard.change(self.reader, self.inside.number)
