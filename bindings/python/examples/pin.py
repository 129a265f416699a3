"""A card of your own with a file and a PIN of three tries: VERIFY, READ and UPDATE BINARY."""

from galliumtoad import Answer, Application, Command, Exchange, OwnCard


class Safe(Application):
    def __init__(self) -> None:
        self.wrong, self.is_open = 0, False
        self.file = self.next = bytes(16)  # `next` is the file once the command settles

    def takes_data(self, header: bytes) -> bool:
        return header[1] in (0x20, 0xD6)

    def carry_out(self, command: Command) -> tuple[int, bytes]:
        ins, at, data = command.header[1], command.header[3], command.data
        end = at + len(data)
        if ins == 0x20:
            if self.wrong == 3:
                return 0x6983, b""
            # It counts at once: a reset before the status does not give a try back.
            self.is_open = data == b"1234"
            self.wrong = 0 if self.is_open else self.wrong + 1
            return 0x63C3 - self.wrong if self.wrong else 0x9000, b""
        if ins == 0xB0:
            return 0x9000, self.file[at : at + command.le]
        if ins != 0xD6:
            return 0x6D00, b""
        if not self.is_open or end > 16:
            return 0x6B00 if self.is_open else 0x6982, b""
        self.next = self.file[:at] + data + self.file[end:]
        return 0x9000, b""

    def settle(self) -> None:
        self.file = self.next

    def reset(self) -> None:
        self.next, self.is_open = self.file, False


def run(card: OwnCard, command: str) -> Answer:
    with Exchange(bytes.fromhex(command)) as exchange:
        while (answer := exchange.answer()) is None:
            card.receive_bytes(exchange.send_bytes())
            exchange.receive_bytes(card.send_bytes())
        return answer


if __name__ == "__main__":
    with OwnCard(Safe()) as card:
        for command in "00D60000034A4F45 002000010434333231 002000010431323334".split():
            print(run(card, command).status.words(ins=0x20))
        for command in "00D60000034A4F45 00B0000003".split():
            print(run(card, command).data)
