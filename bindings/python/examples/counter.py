"""A card of your own: 80 10 00 00 counts, and returns the count."""

from galliumtoad import Application, Command, OwnCard


class Counter(Application):
    """It keeps commands that a reset drops."""

    count = 0

    def takes_data(self, header: bytes) -> bool:
        return False

    def carry_out(self, command: Command) -> tuple[int, bytes]:
        if command.header != bytes.fromhex("80100000"):
            return 0x6D00, b""
        self.count = (self.count + 1) % 256
        return 0x9000, bytes([self.count])


if __name__ == "__main__":
    with OwnCard(Counter()) as card:
        for _ in range(2):
            card.receive_bytes(bytes.fromhex("8010000001"))
            print(card.send_bytes().hex())
