"""A card of your own that works for half a second, in a thread. Meanwhile the terminal waits."""

import time
from concurrent.futures import Future, ThreadPoolExecutor, wait
from typing import Optional

from galliumtoad import Application, Command, OwnCard


class Slow(Application):
    """`work` is that of `command`, once it has begun."""

    def __init__(self) -> None:
        self.pool = ThreadPoolExecutor()
        self.command: Optional[Command] = None
        self.work: Future[bytes] = Future()

    def takes_data(self, header: bytes) -> bool:
        return False

    def compute(self, command: Command) -> bytes:
        time.sleep(0.5)
        return command.header[3:]

    def begin(self, command: Command) -> None:
        if command != self.command:
            self.command, self.work = command, self.pool.submit(self.compute, command)

    def more_time(self, command: Command) -> int:
        self.begin(command)
        return 0 if wait([self.work], timeout=0.1).done else 1

    def carry_out(self, command: Command) -> tuple[int, bytes]:
        self.begin(command)
        self.command = None
        return 0x9000, self.work.result()

    def reset(self) -> None:
        self.command = None


if __name__ == "__main__":
    with OwnCard(Slow()) as card:
        card.receive_bytes(bytes.fromhex("8010000201"))
        *nulls, answer = iter(card.send_bytes, b"")
        print(answer.hex(), set(nulls))
