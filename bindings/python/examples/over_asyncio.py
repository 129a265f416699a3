"""Operations over asyncio, with a limit on the time of each."""

import asyncio

from galliumtoad import Answer, Card, Get, Operation, Select, Terminal

AID = bytes.fromhex("A0000000031010")
card, terminal = Card({AID: {0x5F20: b"JOE"}}), Terminal()


async def transmit(tpdu: bytes, seconds: float) -> bytes:
    """A reader that takes its time, in place of yours."""
    await asyncio.sleep(seconds)
    return card.tpdu(tpdu)


async def run(operation: Operation, seconds: float) -> Answer:
    """As `Terminal.run`. If its task is cancelled, what the card has done is unknown, so this
    resets both ends. A second task meanwhile gets `CallError`, GT_STATE."""
    terminal.begin(operation)
    try:
        while (due := terminal.tpdu()) is not None:
            terminal.answered(await transmit(due.data, seconds))
    except BaseException:  # a CancelledError, too
        terminal.reset()
        card.reset()
        raise
    answer = terminal.answer()
    assert answer is not None, "an operation with nothing due has ended"
    return answer


async def main() -> None:
    for seconds in (60, 0):
        try:
            for operation in (Select(AID), Get(0x5F20)):
                answer = await asyncio.wait_for(run(operation, seconds), timeout=0.5)
            print(answer.raise_for_status().data.hex())
        except asyncio.TimeoutError:
            print("too late")


if __name__ == "__main__":
    asyncio.run(main())
