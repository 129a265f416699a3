"""A terminal and a card in memory."""

from galliumtoad import Card, Get, Put, Select, Terminal

AID = bytes.fromhex("A0000000031010")
card = Card({AID: {0x5F20: b"JOE"}})
with Terminal() as terminal:
    for operation in (Select(AID), Put(0x5F20, b"ANN"), Get(0x5F20)):
        answer = terminal.run(card.tpdu, operation)
        found = answer.object(0x5F20)
        print(f"{answer.status:04X} {answer.status.text}", found.value if found else "")
