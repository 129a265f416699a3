"""Lines at T=1 (ISO/IEC 7816-3, clause 11) that damage, lose, double and delay bytes. They are
between both programs, or lead to a stand-in for the card, which is written from the rules alone."""

import random
import select
import threading
import time
from functools import reduce

# What the line does with a block: nothing; it changes, loses or doubles a byte; it loses the block,
# cuts it short, or delays it.
FATES = ["well", "changed", "short", "doubled", "lost", "stopped", "late"]


def lrc(data):
    return reduce(lambda a, b: a ^ b, data, 0)


def block(pcb, info=b""):
    data = bytes([0, pcb, len(info)]) + info
    return data + bytes([lrc(data)])


def is_valid(data):
    """Whether the bytes are a valid block for a card."""
    return len(data) >= 4 and data[0] == 0 and data[2] < 255 and len(data) == data[2] + 4 \
        and not lrc(data)


class Objects:
    """The card of data objects above the end. `log` has the commands that it has carried out."""

    def __init__(self):
        self.values = {"5F20": b"JOE"}
        self.chain = b""
        self.left = b""
        self.log = []

    def carry_out(self, apdu):
        self.log.append(apdu)
        cla = apdu[0]
        ins = apdu[1]
        rest = apdu[4:]
        if ins == 0xA4:
            self.left = bytes.fromhex("6F098407A0000000031010")
        elif ins == 0xDA:
            self.chain += rest[1:1 + rest[0]] if rest else b""
            if cla == 0:
                self.values[apdu[2:4].hex().upper()], self.chain = self.chain, b""
            return b"\x90\x00"
        elif ins == 0xCA:
            tag = apdu[2:4]
            value = self.values[apdu[2:4].hex().upper()]
            size = len(value)
            head = [0x82, *divmod(size, 256)] if size > 255 else [0x81, size][size < 128:]
            self.left = tag + bytes(head) + value
        le = apdu[-1] or 256
        data, self.left = self.left[:le], self.left[le:]
        more = min(len(self.left), 256) % 256
        return data + (bytes([0x61, more]) if self.left else b"\x90\x00")


class Card:
    """The card's end: it answers each block with one block. It asks for more time before each
    response. It is a card by EMV 4.3, Book 1, 9.2.4: its R-blocks name the error, and it answers no
    more than three wrong blocks in a row."""

    def __init__(self, objects):
        self.objects = objects
        self.wrong = 0
        self.due = self.next = 0
        self.ifsd = 32
        self.asked = False
        self.command = b""
        self.response = None
        self.sent = b""

    def again(self):
        return block(0xC3, b"\x01") if self.asked else block(0x80 | self.due << 4)

    def field(self):
        info, self.response = self.response[:self.ifsd], self.response[self.ifsd:]
        self.sent = block(self.next << 6 | (0x20 if self.response else 0), info)
        self.next ^= 1
        return self.sent

    def take(self, data):
        self.wrong = 0 if is_valid(data) else self.wrong + 1
        if self.wrong:
            return b"" if self.wrong > 3 else block(0x81 | self.due << 4)
        pcb = data[1]
        info = data[3:-1]
        if pcb == 0xC1:
            self.ifsd = info[0]
            return block(0xE1, info)
        if self.asked:
            self.asked = pcb != 0xE3 or info != b"\x01"
            return self.again() if self.asked else self.field()
        if pcb < 0x80 and pcb >> 6 == self.due and not self.response:
            self.due ^= 1
            self.command += info
            self.sent = b""
            if pcb & 0x20:
                return self.again()
            self.response, self.command = self.objects.carry_out(self.command), b""
            self.asked = True
            return self.again()
        if pcb & 0xC0 == 0x80:
            if pcb >> 4 & 1 == self.next and self.response:
                return self.field()
            if pcb >> 4 & 1 != self.next and self.sent:
                return self.sent
        return self.again()


def carried_out(trace):
    """The commands that a card has carried out, from its trace of received and sent blocks. It has
    carried out a command if it answers the last block of that with an I-block. It has taken an
    earlier block of it if it asks for the next one."""
    log = []
    fields = b""
    due = 0
    lines = [line.split() for line in trace.splitlines()[2:]]
    for (_, came), (_, went) in zip(lines[::2], lines[1::2]):
        block = bytes.fromhex(came)
        answer = bytes.fromhex(went)
        if not is_valid(block) or block[1] >= 0x80 or block[1] >> 6 != due:
            continue
        is_last = not block[1] & 0x20
        if answer[1] < 0x80 if is_last else answer[1] == 0x80 | (1 - due) << 4:
            fields += block[3:-1]
            due ^= 1
            if is_last:
                log.append(fields)
                fields = b""
    return log


def valid_blocks(trace, end):
    """The valid blocks of an end in a trace, by its sign."""
    found = set()
    for line in trace.splitlines():
        data = bytes.fromhex(line[2:]) if line[0] == end else b""
        while len(data) > 3:
            size = data[2] + 4
            if is_valid(data[:size]):
                found.add(data[:size])
            data = data[size:]
    return found


class Noise:
    """What a line does with each block. `fates` lists the blocks that it damages, by number.
    Without it the choice is random, and `well` is the share of undamaged blocks."""

    def __init__(self, seed, fates=None, well=0.8):
        self.random = random.Random(seed)
        self.fates = fates
        self.well = well
        self.count = 0

    def next(self):
        self.count += 1
        if self.fates is not None:
            return self.fates.get(self.count, "well")
        return "well" if self.random.random() < self.well else self.random.choice(FATES[1:])

    def change(self, data, fate):
        """Damages a block. A change that leaves it valid is drawn again."""
        while True:
            at = self.random.randrange(len(data))
            byte = bytes([data[at] ^ self.random.randrange(1, 256)])
            front = data[:at]
            back = data[at + 1:]
            found = {"changed": front + byte + back, "short": front + back, "stopped": front,
                     "doubled": data[:at + 1] + data[at:], "lost": b""}[fate]
            if not is_valid(found):
                return found


class Noisy(threading.Thread):
    """A line with noise in both directions. `late` is the delay of a late block, in seconds."""

    def __init__(self, noise, late):
        super().__init__(daemon=True)
        self.noise = noise
        self.late = late
        self.is_over = threading.Event()

    def pass_on(self, data):
        """Returns the block as the line delivers it: unchanged, late or damaged."""
        fate = self.noise.next()
        if fate == "late":
            time.sleep(self.late)
        return data if fate in ("well", "late") else self.noise.change(data, fate)

    def end(self):
        self.is_over.set()
        self.join()


class Wire(Noisy):
    """Such a line between the far ends of a terminal's line and of a card's."""

    def __init__(self, terminal, card, noise, late):
        super().__init__(noise, late)
        self.terminal = terminal
        self.card = card
        # the received part of a block from each end
        self.held = {terminal: b"", card: b""}

    def pass_answer(self, size):
        """Passes the answer to reset, which has `size` bytes, without noise."""
        for _ in range(size):
            self.terminal.write(self.card.read(1))

    def carry(self, sender, receiver):
        """Passes a block from one end to the other, once it is whole."""
        data = self.held[sender] + sender.read(300, 0)
        whole = len(data) > 3 and len(data) >= data[2] + 4
        self.held[sender] = b"" if whole else data
        came = self.pass_on(data) if whole else b""
        if came:
            receiver.write(came)

    def run(self):
        ends = {self.terminal.far: (self.terminal, self.card),
                self.card.far: (self.card, self.terminal)}
        while not self.is_over.is_set():
            for end in select.select([*ends], [], [], 0.02)[0]:
                self.carry(*ends[end])


class Play(Noisy):
    """Such a card at the far end of a line. After `stops` seconds without a byte it takes a block
    as cut short."""

    def __init__(self, line, answer, card, noise, late, stops):
        super().__init__(noise, late)
        self.line = line
        self.card = card
        self.stops = stops
        line.write(bytes.fromhex(answer))

    def receive(self):
        """Receives a block of the terminal, whole or cut short."""
        data = b""
        while not self.is_over.is_set() and not (len(data) > 3 and len(data) >= data[2] + 4):
            ready, _, _ = select.select([self.line.far], [], [], 0.02 if not data else self.stops)
            if ready:
                data += self.line.read(300, 0)
            elif data:
                break
        return data

    def run(self):
        while not self.is_over.is_set():
            data = self.receive()
            if not data:
                continue
            came = self.pass_on(data)
            if came:
                answer = self.card.take(came)
                answer = answer and self.pass_on(answer)
                if answer:
                    self.line.write(answer)
