"""A card at T=1 for extended commands, at a pseudo terminal. READ BINARY returns as many bytes as
Le says, and any other command the SHA-256 of its data."""

import functools
import hashlib
import operator
import os
import pty
import select
import termios
import threading
import time
import tty

# blocks of 254 bytes to the card
ATR = bytes.fromhex("3B808111FEEE")
READ = 0xB0
I_MORE, S_RESYNCH, S_IFS, IS_RESPONSE = 0x20, 0xC0, 0xC1, 0x20


def pattern(size):
    """What a card reads, of this size."""
    return bytes(at * 7 & 0xFF for at in range(size))


def answer_to(command):
    """The answer to an extended command."""
    size = int.from_bytes(command[5:7], "big")
    if command[1] == READ:
        return pattern(size or 65536) + b"\x90\x00"
    return hashlib.sha256(command[7 : 7 + size]).digest() + b"\x90\x00"


class LongCard(threading.Thread):
    """The card, until `end`. Opening the terminal `tty` resets it."""

    def __init__(self):
        super().__init__(daemon=True)
        self.line, near = pty.openpty()
        self.tty = os.ttyname(near)
        tty.setraw(self.line)
        os.close(near)
        self.is_over, self.resets = threading.Event(), 0
        self.start()

    def is_closed(self):
        look = select.poll()
        look.register(self.line, 0)
        return bool(look.poll(0))

    def run(self):
        while not self.is_over.is_set():
            if self.is_closed():
                time.sleep(0.005)
                continue
            self.resets += 1
            try:
                self.talk()
            except OSError:  # the terminal has closed it
                termios.tcflush(self.line, termios.TCIOFLUSH)

    def read(self, size):
        data = b""
        while len(data) < size:
            if self.is_over.is_set():
                raise OSError
            if select.select([self.line], [], [], 0.1)[0]:
                data += os.read(self.line, size - len(data))
        return data

    def send(self, pcb, data=b""):
        left = bytes([0, pcb, len(data)]) + data
        left += bytes([functools.reduce(operator.xor, left)])
        while left:
            left = left[os.write(self.line, left) :]

    def receive(self):
        """The PCB and the bytes of the terminal's next block."""
        head = self.read(3)
        data = self.read(head[2] + 1)[:-1]
        return head[1], data

    def talk(self):
        os.write(self.line, ATR)
        command, size, number = b"", 32, 0
        while True:
            pcb, data = self.receive()
            if pcb in (S_RESYNCH, S_IFS):
                size = data[0] if data else size
                self.send(pcb | IS_RESPONSE, data)
                continue
            command += data
            if pcb & I_MORE:
                self.send(0x80 | (~pcb >> 6 & 1) << 4)  # the next one, please
                continue
            answer, command = answer_to(command), b""
            for at in range(0, len(answer), size):
                is_last = at + size >= len(answer)
                self.send(number << 6 | (0 if is_last else I_MORE), answer[at : at + size])
                number ^= 1
                if not is_last:
                    self.receive()

    def end(self):
        self.is_over.set()
        self.join()
        os.close(self.line)
