"""Two boards of bindings/c/examples/board in qemu, with a line between them that this holds."""

import os
import select
import socket
import subprocess
import time
from pathlib import Path

FOLDER = Path(__file__).resolve().parents[2] / "bindings/c/examples/board"
QEMUS = {"cortex_m": "qemu-system-arm -M mps2-an386",
         "aarch64": "qemu-system-aarch64 -M virt -cpu cortex-a53"}
COMPILERS = {"cortex_m": "arm-none-eabi-gcc", "aarch64": "aarch64-linux-gnu-gcc"}
WORDS = "-display none -nic none -monitor none -chardev stdio,id=out -semihosting-config" \
    " enable=on,target=native,chardev=out -chardev socket,id=line,path={} -serial chardev:line"
# A wait on a loaded machine may take this long, in the ticks of a Cortex-M's board and of the
# other one, and a run in seconds.
SLACK = {"cortex_m": 25_000_000 * 20, "aarch64": 62_500_000 * 20}
SECONDS = 100
TERMINAL, CARD = 0, 1
# What the terminal prints, by RULES: the identifier that it selected, and the object that it wrote.
VALUE = b"ANNA, BERTA, CLARA, DORA, EMMA, FRIDA, GRETA, HANNA".ljust(70, b"\0")
WELL = "select 9000 6F098407A0000000031010\nput 9000\n" \
    f"get 9000 5F20{len(VALUE):02X}{VALUE.hex().upper()}\n"


def built(board, protocol, archives, room):
    """Builds the programs of a board. Returns their folder, or raises with the compiler's words."""
    folder = room / f"{board}-{protocol}"
    subprocess.run(["make", "-s", "-C", FOLDER, f"BOARD={board}", f"PROTOCOL={protocol}",
                    f"BUILD={folder}", f"MACHINES={archives}", "WERROR=-Werror",
                    f"DEFINES=-DLINE_SLACK={SLACK[board]}u"], check=True, capture_output=True,
                   text=True)
    return folder


class Line:
    """The line between two boards. It inverts a bit of the characters `damaged`, each by its end
    and its number, and has the bytes of `replaced` in place of others."""

    def __init__(self, room, damaged=(), replaced=()):
        self.path = str(room / "line")
        self.damaged, self.replaced = damaged, dict(replaced)
        self.ends, self.boards, self.counts = [], [], [0, 0]
        self.server = socket.socket(socket.AF_UNIX)
        self.server.bind(self.path)
        self.server.listen(1)
        self.server.settimeout(SECONDS)

    def start(self, board, program):
        words = f"{QEMUS[board]} {WORDS.format(self.path)} -kernel".split()
        self.boards.append(subprocess.Popen([*words, program], stdin=subprocess.DEVNULL,
                                            stdout=subprocess.PIPE, stderr=subprocess.DEVNULL,
                                            text=True))
        self.ends.append(self.server.accept()[0])

    def changed(self, end, data):
        """What the other end hears of these."""
        out = bytearray()
        for byte in data:
            where = (end, self.counts[end])
            self.counts[end] += 1
            out += self.replaced.get(where, bytes([byte ^ 0x10 * (where in self.damaged)]))
        return bytes(out)

    def hold(self):
        """Passes characters until the terminal has ended. Returns what it prints."""
        until = time.monotonic() + SECONDS
        while self.boards[TERMINAL].poll() is None and time.monotonic() < until:
            for it in select.select(self.ends, [], [], 0.05)[0]:
                end = self.ends.index(it)
                try:
                    self.ends[1 - end].sendall(self.changed(end, it.recv(4096)))
                except OSError:
                    break  # a board has ended
        self.boards[TERMINAL].kill()
        return self.boards[TERMINAL].stdout.read()

    def close(self):
        for it in self.boards:
            it.kill()
            it.wait()
            it.stdout.close()
        for it in (*self.ends, self.server):
            it.close()
        os.unlink(self.path)


def ran(terminal, card, room, **how):
    """What the terminal of a pair prints. Each is a board and its program."""
    line = Line(room, **how)
    try:
        line.start(*terminal)
        line.start(*card)
        return line.hold()
    finally:
        line.close()
