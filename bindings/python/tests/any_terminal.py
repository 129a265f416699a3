"""A terminal at T=0 with some jobs, and with one mistake or none. It needs nothing but Python, and
starts quickly.

usage: any_terminal.py TTY JOB MISTAKE"""

import os
import select
import signal
import sys

TTY, JOB, MISTAKE = sys.argv[1:]
SECONDS = float(os.environ.get("PATIENCE", "12"))  # its waiting time
SELECT = bytes.fromhex("00A40400")
NAME = bytes.fromhex("A000000003")
OK = "9000"
# The statuses other than 9000 that a mistake takes for success, at these commands of a job.
LAX = {
    "no status": ("", "1234"), "no status of the first command": ("", "1"),
    "no status of the second command": ("", "2"), "no status of the third command": ("", "3"),
    "a wrong PIN taken": ("63", "2"), "a blocked PIN taken": ("6983", "2"),
    "damaged data taken": ("6281", "3"), "any 65XX taken": ("65", "2"),
    "no status but of the last command": ("", "12"), "a warning taken": ("62", "1234"),
}
line = os.open(TTY, os.O_RDWR | os.O_NOCTTY)


def has(*mistakes):
    return MISTAKE in mistakes


def fail(why):
    if has("exit 0 always"):
        print(why)
    sys.exit(0 if has("exit 0 always", "gives up in silence") else why)


def read(count):
    found = b""
    while len(found) < count:
        wait = None if has("no limit of time") else SECONDS
        if not select.select([line], [], [], wait)[0]:
            fail("silence")
        found += os.read(line, count - len(found)) or sys.exit("the line is gone")
    return found


def send(data, of="data"):
    for byte in data:
        os.write(line, bytes([byte]))
        if read(1)[0] != byte and not has(f"the echo of {of} not compared"):
            fail("another echo")


def tpdu(header, data=b"", wanted=0):
    """Carries a TPDU. Returns the data of the response, and the status."""
    send(header + bytes([len(data) or wanted]), "a header")
    received = b""
    left = data
    while True:
        byte = read(1)[0]
        if byte == 0x60 and not has("NULL not known"):
            continue
        if byte >> 4 in (6, 9):
            status = bytes([byte]) + read(1)
            if left and status == b"\x90\x00" and not has("an early status taken"):
                fail("9000 before the data")
            return received, status.hex().upper()
        is_one = byte == header[1] ^ 0xFF
        if not is_one and byte != header[1] and not has("any procedure byte taken"):
            fail("no procedure byte")
        is_one = is_one and not has("a complement taken for INS")
        count = 1 if is_one else len(left) + wanted - len(received)
        if data:
            send(left[:count])
            left = left[count:]
        else:
            received += read(min(count, wanted))


def command(place, header, data=b"", wanted=0):
    """Carries a command, which must succeed. Returns the data of its response."""
    found, status = tpdu(header, data, wanted)
    asked = 0
    while status[:2] == "6C" and not data and (asked < 1 or has("6CXX for ever")):
        found, status = tpdu(header, data, int(status[2:], 16))
        asked += 1
    if status != OK and (has("sent again after an error") or has("sent again after a warning")
                         and status[:2] == "62"):
        found, status = tpdu(header, data, wanted)
    form, places = LAX.get(MISTAKE, (OK, ""))
    if status != OK and has("crashes at an error"):
        os.kill(os.getpid(), signal.SIGSEGV)
    if status[:2] == "62" and has("another name printed at a warning"):
        print("NOBODY")
        sys.exit()
    if status != OK and not (status.startswith(form) and str(place) in places):
        fail(f"{status} at command {place}")
    return found


def safe():
    command(1, SELECT, NAME)
    command(2, bytes.fromhex("00200080"), b"1234")
    data = command(3, bytes.fromhex("00B00000"), wanted=6)
    if data[:3] != bytes([0x5F, 0x20, len(data[3:])]):
        fail("another object")
    if not data[3:].isalpha() and not has("any name printed"):
        fail("no name")
    print(data[3:].decode("latin-1"))


def purse():
    command(1, SELECT, NAME)
    command(2, bytes.fromhex("8040000A"))
    print(command(3, bytes.fromhex("80500000"), wanted=1)[0])


def chain():
    command(1, SELECT, NAME)
    command(2, bytes.fromhex("10DA0051"), b"first, ")
    command(3, bytes.fromhex("00DA0051"), b"second")
    if command(4, bytes.fromhex("00CA0051"), wanted=13) != b"first, second":
        fail("another value")
    print("stored")


def store():
    command(1, SELECT, NAME)
    command(2, bytes.fromhex("00DA0051"), b"unseen")
    print("stored")


def nonce():
    command(1, SELECT, NAME)
    print("it is", command(2, bytes.fromhex("00840000"), wanted=4).hex())
    print(sys.argv[1], os.environ["HOME"], "HOME has", os.listdir(os.environ["HOME"]))
    print("GnuPG is at", os.environ.get("GNUPGHOME"))
    open(os.path.join(os.environ["HOME"], "state"), "w").close()


read(2)
{"safe": safe, "purse": purse, "chain": chain, "store": store, "nonce": nonce}[JOB]()
