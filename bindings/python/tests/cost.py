"""What the journal of a batch costs: milliseconds of a processor, and of a clock, for each of some
rows of a large table. The seconds that 20 million additions take tell how fast the machine is.

usage: cost.py JOURNAL ROWS SERVED"""

import sys
import time

from galliumtoad.batch.journal import Heading, Journal, create

place, rows, served = sys.argv[1], int(sys.argv[2]), int(sys.argv[3])


def unit():
    total, begun = 0, time.process_time()
    for it in range(20_000_000):
        total += it
    return time.process_time() - begun


create(place, Heading(1, 1, 0x9F7F, "no", "00" * 16, "rows.csv", ("no",), "0", "0"))
made = Journal(place)
made.add((f"K{it}", f'["K{it}"]') for it in range(1, rows + 1))
made.close()
made, clock = Journal(place), time.monotonic()
begun = time.process_time()
made.start("")
for _ in range(served):
    row = made.reserve("ACR")
    assert made.begin(row, "0" * 16, "ACR")
    assert made.identify(row, f"43{row:08X}") == row
    assert made.note(row, "done", "")
spent, took = time.process_time() - begun, time.monotonic() - clock
made.close()
print(f"{rows:,} rows: {spent / served * 1000:.2f} ms of a processor a row, "
      f"{took / served * 1000:.2f} ms in all; 20 million additions: {unit():.2f} s")
