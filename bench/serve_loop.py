#!/usr/bin/env python3
"""Times the built program: usage: serve_loop.py PROGRAM

The body of the first path (Parse, Bind, Execute, Sync over three rows) is repeated 10,000 and 100,000 times on one
connection, through pipes. Printed are the seconds, the nanoseconds of a repetition, and the peak resident size of the
program, which is read when all replies but Terminate's are there and the program waits.
"""
import re
import subprocess
import sys
import tempfile
import threading
import time

RELATIONS = "shifts\t0\tspan\n1 year 1 mon 1 day 01:10:15\n-00:00:00.500000\n-1 mons 2 days 00:00:03\n"
STARTUP = bytes.fromhex("0000001300030000757365720064656d6f0000")
BODY = bytes.fromhex("500000000e00736869667473000000420000000e0000000000000001000145000000090000000000" "5300000004")
TERMINATE = bytes.fromhex("5800000004")
STARTUP_REPLY = 131
REPLY = 111


def write_queries(stream, count):
    stream.write(STARTUP + BODY * count)
    stream.flush()


def read_exactly(stream, size):
    while size > 0:
        got = len(stream.read1(min(size, 1 << 16)))
        assert got > 0, "the replies are shorter than they should be"
        size -= got


def peak_of(child):
    with open(f"/proc/{child.pid}/status") as status:
        return int(re.search(r"VmHWM:\s+(\d+) kB", status.read()).group(1))


def run(program, file, count):
    start = time.monotonic()
    child = subprocess.Popen([program, "serve", file, "7", "01020304"], stdin=subprocess.PIPE, stdout=subprocess.PIPE)
    writer = threading.Thread(target=write_queries, args=(child.stdin, count))
    writer.start()
    read_exactly(child.stdout, STARTUP_REPLY + REPLY * count)
    seconds = time.monotonic() - start
    writer.join()
    peak = peak_of(child)
    left = child.communicate(TERMINATE)[0]
    assert child.returncode == 0 and left == b"", "the connection didn't end as it should"
    return seconds, peak


def main():
    program = sys.argv[1]
    results = {}
    with tempfile.NamedTemporaryFile("w") as file:
        file.write(RELATIONS)
        file.flush()
        for count in (10_000, 100_000):
            seconds, peak = min(run(program, file.name, count) for _ in range(3))
            results[count] = seconds, peak
            print(f"{count:7} repetitions: {seconds:.3f} s, {seconds * 1e9 / count:.0f} ns each, peak {peak} kB")
    (few, small), (many, large) = results[10_000], results[100_000]
    print(f"ratio of the totals {many / few:.1f} (at most 12), peak grew by {large - small} kB (at most 1024)")
    return 0 if many / few <= 12 and large - small <= 1024 else 1


if __name__ == "__main__":
    sys.exit(main())
