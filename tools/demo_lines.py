#!/usr/bin/env python3
"""The four lines of `demo SEED N`, from demo_load.py and the protocol's layouts and not from the program.

The replies to a client of the generated load: AuthenticationOk of 9 bytes, ParameterStatus of 25, 26, 26 and 26,
BackendKeyData of 13 and ReadyForQuery of 6; then for each relation ParseComplete and BindComplete of 5 each, a DataRow
for each of its rows (7 bytes, and 4 + 16 for each column), CommandComplete (`SELECT n` with a zero behind it, and 5),
ReadyForQuery of 6.

Usage: demo_lines.py SEED N
"""
import pathlib
import re
import subprocess
import sys

GREETING = 9 + 25 + 26 + 26 + 26 + 13 + 6


def replies(columns, rows):
    return 5 + 5 + rows * (7 + 20 * columns) + 5 + len("SELECT %d" % rows) + 1 + 6


def main(seed, count):
    load = pathlib.Path(__file__).with_name("demo_load.py")
    told = subprocess.run([sys.executable, load], input="%s %s\n" % (seed, count), capture_output=True, text=True, check=True).stdout
    relations = [(len(columns.split()), int(rows)) for columns, rows in re.findall(r"^r\d+: .*columns (.*), rows (\d+)", told, re.M)]
    sent = int(re.search(r"^client (\d+) bytes", told, re.M).group(1))
    print("relations", len(relations))
    print("rows", sum(rows for _, rows in relations))
    print("in", sent)
    print("out", GREETING + sum(replies(columns, rows) for columns, rows in relations))


main(*sys.argv[1:])
