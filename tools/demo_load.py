#!/usr/bin/env python3
"""The generated loads among the rows of relation_rows, restated from the rules of the generated load and not from the program.

The generator starts at the seed. A step takes its number x to x * 6364136223846793005 + 1442695040888963407
modulo 2^64, and a draw is the new number divided by 2^33, rounded down.

Relation i is called r and i in decimal. Its first draw modulo 3 is how many polls it owes; one more than its second
modulo 4 is how many columns it has, c0, c1 and so on; its third modulo 20 is how many rows. Then, row by row, each
cell takes three draws: months and days are a draw modulo 2001 less 1000 each, microseconds a draw less 1073741824.

The client sends a startup packet of version 3.0 for the user demo; for each relation an unnamed Parse of its name, a
Bind with binary results, an Execute without a limit and a Sync; and then Terminate.

Usage: demo_load.py [rows], with lines `SEED N` or `SEED N totals` on standard input. It tells each load by lines; with the
word `rows` it writes the row of each instead.
"""
import struct
import sys


def draws(seed):
    x = seed
    while True:
        x = (x * 6364136223846793005 + 1442695040888963407) % 2 ** 64
        yield x // 2 ** 33


def cell(draw):
    months = next(draw) % 2001 - 1000
    days = next(draw) % 2001 - 1000
    return months, days, next(draw) - 1073741824


def relation(number, draw):
    unready = next(draw) % 3
    columns = ["c%d" % column for column in range(1 + next(draw) % 4)]
    count = next(draw) % 20
    rows = [[cell(draw) for _ in columns] for _ in range(count)]
    return "r%d" % number, unready, columns, rows


def relations(seed, count):
    draw = draws(seed)
    return [relation(number, draw) for number in range(count)]


def message(kind, body):
    return kind + struct.pack(">I", 4 + len(body)) + body


def client(count):
    startup = struct.pack(">I", 196608) + b"user\0demo\0" + b"\0"
    sent = struct.pack(">I", 4 + len(startup)) + startup
    for number in range(count):
        name = ("r%d" % number).encode()
        sent += message(b"P", b"\0" + name + b"\0" + struct.pack(">h", 0))
        sent += message(b"B", b"\0" + b"\0" + struct.pack(">hhhh", 0, 0, 1, 1))
        sent += message(b"E", b"\0" + struct.pack(">i", 0))
        sent += message(b"S", b"")
    return sent + message(b"X", b"")


def sums(numbers):
    total = [0, 0, 0]
    for three in numbers:
        total = [a + b for a, b in zip(total, three)]
    return total


def shown(three):
    return " ".join(str(number) for number in three)


def told(line):
    """What there is to tell of a load, by lines."""
    words = line.split()
    seed, count = int(words[0]), int(words[1])
    table = relations(seed, count)
    cells = [c for _, _, _, rows in table for row in rows for c in row]
    yield "demo %d %d" % (seed, count)
    if words[2:] != ["totals"]:
        for name, unready, columns, rows in table:
            first = shown(rows[0][0]) if rows else "none"
            yield "%s: unready %d, columns %s, rows %d, first cell %s" % (name, unready, " ".join(columns), len(rows), first)
    unready = sum(r[1] for r in table)
    columns = sum(len(r[2]) for r in table)
    rows = sum(len(r[3]) for r in table)
    yield "unready %d, columns %d, rows %d, cells %s" % (unready, columns, rows, shown(sums(cells)))
    sent = client(count)
    yield "client %d bytes, of sum %d" % (len(sent), sum(sent))


for asked in sys.stdin:
    asked = asked.rstrip("\n")
    if sys.argv[1:] == ["rows"]:
        print("%s | load | %s | %s" % (asked, asked, "\\n".join(told(asked))))
    else:
        print("\n".join(told(asked)))
