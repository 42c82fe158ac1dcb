#!/usr/bin/env python3
"""Writes the rows of conversations with a counter, crates/counter_rows/stdin.

    python3 tools/counter_rows.py > crates/counter_rows/stdin

Each NEXT that is asked where a query is awaited is answered by the next number, from 1 on; nothing else counts.
"""
import struct

from cursor_rows import BOUND, CLOSED, IDLE, PARSED, frame, tag, written
from cursor_serving_rows import GREETING, HEAD, START, TERMINATE, bind, describe, error, everywhere, execute, parse, query, show, sync, text

NUMBER = frame(b"T", struct.pack(">h", 1) + b"number\0" + struct.pack(">ihihih", 0, 0, 1700, -1, -1, 0))
REFUSED = error("42601", "the only query is NEXT, as a simple query")
CHUNK = 65536


def told(number):
    """The replies to a NEXT."""
    digits = str(number).encode()
    return [NUMBER, frame(b"D", struct.pack(">hi", 1, len(digits)) + digits), tag("SELECT 1"), IDLE]


def numbers(*counted):
    return [query("NEXT", told(number)) for number in counted]


NEXT = numbers(1)[0][0]


def message(kind, body, replies):
    return (written([frame(kind, body)]), replies, "")


# A statement of a blank text has no columns, and is executed without a query. What it leaves is there whichever sheet answers.
BLANK = [
    START, *numbers(1), parse("e", "; ", [PARSED]), message(b"D", b"S" + text("e"), [frame(b"t", b"\0\0"), frame(b"n")]), *numbers(2),
    bind("p", "e", [BOUND]), describe("p", [frame(b"n")]), execute("p", 0, [frame(b"I")]), message(b"H", b"", []),
    message(b"C", b"P" + text("p"), [CLOSED]), execute("p", 0, [error("34000", 'portal "p" does not exist')]), sync(),
    message(b"C", b"S" + text("e"), [CLOSED]), bind("", "e", [error("26000", 'prepared statement "e" does not exist')]), sync(), sync(),
    *numbers(3), TERMINATE]


def long_client(name, length, how, end):
    """A client of so many bytes, which asks what is refused, and then blank queries."""
    refused, blank = query("x", [REFUSED, IDLE]), query("", [frame(b"I"), IDLE], "")
    left = length - len(START[0]) - len(TERMINATE[0])
    blanks = next(count for count in range(7) if (left - count * len(blank[0])) % len(refused[0]) == 0)
    others = (left - blanks * len(blank[0])) // len(refused[0])
    print(f"{name} | {how} | {START[0].hex()} {others}*{refused[0].hex()} {blanks}*{blank[0].hex()} {TERMINATE[0].hex()} | {end} |"
          f" {written(GREETING).hex()} {others}*{written(refused[1]).hex()} {blanks}*{written(blank[1]).hex()} |{' start' * others}")


def main():
    print(HEAD % "by a counter", end="")
    print("# The counter is that of the crate counter. Each row begins at 0.")
    print()
    print("# ---- NEXT")
    everywhere("one two three", [START, *numbers(1, 2, 3), TERMINATE])
    everywhere("twelve numbers", [START, *numbers(*range(1, 13)), TERMINATE])
    print()
    print("# ---- what doesn't count")
    everywhere("other queries between", [
        START, *numbers(1), query("next", [REFUSED, IDLE]), query(" NEXT", [REFUSED, IDLE]), query("", [frame(b"I"), IDLE], ""),
        *numbers(2), TERMINATE])
    everywhere("NEXT as an extended query, and one that a client sends before its Sync", [
        START, *numbers(1), parse("", "NEXT", [REFUSED]), query("NEXT", [], ""), sync(), *numbers(2), TERMINATE])
    everywhere("a blank statement, its portal, and both closed", BLANK)
    print()
    print("# ---- conversations that are cut off")
    show("the input ends in a NEXT", [START, *numbers(1, 2)], client=START[0] + 2 * NEXT + NEXT[:4], end="InputEnd")
    show("turns run out", [START, *numbers(1)], f"reads {len(START[0])} {len(NEXT)}; turns 2",
         client=START[0] + 2 * NEXT, end="TurnLimit")
    show("a read fails", [START, *numbers(1)], f"reads {len(START[0])} {len(NEXT)}; read_fails 2",
         client=START[0] + 2 * NEXT, end="ReadFault")
    show("a write fails", [START, *numbers(1, 2)], f"reads {len(START[0])} {len(NEXT)} {len(NEXT)}; write_fails 1 7; front", end="WriteFault")
    show("a bad frame behind two numbers", [START, *numbers(1, 2)], client=START[0] + 2 * NEXT + b"?\0\0\0\4", end="BadFrame")
    print()
    print("# ---- a read asks for 8,192 bytes")
    long_client("16,384 bytes in two turns", 16_384, "turns 2", "Terminate")
    long_client("16,385 bytes: two turns are too few", 16_385, "turns 2", "TurnLimit")
    print()
    print("# ---- when replies are sent: at the end of a read, and where 65,536 bytes or more wait")
    show("a read is answered by one write", [START, *numbers(1, 2), TERMINATE], "write_fails 1 0")
    refused = query("x", [REFUSED, IDLE])
    before = (CHUNK - len(written(GREETING)) - 1) // len(written(refused[1])) + 1
    print("a chunk is sent before the end of the read | write_fails 2 0 |"
          f" {START[0].hex()} {before + 10}*{refused[0].hex()} {TERMINATE[0].hex()} | WriteFault |"
          f" {written(GREETING).hex()} {before}*{written(refused[1]).hex()} |{' start' * (before + 10)}")


main()
