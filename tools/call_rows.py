#!/usr/bin/env python3
"""Writes the rows of the calls that messages make of handlers and of the registry, crates/call_rows/stdin.

    python3 -B tools/call_rows.py > crates/call_rows/stdin

Each message stands here with the calls that the rules of docs/CONVERSATION.md and docs/HANDLERS.md give it: a query is started
before its handler is asked, and a handler is asked once for what a message needs. Nothing here is the program's own.
"""

import restated
from restated import SYNC, TERMINATE, frame, string

HEAD = """\
# A row: its name | the client's bytes | the calls. Made by tools/call_rows.py. A client is served by handlers that answer each
# query with no row of no column. The calls stand in their order: start, ask, cancel and narrow of the registry, and of the handlers
# parse (what a query means), types (of the parameters), columns, and rows. Bytes are hexadecimal digits in words; a word
# `N*DIGITS` stands for its bytes N times. In their place `parser` stands for a parser that is asked for a statement's parameters, and
# for its columns in a format and without one, which no message does.
"""
STARTUP = restated.startup()[0]
# What a query is asked for, once it was started.
ANSWER = "rows columns"


def simple(text):
    return frame(b"Q", string(text))


def describe(kind, name):
    return frame(b"D", kind + string(name))


def close(kind, name):
    return frame(b"C", kind + string(name))


def bound(codes, portal="", statement=""):
    return frame(b"B", string(portal) + string(statement) + restated.counted("h", []) + restated.values([]) + restated.counted("h", codes))


QUERY = (simple("x"), f"start parse {ANSWER}")
PARSE = (restated.parse("", "x"), "parse")
BIND = (bound([]), "")
EXECUTE = (restated.execute(""), f"start {ANSWER}")
SYNCED = (SYNC, "")

ROWS = [
    ("no query", []),
    ("a simple query", [QUERY]),
    ("two simple queries", [QUERY, QUERY]),
    ("a blank simple query", [(simple(" ;"), "")]),
    ("Parse", [PARSE, SYNCED]),
    ("Parse of a blank query", [(restated.parse("", ";"), ""), SYNCED]),
    ("Bind without result codes, and with one", [PARSE, BIND, (bound([1]), ""), SYNCED]),
    ("Bind with more result codes, which are compared with the columns", [PARSE, (bound([0, 1]), "columns"), SYNCED]),
    ("Describe of a statement", [PARSE, (describe(b"S", ""), "types columns"), SYNCED]),
    ("Describe of a portal", [PARSE, BIND, (describe(b"P", ""), "columns"), SYNCED]),
    ("Describe of what isn't there", [(describe(b"P", "p"), ""), SYNCED]),
    ("an extended query", [PARSE, BIND, EXECUTE, SYNCED]),
    ("an extended query that is described", [PARSE, (describe(b"S", ""), "types columns"), BIND, (describe(b"P", ""), "columns"), EXECUTE, SYNCED]),
    ("Execute of a portal that was started", [PARSE, BIND, EXECUTE, (restated.execute(""), ""), (restated.execute("", 1), ""), SYNCED]),
    ("Execute of a page", [PARSE, BIND, (restated.execute("", 1), f"start {ANSWER}"), SYNCED]),
    ("one statement, three portals", [PARSE, *[(bound([], p), "") for p in "abc"],
                                      *[(restated.execute(p), f"start {ANSWER}") for p in "bca"], SYNCED]),
    ("Execute of a blank query", [(restated.parse("", ""), ""), BIND, (restated.execute(""), ""), SYNCED]),
    ("Execute of what isn't there, and messages that are dropped", [(restated.execute("p"), ""), (PARSE[0], ""), (BIND[0], ""),
                                                                    (EXECUTE[0], ""), (QUERY[0], ""), SYNCED, QUERY]),
    ("Close and Flush", [PARSE, BIND, (close(b"P", ""), ""), (close(b"S", ""), ""), (frame(b"H"), ""), SYNCED]),
]


def print_row(name, steps):
    sent = b"".join(message for message, _ in steps)
    print(f"{name} | {sent.hex()} | {' '.join(calls for _, calls in steps if calls)}".rstrip())


def main():
    print(HEAD)
    for name, steps in ROWS:
        print_row(name, [(STARTUP, ""), *steps, (TERMINATE, "")])
    print("a parser by itself | parser | types columns columns")


if __name__ == "__main__":
    main()
