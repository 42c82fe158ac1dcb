#!/usr/bin/env python3
"""The stored run of crates/styles_server: usage: styles_rows.py client | replies

`client` writes what one client sends, and `replies` what it must be answered under pid 7 and key 01020304: both by the
frames, messages, texts and refusals of docs/FORMATS.md and the rules of docs/CONVERSATION.md. The intervals are printed by
tools/print_intervals.py and read by tools/read_intervals.py, which restate these rules; nothing here is the program's own.
"""
import re
import struct
import sys

import print_intervals
import read_intervals

PID, KEY = 7, bytes([1, 2, 3, 4])
COLUMNS = ["postgres", "postgres_verbose", "iso_8601", "sql_standard"]
READERS = {"postgres": "postgres", "postgres_verbose": "verbose", "iso_8601": "iso", "sql_standard": "sql"}
TEXT, INTERVAL = 25, 1186

# Queries by a simple query: the least interval, each style's own texts, texts that have one reader but are another's too,
# what counts for nothing round them, and texts that each reader refuses for each of its reasons.
SIMPLE = [
    "1 mon -2 days", "1 year 2 mons 3 days 04:05:06.7;", "@ 1 year 2 mons -3 days 4 hours 5 mins 6.7 secs ago", "P1Y2M-3DT4H5M6.7S",
    "+1-2 -3 +4:05:06.7", " 0 ;", "04:05:06", "-3 04:05:06", "@ 0", "PT0S", "12:30", "1 day", "1-2", "-178956970-8",
    "-178956970 years -8 mons -2147483648 days -2562047788:00:54.775808", "@ 0.5 mons", "P0.5M", "1.5 years",
    "1 fortnight", "fortnight", "P1X", "@ 1", "1 2 3 4", "$1", "1 day; 2 days", "2147483648 days", "P2147483647Y", "2147483648-0",
    "x-1", "1-", "P1.1.1D", "@ 1 day 2 days", "p1d", "1 d\N{LATIN SMALL LETTER E WITH ACUTE}cade", "\N{DEGREE SIGN}", "+1-2 +2147483648 +0:00:00",
    "PT9223372036854775807H", "2147483647 days 2147483647 mons", "1 years " * 1000, ";",
]

# Parameters of `$1`: format codes, and the value.
PARAMETERS = [
    ([], b"1 mon -2 days"), ([0], b"P1Y"), ([1], struct.pack(">qii", 14706700000, 3, 14)), ([1], struct.pack(">qii", -1, -2, -3) + b"more"),
    ([1], b"P1Y"), ([0], b"1 fortnight"), ([0], b"\xff"), ([0], b""), ([0], None), ([1], None),
]

# Queries by an extended query, without parameters, and their result formats.
EXTENDED = [("P1Y2M3DT4H5M6.7S", []), ("@ 1 day ago", [1]), (";-1 day;", [0, 1, 0, 1])]


def string(text):
    return text.encode() + b"\0"


def frame(kind, body=b""):
    return kind.encode() + struct.pack(">i", len(body) + 4) + body


def codes(numbers):
    return struct.pack(">h", len(numbers)) + b"".join(struct.pack(">h", number) for number in numbers)


def value(data):
    return struct.pack(">i", -1) if data is None else struct.pack(">i", len(data)) + data


# What the client sends.

def parse(query):
    return frame("P", string("") + string(query) + codes([]))


def bind(formats, values, results):
    return frame("B", string("") + string("") + codes(formats) + struct.pack(">h", len(values)) + b"".join(map(value, values)) + codes(results))


def describe(target):
    return frame("D", target.encode() + string(""))


def startup():
    """The packet of a client of 3.0."""
    packet = struct.pack(">i", 196608) + string("user") + string("demo") + b"\0"
    return struct.pack(">i", len(packet) + 4) + packet


def client():
    yield startup()
    for query in SIMPLE:
        yield frame("Q", string(query))
    execute, sync = frame("E", string("") + struct.pack(">i", 0)), frame("S")
    for formats, given in PARAMETERS:
        yield parse(" $1; ") + describe("S") + bind(formats, [given], []) + execute + sync
    yield bind([], [], []) + describe("P") + execute + sync
    for query, results in EXTENDED:
        yield parse(query) + describe("S") + bind([], [], results) + describe("P") + execute + execute + sync
    yield parse("1 fortnight") + bind([], [], []) + execute + sync
    yield parse("1 day") + bind([], [], [1, 1]) + execute + sync
    yield frame("X")


# What it is answered.

class Refused(Exception):
    """An error in the place of an answer."""


def trimmed(text):
    return text.strip(read_intervals.SPACE + ";")


def style_of(text):
    if text[:1] in ("@", "P"):
        return {"@": "postgres_verbose", "P": "iso_8601"}[text[0]]
    return "postgres" if re.search("[A-Za-z]", text) else "sql_standard"


def refused(code, message):
    return frame("E", b"S" + string("ERROR") + b"V" + string("ERROR") + b"C" + string(code) + b"M" + string(message) + b"\0")


def interval_of(text):
    style = style_of(text)
    read = read_intervals.read(READERS[style], text)
    if not re.fullmatch("-?[0-9]+ -?[0-9]+ -?[0-9]+", read):
        raise Refused(refused("22007", "no interval in %s: %s" % (style, read)))
    return tuple(int(number) for number in read.split())


def interval_given(formats, given):
    if given is None:
        raise Refused(refused("22004", "there is no interval for $1"))
    if formats == [1]:
        if len(given) < 16:
            raise Refused(refused("22007", "no interval in binary: fewer than sixteen bytes"))
        microseconds, days, months = struct.unpack(">qii", given[:16])
        return months, days, microseconds
    try:
        return interval_of(given.decode())
    except UnicodeDecodeError:
        raise Refused(refused("22007", "no interval in sql_standard: not UTF-8")) from None


def description(results):
    formats = results * 4 if len(results) == 1 else results or [0] * 4
    fields = [string(name) + struct.pack(">ihihih", 0, 0, TEXT, -1, -1, code) for name, code in zip(COLUMNS, formats)]
    return frame("T", struct.pack(">h", len(fields)) + b"".join(fields))


def row(interval):
    cells = [getattr(print_intervals, style)(interval).encode() for style in COLUMNS]
    return frame("D", struct.pack(">h", len(cells)) + b"".join(map(value, cells))) + tag(1)


def tag(rows):
    return frame("C", string("SELECT %d" % rows))


def types(oids):
    return frame("t", struct.pack(">h", len(oids)) + b"".join(struct.pack(">i", oid) for oid in oids))


def simple(query):
    if not trimmed(query):
        return frame("I")
    try:
        return description([]) + row(interval_of(trimmed(query)))
    except Refused as error:
        return error.args[0]


def given(formats, data):
    try:
        return row(interval_given(formats, data))
    except Refused as error:
        return error.args[0]


def greeted():
    """What the packet of a client of 3.0 is answered."""
    yield frame("R", struct.pack(">i", 0))
    for name, told in [("server_version", "16.0"), ("server_encoding", "UTF8"), ("client_encoding", "UTF8"), ("integer_datetimes", "on")]:
        yield frame("S", string(name) + string(told))
    yield frame("K", struct.pack(">i", PID) + KEY) + frame("Z", b"I")


def replies():
    ready, parsed, bound = frame("Z", b"I"), frame("1"), frame("2")
    yield from greeted()
    for query in SIMPLE:
        yield simple(query) + ready
    for formats, data in PARAMETERS:
        yield parsed + types([INTERVAL]) + description([]) + bound + given(formats, data) + ready
    yield bound + description([]) + given([], None) + ready
    for query, results in EXTENDED:
        # The second Execute finds the portal finished.
        yield parsed + types([]) + description([]) + bound + description(results) + row(interval_of(trimmed(query))) + tag(1) + ready
    yield simple("1 fortnight") + ready
    yield parsed + refused("08P01", "bind message has 2 result formats but query has 4 columns") + ready


if __name__ == "__main__":
    if sys.argv[1:] not in (["client"], ["replies"]):
        sys.exit(__doc__.split("\n")[0])
    for part in client() if sys.argv[1] == "client" else replies():
        sys.stdout.buffer.write(part)
