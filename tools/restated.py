"""What clients send and what they are answered over a relation file, for the scripts of make try: by the rules of docs/FORMATS.md and
docs/CONVERSATION.md, and from the file's own intervals. Nothing here is the programs' own.

A step is a pair: the bytes that a client sends, and those that it is answered.
"""
import random
import struct

import print_intervals

PID, KEY = 7, bytes([1, 2, 3, 4])
INTERVAL = 1186
SETTINGS = [("server_version", "16.0"), ("server_encoding", "UTF8"), ("client_encoding", "UTF8"), ("integer_datetimes", "on")]
STYLES = {"postgres": print_intervals.postgres, "postgres_verbose": print_intervals.postgres_verbose,
          "iso_8601": print_intervals.iso_8601, "sql_standard": print_intervals.sql_standard}


def string(text):
    return text.encode() + b"\0"


def frame(kind, body=b""):
    """A type byte, the length of itself and the body, and the body."""
    return kind + struct.pack(">i", len(body) + 4) + body


def counted(form, numbers):
    return struct.pack(f">h{len(numbers)}{form}", len(numbers), *numbers)


def values(cells):
    return struct.pack(">h", len(cells)) + b"".join(struct.pack(">i", len(cell)) + cell for cell in cells)


SYNC, READY, IN_TRANSACTION, TERMINATE = frame(b"S"), frame(b"Z", b"I"), frame(b"Z", b"T"), frame(b"X")
PARSED, BOUND, CLOSED, SUSPENDED = (frame(kind) for kind in (b"1", b"2", b"3", b"s"))


class Relation:
    """A relation of a file: its name, its columns, and rows of intervals as months, days and microseconds."""

    def __init__(self, name, columns, rows):
        self.name, self.columns, self.rows = name, columns, rows
        self.texts = {}

    def lines(self, unready=0):
        """Its part of a relation file."""
        rows = self.cells("postgres")
        return "\n".join("\t".join(fields) for fields in ([self.name, str(unready), *self.columns], *rows)) + "\n"

    def cells(self, style):
        """The texts of each row in a style."""
        if style not in self.texts:
            self.texts[style] = [[STYLES[style](cell) for cell in row] for row in self.rows]
        return self.texts[style]

    def described(self, code=0):
        fields = [string(column) + struct.pack(">ihihih", 0, 0, INTERVAL, 16, -1, code) for column in self.columns]
        return frame(b"T", struct.pack(">h", len(fields)) + b"".join(fields))

    def data_rows(self, first=0, behind=None, code=0, style="postgres"):
        """The rows from one place up to another: as text in a style, or with code 1 in binary."""
        if code == 1:
            return b"".join(frame(b"D", values([struct.pack(">qii", *reversed(cell)) for cell in row])) for row in self.rows[first:behind])
        return b"".join(frame(b"D", values([text.encode() for text in row])) for row in self.cells(style)[first:behind])


def tag(text):
    return frame(b"C", string(text))


def drawn(name, columns, count, seed):
    """A relation of so many rows of small intervals."""
    draw = random.Random(seed)
    cell = lambda: (draw.randint(-1000, 1000), draw.randint(-1000, 1000), draw.randint(-10**10, 10**10))
    return Relation(name, columns, [[cell() for _ in columns] for _ in range(count)])


# What a client sends, and what it is answered.

def startup(style="postgres", version=196608, parameters=(), pid=PID, key=KEY):
    """A startup packet with this interval style, and what a client of this pid and key is answered."""
    body = struct.pack(">i", version) + string("user") + string("demo")
    for name, value in [*parameters, *([("intervalstyle", style)] if style != "postgres" else [])]:
        body += string(name) + string(value)
    sent = struct.pack(">i", len(body) + 5) + body + b"\0"
    told = frame(b"R", struct.pack(">i", 0)) + b"".join(frame(b"S", string(name) + string(value)) for name, value in SETTINGS)
    return sent, told + frame(b"K", struct.pack(">i", pid) + key) + READY


def query(text, answer, ready=READY):
    """A simple query, and what it is answered."""
    return frame(b"Q", string(text)), answer + ready


def asked(relation, style="postgres"):
    """A simple query of all rows."""
    count = len(relation.rows)
    return query(relation.name, relation.described() + relation.data_rows(style=style) + tag(f"SELECT {count}"))


def copied(relation):
    """A COPY of all rows."""
    width, lines = len(relation.columns), relation.cells("postgres")
    data = b"".join(frame(b"d", ("\t".join(line) + "\n").encode()) for line in lines)
    answer = frame(b"H", b"\0" + counted("h", [0] * width)) + data + frame(b"c") + tag(f"COPY {len(lines)}")
    return query(f"COPY {relation.name} TO STDOUT", answer)


def parse(name, text):
    return frame(b"P", string(name) + string(text) + counted("i", []))


def bind(portal, statement, code, parameters=()):
    return frame(b"B", string(portal) + string(statement) + counted("h", []) + values(list(parameters)) + counted("h", [code]))


def execute(portal, limit=0):
    return frame(b"E", string(portal) + struct.pack(">i", limit))


def extended(relation, code, style="postgres"):
    """Parse, Bind, Execute of all rows, and Sync."""
    sent = parse("", relation.name) + bind("", "", code) + execute("") + SYNC
    told = PARSED + BOUND + relation.data_rows(code=code, style=style) + tag(f"SELECT {len(relation.rows)}") + READY
    return sent, told


def paged(relation, code, size):
    """The same by an Execute for each page, and one behind the last that finds none left."""
    count = len(relation.rows)
    sent, told = parse("", relation.name) + bind("", "", code), PARSED + BOUND
    for first in range(0, count + 1, size):
        sent += execute("", size)
        is_full = first + size <= count
        told += relation.data_rows(first, first + size, code) + (SUSPENDED if is_full else tag(f"SELECT {count}"))
    return sent + SYNC, told + READY


def declared(cursor, relation):
    return query(f"DECLARE {cursor} CURSOR FOR {relation.name}", tag("DECLARE CURSOR"))


def fetched(cursor, relation, first, count=None):
    """A FETCH of so many rows, or of all that are left, by a cursor that has given the first ones."""
    behind = len(relation.rows) if count is None else max(first, min(first + count, len(relation.rows)))
    answer = relation.described() + relation.data_rows(first, behind) + tag(f"FETCH {behind - first}")
    return query(f"FETCH {'ALL' if count is None else count} FROM {cursor}", answer)


def conversation(*steps):
    """The bytes of a client and of its replies, with a Terminate behind them."""
    return b"".join(step[0] for step in steps) + TERMINATE, b"".join(step[1] for step in steps)


def recording(client, replies, starts, pid=PID, key=KEY):
    """The recording of a session that asked the registry to start so many queries, and ended by Terminate."""
    told = b"PGR1" + struct.pack(">ih", pid, len(key)) + key + struct.pack(">q", len(client)) + client
    return told + struct.pack(">i", starts) + bytes(starts) + struct.pack(">q", len(replies)) + replies + b"\0"
