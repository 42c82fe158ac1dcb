#!/usr/bin/env python3
"""Restates what crates/message_rows must print for its rows, from the tables of frames and replies.

Reads the rows from standard input, and writes what the codec must make of each. It knows the rows' syntax
and the protocol's message formats, and nothing of the program.
"""
import struct
import sys


class Bad(Exception):
    """A frame that carries no message."""


def parts_bytes(words):
    out = bytearray()
    for word in words:
        times, part = times_part(word)
        if part.startswith("'"):
            piece = part[1:].replace("_", " ").encode()
        elif part.startswith("x"):
            piece = bytes.fromhex(part[1:])
        elif part.startswith("h:"):
            piece = struct.pack(">h", int(part[2:]))
        else:
            piece = struct.pack(">i", int(part[2:]))
        out += piece * times
    return bytes(out)


def times_part(word):
    count, star, part = word.partition("*")
    return (int(count), part) if star and count.isdigit() else (1, word)


class Body:
    """The bytes behind a header, taken from the front."""

    def __init__(self, data):
        self.data = data

    def take(self, n):
        if len(self.data) < n:
            raise Bad
        front, self.data = self.data[:n], self.data[n:]
        return front

    def number(self, form):
        return struct.unpack(">" + form, self.take(struct.calcsize(">" + form)))[0]

    def text(self):
        end = self.data.find(b"\0")
        if end < 0:
            raise Bad
        front = self.take(end)
        self.take(1)
        try:
            return front.decode("utf-8")
        except UnicodeDecodeError:
            raise Bad from None

    def count(self):
        n = self.number("h")
        if n < 0:
            raise Bad
        return n

    def value(self):
        n = self.number("i")
        if n < -1:
            raise Bad
        return None if n == -1 else self.take(n)

    def end(self):
        if self.data:
            raise Bad


def hexed(data):
    if len(data) <= 40:
        return " " + data.hex()
    return f" {len(data)} bytes {data[:3].hex()}..{data[-3:].hex()}"


def shown(text):
    data = text.encode()
    return f" '{text}'" if len(data) <= 40 else " text of" + hexed(data)


def listed(items):
    if len(items) > 8:
        return f" [{len(items)} items {items[0]}..{items[-1]}]"
    return " [" + "".join(f" {item}" for item in items) + " ]"


def startup(body):
    code = body.number("I")
    if code in (80877103, 80877104):
        body.end()
        return "SslNegotiation " + ("PostgresSsl" if code == 80877103 else "PostgresGss")
    if code == 80877102:
        pid, key = body.number("i"), body.take(max(4, len(body.data)))
        if len(key) > 256:
            raise Bad
        return f"CancelRequest {pid}" + hexed(key)
    pairs = []
    if code in (196608, 196610):
        while body.data[:1] not in (b"\0", b""):
            pairs.append((body.text(), body.text()))
        body.take(1)
        body.end()
    told = "".join(shown(name) + shown(value) for name, value in pairs[:4])
    return f"Startup {code} [{len(pairs)} pairs{told} ]"


def typed(kind, body):
    told = KINDS[kind](body)
    body.end()
    return told


def parse(body):
    texts = shown(body.text()) + shown(body.text())
    return "Parse" + texts + listed([body.number("I") for _ in range(body.count())])


def bind(body):
    texts = shown(body.text()) + shown(body.text())
    formats = listed([body.number("h") for _ in range(body.count())])
    values = [body.value() for _ in range(body.count())]
    told = "".join(" null" if v is None else hexed(v) for v in values[:4])
    results = listed([body.number("h") for _ in range(body.count())])
    return f"Bind{texts}{formats} [{len(values)} values{told} ]{results}"


KINDS = {
    "Q": lambda b: "Query" + shown(b.text()),
    "P": parse,
    "B": bind,
    "D": lambda b: f"Describe {b.number('B')}" + shown(b.text()),
    "E": lambda b: "Execute" + shown(b.text()) + f" {b.number('i')}",
    "C": lambda b: f"Close {b.number('B')}" + shown(b.text()),
    "H": lambda b: "Flush",
    "S": lambda b: "PgSync",
    "X": lambda b: "Terminate",
    "d": lambda b: "CopyData" + hexed(b.take(len(b.data))),
    "c": lambda b: "CopyDone",
    "f": lambda b: "CopyFail" + shown(b.text()),
}


def frame(awaiting, data):
    """What the first frame is, at how many bytes that is known, and how many are left behind it."""
    header = 4 if awaiting else 5
    if len(data) < header:
        return "unfinished", len(data), None
    length = int.from_bytes(data[header - 4 : header], "big")
    kind = chr(data[0])
    good = 8 <= length <= 10000 if awaiting else kind in KINDS and 4 <= length <= 1048576
    if not good:
        return "bad", header, None
    whole = header - 4 + length
    if len(data) < whole:
        return "unfinished", len(data), None
    body = Body(data[header:whole])
    try:
        told = startup(body) if awaiting else typed(kind, body)
    except Bad:
        return "bad", whole, None
    return told, whole, len(data) - whole


def reply(kind, words):
    """The type byte, and the body or None where there is no length; or None for a reply that can't be sent."""
    texts = [parts_bytes([word]) for word in words] if kind in TEXTS else []
    if any(b"\0" in text for text in texts):
        return None, sum(len(text) + 1 for text in texts)
    ended = b"".join(text + b"\0" for text in texts)
    if kind in BARE:
        return BARE[kind], b""
    if kind in ("SslResponse", "GssEncResponse"):
        return b"N", None
    if kind == "AuthenticationOk":
        return b"R", bytes(4)
    if kind == "ParameterStatus":
        return b"S", ended
    if kind == "CommandComplete":
        return b"C", ended
    if kind == "ErrorResponse":
        severity, code, message = [text + b"\0" for text in texts]
        return b"E", b"S" + severity + b"V" + severity + b"C" + code + b"M" + message + b"\0"
    if kind == "BackendKeyData":
        return b"K", struct.pack(">i", int(words[0])) + parts_bytes(words[1:])
    if kind == "ReadyForQuery":
        return b"Z", words[0].encode()
    if kind == "DataRow":
        return b"D", struct.pack(">h", int(words[0])) + parts_bytes(words[1:])
    if kind == "CopyData":
        return b"d", parts_bytes(words)
    items = [part for times, part in map(times_part, words) for _ in range(times)]
    if kind == "ParameterDescription":
        body = b"".join(struct.pack(">I", int(item)) for item in items)
        return counted(b"t", len(items), body)
    if kind == "RowDescription":
        names = [parts_bytes([item.split(",")[0]]) for item in items]
        body = b"".join(map(column, items))
        return counted(b"T" if not any(b"\0" in name for name in names) else None, len(items), body)
    codes = b"".join(struct.pack(">h", int(item)) for item in items[2:])
    kinds = {"CopyInResponse": b"G", "CopyOutResponse": b"H", "CopyBothResponse": b"W"}
    return kinds[kind], struct.pack(">bh", int(words[0]), int(words[1])) + codes


TEXTS = ("ParameterStatus", "CommandComplete", "ErrorResponse")

BARE = {
    "ParseComplete": b"1",
    "BindComplete": b"2",
    "CloseComplete": b"3",
    "PortalSuspended": b"s",
    "NoData": b"n",
    "EmptyQueryResponse": b"I",
    "CopyDone": b"c",
}


def column(item):
    name, *numbers = item.split(",")
    return parts_bytes([name]) + b"\0" + struct.pack(">ihIhih", *map(int, numbers))


def counted(kind, count, body):
    if kind is None or count > 32767:
        return None, 2 + len(body)
    return kind, struct.pack(">h", count) + body


def answered(kind, words):
    if kind in ("startup", "typed"):
        told, at, left = frame(kind == "startup", parts_bytes(words))
        once = "true" if left is not None else "false"
        left = len(parts_bytes(words)) if left is None else left
        return f"{told} at {at}, at once {once} with {left} left"
    byte, body = reply(kind, words)
    if byte is None:
        if kind == "ErrorResponse":
            body += 5 + len(parts_bytes(words[:1])) + 1
        return f"body {body}, cannot be sent"
    if body is None:
        return "body 0," + hexed(b"<" + byte)
    length = struct.pack(">i", 4 + len(body))
    return f"body {len(body)}," + hexed(b"<" + byte + length + body)


for line in sys.stdin:
    name, colon, row = line.rstrip("\n").partition(": ")
    if colon:
        kind, *words = row.split()
        print(f"{name}: {answered(kind, words)}")
    else:
        print(name)
