"""The rows of recordings, for tools/word_rows.py: recordings made by the layout of their text, and damaged ones.

The layout stands here once more, field by field, so that each field can be cut and each of its values turned. The
sessions' bytes are those of the rows of crates/conversation_rows/stdin that are written in hexadecimal.
"""
import os
import struct


def int32(n):
    return struct.pack(">i", n)


def uint(n, width):
    return n.to_bytes(width, "big")


def key_fields(key):
    """Int16 length and the key."""
    return [("key length", uint(len(key), 2)), ("key", key)]


def call_fields(call):
    """One byte, and of a cancel call Int32 pid and the key behind it."""
    if call == "start":
        return [("call", b"\0")]
    if call == "narrow":
        return [("call", b"\5")]
    if call[0] == "ask":
        return [("call", b"\2" if call[1] else b"\1")]
    _, pid, key, yes = call
    return [("call", b"\4" if yes else b"\3"), ("cancel pid", int32(pid))] + [
        ("cancel " + name, field) for name, field in key_fields(key)
    ]


ENDS = ["Terminate", "InputEnd", "BadFrame", "Fatal", "CancelServed"]


def fields(pid, key, client, calls, replies, end):
    """The fields of a recording, each with its name."""
    made = [("tag", bytes.fromhex("50475231")), ("pid", int32(pid))] + key_fields(key)
    made += [("client count", uint(len(client), 8)), ("client", client), ("call count", uint(len(calls), 4))]
    for call in calls:
        made += call_fields(call)
    made += [("reply count", uint(len(replies), 8)), ("replies", replies), ("end", uint(ENDS.index(end), 1))]
    return made


def text(made):
    return b"".join(field for _, field in made)


def words(data):
    """Hexadecimal words of at most 16 bytes."""
    return " ".join(data[i : i + 16].hex() for i in range(0, len(data), 16))


def row(name, asked, data, answer):
    print(f"{name} | {asked} | {words(data)} | {answer}")


def session(name):
    """The client's bytes and the replies of a row that is written in hexadecimal."""
    here = os.path.dirname(os.path.abspath(__file__))
    client, replies, inside = b"", b"", False
    with open(os.path.join(here, "../crates/conversation_rows/stdin"), encoding="utf-8") as rows:
        for line in rows:
            if line.startswith("row "):
                inside = line.strip() == "row " + name
            elif inside and line.startswith("client hex "):
                client += bytes.fromhex(line[len("client hex ") :])
            elif inside and line.startswith("reply hex "):
                replies += bytes.fromhex(line[len("reply hex ") :])
    return client, replies


KEY = bytes.fromhex("01020304")
LONG_KEY = bytes(range(256))
CLIENT, REPLIES = session("first path, as bytes")
EMPTY = fields(7, KEY, b"", [], b"", "InputEnd")
FIRST = fields(7, KEY, CLIENT, ["start"], REPLIES, "Terminate")
CALLS = fields(
    -2147483648,
    bytes.fromhex("ff0000fe05"),
    b"\1\2\3",
    ["narrow", "start", ("ask", False), ("ask", True), ("cancel", 2147483647, KEY, False), ("cancel", -1, b"\0\0\0\0", True)],
    b"\4\5",
    "CancelServed",
)
LONG = fields(2147483647, LONG_KEY, b"\0", [("cancel", -2147483648, LONG_KEY[::-1], True), "narrow"], b"", "Terminate")


def changed(made, place, field):
    """The recording with another field at a place."""
    return text(made[:place]) + field + text(made[place + 1 :])


def cuts(title, made):
    """Each field cut at each of its bytes."""
    at = 0
    for place, (name, field) in enumerate(made):
        for kept in range(len(field)) if len(field) <= 8 else (0, 1, len(field) - 1):
            row(f"{title}: field {place}, {name}, with {kept} of {len(field)} bytes", "recording",
                text(made[:place]) + field[:kept], "truncated")
        at += len(field)


def turned(title, made):
    """Each value that a field may not have, and counts at their ends."""
    at, whole = 0, len(text(made))
    for place, (name, field) in enumerate(made):
        here = f"{title}: field {place}, {name}"
        behind = whole - at - len(field)
        if name == "tag":
            for i in range(4):
                other = bytes(b ^ 1 if i == j else b for j, b in enumerate(field))
                row(f"{here}, byte {i} turned", "recording", changed(made, place, other), "bad field 0")
        elif name.endswith("key length"):
            for length in (0, 3, 257, 260, 32767, 32768, 65535):
                row(f"{here} {length}", "recording", changed(made, place, uint(length, 2)), f"bad field {at}")
        elif name in ("client count", "reply count"):
            for count in (behind + 1, 2**31, 2**32 - 1, 2**32, 2**63 - 1, 2**63, 2**64 - 1):
                row(f"{here} {count}", "recording", changed(made, place, uint(count, 8)), "truncated")
        elif name == "call":
            for byte in (6, 7, 127, 128, 255):
                row(f"{here} byte {byte}", "recording", changed(made, place, uint(byte, 1)), f"bad field {at}")
        elif name == "end":
            for byte in (5, 6, 127, 128, 255):
                row(f"{here} byte {byte}", "recording", changed(made, place, uint(byte, 1)), f"bad field {at}")
        at += len(field)


def print_rows():
    print("\n# ---- good recordings")
    row("empty recording", "recording", text(EMPTY), "ok")
    row("recording of the first path", "recording", text(FIRST), "ok")
    row("recording with each call", "recording", text(CALLS), "ok")
    row("recording with keys of 256 bytes", "recording", text(LONG), "ok")
    for length in (5, 8, 255, 256):
        row(f"empty recording under a key of {length} bytes", "recording",
            text(fields(7, LONG_KEY[:length], b"", [], b"", "InputEnd")), "ok")
    for call in ("start", ("ask", False), ("ask", True), "narrow", ("cancel", 7, KEY, False), ("cancel", 7, KEY, True)):
        title = call if isinstance(call, str) else f"{call[0]} {'yes' if call[-1] else 'no'}"
        row(f"recording with one {title}", "recording", text(fields(7, KEY, b"", [call], b"", "InputEnd")), "ok")
    for end in ENDS:
        row(f"empty recording that ends {end}", "recording", text(fields(7, KEY, b"", [], b"", end)), "ok")
    print("\n# ---- every front of good recordings")
    row("empty recording", "fronts", text(EMPTY), "truncated")
    row("recording of the first path", "fronts", text(FIRST), "truncated")
    row("recording with each call", "fronts", text(CALLS), "truncated")
    row("recording with keys of 256 bytes", "fronts", text(LONG), "truncated")
    print("\n# ---- bytes behind the end")
    for title, made in (("empty", EMPTY), ("first path", FIRST), ("each call", CALLS), ("long keys", LONG)):
        row(f"{title}: a byte more", "recording", text(made) + b"\0", f"trailing {len(text(made))}")
        row(f"{title}: twice", "recording", text(made) * 2, f"trailing {len(text(made))}")
    print("\n# ---- fields cut at each byte")
    cuts("empty", EMPTY)
    cuts("each call", CALLS)
    print("\n# ---- values that a field may not have, and counts at their ends")
    turned("empty", EMPTY)
    turned("each call", CALLS)
    print("\n# ---- the count of calls")
    place = [name for name, _ in EMPTY].index("call count")
    front = text(EMPTY[:place])
    for count in (9, 10, 2**31 - 1, 2**31, 2**32 - 1):
        # the eight bytes of the reply count, which are zero, are read as starts, and the end as a question
        row(f"empty: call count {count}", "recording", changed(EMPTY, place, uint(count, 4)), "truncated")
    row("more calls than bytes left, and then an unknown byte", "recording", front + uint(2**32 - 1, 4) + b"\0\0\7",
        f"bad field {len(front) + 6}")
    row("fewer calls than there are", "recording", changed(CALLS, [n for n, _ in CALLS].index("call count"), uint(5, 4)),
        "truncated")
    print("\n# ---- what comes first from the left")
    row("two bytes that begin no recording", "recording", b"XX", "truncated")
    row("a bad tag with nothing behind it", "recording", b"PGR2", "bad field 0")
    row("a bad key length with nothing behind it", "recording", text(EMPTY[:2]) + b"\0\3", "bad field 8")
    row("a bad end with a byte behind it", "recording", text(EMPTY)[:-1] + b"\5\0", "bad field 34")
