#!/usr/bin/env python3
"""Writes the rows of conversations with cursors: over relations, crates/cursor_serving_rows/stdin, and by the handlers of sample
queries, crates/cursor_sample_rows/stdin.

    python3 tools/cursor_serving_rows.py > crates/cursor_serving_rows/stdin
    python3 tools/cursor_serving_rows.py sample > crates/cursor_sample_rows/stdin

The replies to a command are those to its messages, which stand here beside it, changed by the rule of tools/cursor_rows.py;
those of the row "cursor life" and "cursor refusals" are compared with the replies that they are to be, written out.
"""
import re
import struct
import sys

from cursor_rows import BOUND, CLOSED, COLUMNS, HALF, IDLE, MONTH, NO_DATA, PARSED, SUSPENDED, TRANSACTION, YEAR
from cursor_rows import command_of, frame, replies_of, row, tag, written

HEAD = """\
# A row: its name | how it is served | the client's bytes | how it ends | the bytes of the replies | the registry's calls. Made
# by tools/cursor_serving_rows.py. Bytes are hexadecimal digits; a word "N*DIGITS" stands for its bytes N times. A row is served
# %s, under pid 7 and key 01020304, with 1000 turns, by options that semicolons split: "reads N N ..",
# what each read gives, or "reads single", one byte each; "sweep cuts", once for each number of bytes that the first read gives;
# "turns N"; "answers no yes ..", the registry's, and no past their end; "read_fails N", the read of this number, from 0;
# "write_fails N M", the write of this number after M bytes; "front", any first bytes of the replies are expected. A call is
# start, or yes or no for a question; where a write fails, any first calls are expected.
"""

SAMPLES = """\
# The handlers of sample queries are those of the crate sample_handlers: pair, two rows; broken, a row, an error, and two rows;
# failed, an error in the place of rows; done, a command; in, out, both, a COPY of each direction.
"""


def text(value):
    return value.encode() + b"\0"


def error(code, message):
    fields = [(b"S", "ERROR"), (b"V", "ERROR"), (b"C", code), (b"M", message)]
    return frame(b"E", b"".join(k + text(v) for k, v in fields) + b"\0")


UNKNOWN_PORTAL = error("34000", 'portal "nosuch" does not exist')
UNKNOWN_STATEMENT = error("26000", 'prepared statement "s1" does not exist')
CANCELED = error("57014", "canceling statement due to user request")
ROMAN = error("22023", 'invalid option value "roman"')
BROKEN = frame(b"Z", b"E")
DAY = row("1 day")
# Of the handlers of sample queries: the columns name and span, the rows of "a" with one day and of "b" with a null, and COPYs
# of one column.
NAMES = frame(b"T", struct.pack(">h", 2) + b"name\0" + struct.pack(">ihihih", 0, 0, 25, -1, -1, 0)
              + b"span\0" + struct.pack(">ihihih", 0, 0, 1186, 16, -1, 0))
A = frame(b"D", struct.pack(">hi", 2, 1) + b"a" + struct.pack(">i", 5) + b"1 day")
B = frame(b"D", struct.pack(">hi", 2, 1) + b"b" + struct.pack(">i", -1))
DIVISION = error("22012", "division by zero")
REFUSED = error("22023", "refused")
COPY_IN = frame(b"G", struct.pack(">bhh", 0, 1, 0))
COPY_OUT = [frame(b"H", struct.pack(">bhh", 1, 1, 1)), frame(b"d", b"\2"), frame(b"d", b"\1"), frame(b"d", b"\xff\xff"), frame(b"c"), tag("COPY 2")]
COPY_BOTH = [frame(b"W", struct.pack(">bhh", 0, 1, 0)), frame(b"d", b"\1"), frame(b"c"), tag("COPY 1")]
GREETING = [frame(b"R", struct.pack(">i", 0)), *(frame(b"S", text(name) + text(value)) for name, value in [
    ("server_version", "16.0"), ("server_encoding", "UTF8"), ("client_encoding", "UTF8"), ("integer_datetimes", "on")]),
    frame(b"K", struct.pack(">i", 7) + bytes([1, 2, 3, 4])), IDLE]


def unknown(name):
    return error("42P01", f'relation "{name}" does not exist')


# ---- a step: the client's frame, its replies, and the registry's calls


def startup(*parameters):
    body = struct.pack(">i", 196608) + b"".join(text(p) for p in parameters) + b"\0"
    return (struct.pack(">i", 4 + len(body)) + body, GREETING, "")


def query(words, replies, calls="start"):
    return (written([frame(b"Q", text(words))]), replies, calls)


def command(words, replies, calls=""):
    """A command, with the replies to its messages."""
    return query(words, replies_of(command_of(words), replies), calls)


def parse(name, words, replies):
    return (written([frame(b"P", text(name) + text(words) + b"\0\0")]), replies, "")


def bind(portal, statement, replies, binary=False):
    codes = struct.pack(">hh", 1, 1) if binary else b"\0\0"
    return (written([frame(b"B", text(portal) + text(statement) + b"\0\0\0\0" + codes)]), replies, "")


def execute(portal, limit, replies, calls=""):
    return (written([frame(b"E", text(portal) + struct.pack(">i", limit))]), replies, calls)


def describe(portal, replies):
    return (written([frame(b"D", b"P" + text(portal))]), replies, "")


def sync(ready=IDLE):
    return (written([frame(b"S")]), [ready] if ready else [], "")


def copy_data(data):
    return (written([frame(b"d", data)]), [], "")


def copy_done(replies):
    return (written([frame(b"c")]), replies, "")


def copy_fail(why, ready):
    gone = error("XX000", f"COPY IN mode terminated by the user: {why}")
    return (written([frame(b"f", text(why))]), [gone, ready], "")


TERMINATE = (written([frame(b"X")]), [], "")
START = startup("user", "demo")
DECLARED = [PARSED, BOUND, CLOSED, IDLE]


def declare(name="c", relation="shifts"):
    return command(f"DECLARE {name} CURSOR FOR {relation}", DECLARED)


LIFE = [
    START,
    declare(),
    command("fetch 2 from c;", [COLUMNS, YEAR, HALF, SUSPENDED, IDLE], "start"),
    execute("c", 0, [MONTH, tag("SELECT 3")]),
    sync(),
    command("FETCH ALL FROM c", [COLUMNS, tag("SELECT 3"), IDLE]),
    command("CLOSE c", [CLOSED, IDLE]),
    TERMINATE,
]

LIFE_WRITTEN_OUT = [
    *GREETING, tag("DECLARE CURSOR"), IDLE,
    COLUMNS, YEAR, HALF, tag("FETCH 2"), IDLE,
    MONTH, tag("SELECT 3"), IDLE,
    COLUMNS, tag("FETCH 0"), IDLE,
    tag("CLOSE CURSOR"), IDLE,
]

REFUSALS = [
    START,
    command("FETCH 1 FROM nosuch", [UNKNOWN_PORTAL, IDLE]),
    query("FETCH 0 FROM c", [unknown("FETCH 0 FROM c"), IDLE]),
    command("DECLARE c CURSOR FOR nosuch", [unknown("nosuch"), IDLE]),
    bind("", "s1", [UNKNOWN_STATEMENT]),
    query("FETCH 1 FROM c", [], ""),
    sync(),
    TERMINATE,
]

REFUSALS_WRITTEN_OUT = [*GREETING, UNKNOWN_PORTAL, IDLE, unknown("FETCH 0 FROM c"), IDLE, unknown("nosuch"), IDLE, UNKNOWN_STATEMENT, IDLE]


def replies_to(steps):
    return [reply for _, replies, _ in steps for reply in replies]


def digits(data):
    """Hexadecimal digits, where a byte that comes many times is written once, with their number."""
    return re.sub(r"(..)\1{99,}", lambda m: f" {len(m[0]) // 2}*{m[1]} ", data.hex())


def show(name, steps, how="", end="Terminate", client=None, replies=None, calls=None):
    client = b"".join(step[0] for step in steps) if client is None else client
    replies = written(replies_to(steps)) if replies is None else replies
    calls = " ".join(step[2] for step in steps if step[2]) if calls is None else calls
    print(f"{name} | {how} | {digits(client)} | {end} | {replies.hex()} | {calls}")


def everywhere(name, steps, how=""):
    """The row with all in one read, with single bytes, and with whatever the first read gives."""
    options = f"{how}; " if how else ""
    show(name, steps, how)
    show(f"{name}, one byte at a time", steps, f"{options}reads single")
    show(f"{name}, every cut", steps, f"{options}sweep cuts")


FIRST_PATH = [
    START,
    parse("", "shifts", [PARSED]),
    bind("", "", [BOUND], binary=True),
    execute("", 0, [
        frame(b"D", struct.pack(">hi", 1, 16) + bytes.fromhex(cell))
        for cell in ("00000000fb3bcbc0000000010000000d", "fffffffffff85ee00000000000000000", "00000000002dc6c000000002ffffffff")
    ] + [tag("SELECT 3")], "start"),
    sync(),
    TERMINATE,
]


def lives():
    print("# ---- cursor life and cursor refusals")
    assert replies_to(LIFE) == LIFE_WRITTEN_OUT and replies_to(REFUSALS) == REFUSALS_WRITTEN_OUT
    everywhere("cursor life", LIFE)
    everywhere("cursor refusals", REFUSALS)


def faults():
    print("\n# ---- cut input, failing sink, failing source, short budget")
    client = b"".join(step[0] for step in FIRST_PATH)
    first = written(replies_to(FIRST_PATH))
    assert len(client) == 69
    show("first path in two pieces", FIRST_PATH, "reads 19")
    show("failing sink", FIRST_PATH, "reads 19; write_fails 1 3", "WriteFault", replies=first[:134], calls="start")
    show("failing source", FIRST_PATH, "reads 19; read_fails 1", "ReadFault", replies=first[:131], calls="")
    show("turns enough", FIRST_PATH, "reads single; turns 69")
    show("short budget", FIRST_PATH, "reads single; turns 68", "TurnLimit")
    life = b"".join(step[0] for step in LIFE)
    before = len(life) - len(TERMINATE[0])
    show("cursor life, turns enough", LIFE, f"reads single; turns {len(life)}")
    show("cursor life, short budget", LIFE, f"reads single; turns {len(life) - 1}", "TurnLimit")
    show("cursor life without Terminate", LIFE[:-1], "", "InputEnd")
    asked = b"".join(step[0] for step in LIFE[:3])
    for cut, name in [(len(LIFE[0][0]) + 3, "in a header"), (len(LIFE[0][0]) + 9, "in a command"), (len(asked) - 1, "before a command's last byte")]:
        whole = [step for n, step in enumerate(LIFE) if len(b"".join(s[0] for s in LIFE[:n + 1])) <= cut]
        show(f"cut input {name}", whole, "", "InputEnd", client=life[:cut])
        show(f"cut input {name}, one byte at a time", whole, "reads single", "InputEnd", client=life[:cut])
        show(f"failing source {name}", whole, f"reads {cut}; read_fails 1", "ReadFault", client=life)
    declared = written(replies_to(LIFE[:2]))
    each = " ".join(str(len(step[0])) for step in LIFE)
    show("failing sink at DECLARE", LIFE, f"reads {each}; write_fails 1 3", "WriteFault", replies=declared[:134], calls="")
    show("failing sink at FETCH", LIFE, f"reads {each}; write_fails 2 7", "WriteFault",
         replies=written(LIFE_WRITTEN_OUT)[:len(declared) + 7], calls="start")
    assert before == len(b"".join(step[0] for step in LIFE[:-1]))


def portals():
    print("\n# ---- cursors and portals")
    everywhere("FETCH and Execute in any mix", [
        START,
        declare(),
        execute("c", 1, [YEAR, SUSPENDED], "start"),
        sync(),
        command("FETCH 1 FROM c", [COLUMNS, HALF, SUSPENDED, IDLE]),
        describe("c", [COLUMNS]),
        execute("c", 1, [MONTH, SUSPENDED]),
        sync(),
        command("FETCH 1 FROM c", [COLUMNS, tag("SELECT 3"), IDLE]),
        execute("c", 0, [tag("SELECT 3")]),
        sync(),
        TERMINATE,
    ])
    show("FETCH of all", [
        START, declare(), command("fetch all from c", [COLUMNS, YEAR, HALF, MONTH, tag("SELECT 3"), IDLE], "start"), TERMINATE,
    ])
    show("FETCH of just as many as there are", [
        START,
        declare(),
        command("FETCH 3 FROM c", [COLUMNS, YEAR, HALF, MONTH, SUSPENDED, IDLE], "start"),
        command("FETCH 3 FROM c", [COLUMNS, tag("SELECT 3"), IDLE]),
        TERMINATE,
    ])
    show("FETCH of no row", [START, declare("c", "none"), command("FETCH ALL FROM c", [COLUMNS, tag("SELECT 0"), IDLE], "start"), TERMINATE])
    show("FETCH from a portal that Bind made", [
        START,
        parse("s", "shifts", [PARSED]),
        bind("p", "s", [BOUND]),
        command("FETCH 1 FROM p", [COLUMNS, YEAR, SUSPENDED, IDLE], "start"),
        execute("p", 0, [HALF, MONTH, tag("SELECT 3")]),
        sync(),
        TERMINATE,
    ])
    show("CLOSE of an unknown name", [START, command("CLOSE nosuch", [CLOSED, IDLE]), TERMINATE])
    show("CLOSE and FETCH", [
        START, declare("nosuch"), command("CLOSE nosuch", [CLOSED, IDLE]), command("FETCH 1 FROM nosuch", [UNKNOWN_PORTAL, IDLE]), TERMINATE,
    ])
    show("DECLARE over a stored name", [
        START,
        declare(),
        command("FETCH 1 FROM c", [COLUMNS, YEAR, SUSPENDED, IDLE], "start"),
        declare(),
        command("FETCH 2 FROM c", [COLUMNS, YEAR, HALF, SUSPENDED, IDLE], "start"),
        TERMINATE,
    ])
    show("two cursors", [
        START,
        declare("a"),
        declare("b", "slow"),
        command("FETCH 1 FROM a", [COLUMNS, YEAR, SUSPENDED, IDLE], "start"),
        command("FETCH ALL FROM b", [COLUMNS, DAY, tag("SELECT 1"), IDLE], "start no no"),
        command("FETCH 1 FROM a", [COLUMNS, HALF, SUSPENDED, IDLE]),
        TERMINATE,
    ])
    show("a command removes the unnamed statement and portal", [
        START,
        parse("", "shifts", [PARSED]),
        bind("", "", [BOUND]),
        declare("c", "none"),
        bind("", "", [error("26000", 'prepared statement "" does not exist')]),
        sync(),
        execute("", 0, [error("34000", 'portal "" does not exist')]),
        sync(),
        TERMINATE,
    ])


def phases():
    print("\n# ---- commands in other phases")
    everywhere("FETCH in a failed phase", [
        START,
        declare(),
        execute("nosuch", 0, [UNKNOWN_PORTAL]),
        query("FETCH 1 FROM c", [], ""),
        query("CLOSE c", [], ""),
        query("DECLARE d CURSOR FOR shifts", [], ""),
        sync(),
        command("FETCH 1 FROM c", [COLUMNS, YEAR, SUSPENDED, IDLE], "start"),
        TERMINATE,
    ])
    show("commands in a transaction", [
        START,
        query("BEGIN", [tag("BEGIN"), TRANSACTION]),
        command("DECLARE c CURSOR FOR shifts", [PARSED, BOUND, CLOSED, TRANSACTION]),
        command("FETCH 1 FROM c", [COLUMNS, YEAR, SUSPENDED, TRANSACTION], "start"),
        command("FETCH 1 FROM nosuch", [UNKNOWN_PORTAL, BROKEN]),
        command("CLOSE c", [CLOSED, BROKEN]),
        query("COMMIT", [tag("COMMIT"), IDLE]),
        TERMINATE,
    ])
    show("a cursor for COMMIT", [
        START,
        query("BEGIN", [tag("BEGIN"), TRANSACTION]),
        command("DECLARE c CURSOR FOR COMMIT", [PARSED, BOUND, CLOSED, TRANSACTION]),
        command("FETCH 1 FROM c", [NO_DATA, tag("COMMIT"), IDLE], "start"),
        TERMINATE,
    ])
    show("a command behind a COPY", [
        START,
        query("COPY none TO STDOUT", [frame(b"H", bytes.fromhex("0000010000")), frame(b"c"), tag("COPY 0"), IDLE]),
        declare(),
        command("FETCH 1 FROM c", [COLUMNS, YEAR, SUSPENDED, IDLE], "start"),
        TERMINATE,
    ])
    behind = len(START[0])
    show("a command split over two pieces", LIFE, f"reads {behind + 7}")
    show("a command split in its header", LIFE, f"reads {behind + 3}")
    show("a command behind half of the one before", LIFE, f"reads {behind + 20} {len(LIFE[1][0])}")
    # A frame has at most 1,048,577 bytes, its type and its length among them.
    longest = f"CLOSE{' ' * (1048577 - 12)}c"
    closed = [command(longest, [CLOSED, IDLE]), command("FETCH 1 FROM c", [error("34000", 'portal "c" does not exist'), IDLE])]
    show("the longest command", [START, declare(), *closed, TERMINATE])
    show("a Query frame that is too long", [START, (b"Q" + struct.pack(">i", 1048577) + text("CLOSE c"), [], "")], "", "BadFrame")
    show("a Query frame that is too short", [START, (b"Q" + struct.pack(">i", 3) + text("CLOSE c"), [], "")], "", "BadFrame")
    show("a Query frame without a text", [START, (b"Q" + struct.pack(">i", 4) + text("CLOSE c"), [], "")], "", "BadFrame")
    show("a command before the startup packet", [(written([frame(b"Q", text("CLOSE c"))]), [], "")], "", "BadFrame")
    show("a command that isn't UTF-8", [START, (written([frame(b"Q", b"CLOSE \xff\0")]), [], "")], "", "BadFrame")


def questions():
    print("\n# ---- relations that are unready, and rows that are refused")
    slow = [
        START,
        declare("s", "slow"),
        command("FETCH ALL FROM s", [COLUMNS, CANCELED, IDLE], "start no yes"),
        command("FETCH ALL FROM s", [COLUMNS, DAY, tag("SELECT 1"), IDLE], "start no no"),
        TERMINATE,
    ]
    everywhere("a FETCH that is canceled", slow, "answers no yes")
    show("questions, turns enough", slow, "answers no yes; turns 5")
    show("questions, short budget", slow, "answers no yes; turns 4; front", "TurnLimit", calls="start no yes start no")
    show("rows that are refused", [
        startup("user", "demo", "IntervalStyle", "roman"),
        declare(),
        command("FETCH 2 FROM c", [COLUMNS, ROMAN, IDLE], "start"),
        execute("c", 1, [ROMAN]),
        sync(),
        command("FETCH ALL FROM c", [COLUMNS, ROMAN, IDLE]),
        command("FETCH ALL FROM c", [COLUMNS, tag("SELECT 0"), IDLE]),
        TERMINATE,
    ])


def error_items():
    print("\n# ---- errors among the rows that a FETCH asks for")
    broken = [
        START,
        declare("b", "broken"),
        command("FETCH 2 FROM b", [NAMES, DIVISION, IDLE], "start"),
        command("FETCH 2 FROM b", [NAMES, B, B, SUSPENDED, IDLE]),
        command("FETCH 2 FROM b", [NAMES, tag("SELECT 2"), IDLE]),
        TERMINATE,
    ]
    assert replies_to(broken) == [
        *GREETING, tag("DECLARE CURSOR"), IDLE,
        NAMES, DIVISION, IDLE,
        NAMES, B, B, tag("FETCH 2"), IDLE,
        NAMES, tag("FETCH 0"), IDLE,
    ]
    everywhere("an error item in the middle of a FETCH", broken)
    show("an error item between a FETCH and an Execute", [
        START,
        declare("b", "broken"),
        command("FETCH 1 FROM b", [NAMES, A, SUSPENDED, IDLE], "start"),
        execute("b", 1, [DIVISION]),
        query("FETCH 1 FROM b", [], ""),
        sync(),
        command("FETCH 1 FROM b", [NAMES, B, SUSPENDED, IDLE]),
        execute("b", 0, [B, tag("SELECT 3")]),
        sync(),
        command("FETCH ALL FROM b", [NAMES, tag("SELECT 3"), IDLE]),
        TERMINATE,
    ])
    show("an error item before a FETCH of all", [
        START,
        declare("b", "broken"),
        execute("b", 2, [DIVISION], "start"),
        sync(),
        command("FETCH ALL FROM b", [NAMES, B, B, tag("SELECT 2"), IDLE]),
        TERMINATE,
    ])
    show("an error in the place of rows", [
        START,
        declare("f", "failed"),
        command("FETCH 1 FROM f", [NO_DATA, REFUSED, IDLE], "start"),
        command("FETCH ALL FROM f", [NO_DATA, REFUSED, IDLE], "start"),
        TERMINATE,
    ])
    show("a FETCH from a portal of a command", [
        START,
        declare("d", "done"),
        command("FETCH 1 FROM d", [NO_DATA, tag("INSERT 0 1"), IDLE], "start"),
        TERMINATE,
    ])


def copies():
    print("\n# ---- commands and COPYs")
    pair = declare("c", "pair")
    fetched = command("FETCH 1 FROM c", [NAMES, A, SUSPENDED, IDLE], "start")
    dropped = [query(words, [], "") for words in ("FETCH 1 FROM c", "CLOSE c", "DECLARE d CURSOR FOR pair")]
    everywhere("a command inside a COPY from the client", [
        START,
        pair,
        query("in", [COPY_IN]),
        *dropped,
        copy_data(b"\0\xff"),
        sync(None),
        copy_done([IDLE]),
        fetched,
        execute("d", 0, [error("34000", 'portal "d" does not exist')]),
        sync(),
        TERMINATE,
    ])
    show("a command behind a COPY from the client that failed", [
        START, pair, query("in", [COPY_IN]), *dropped, copy_fail("no", IDLE), fetched, TERMINATE,
    ])
    show("a command inside a COPY both ways", [
        START, pair, query("both", COPY_BOTH), *dropped, copy_done([IDLE]), fetched, TERMINATE,
    ])
    everywhere("a FETCH that begins a COPY from the client", [
        START,
        declare("i", "in"),
        # The Sync of this FETCH comes inside the COPY, where it is dropped.
        command("FETCH 1 FROM i", [NO_DATA, COPY_IN], "start"),
        query("FETCH 1 FROM i", [], ""),
        copy_data(b"\0\xff"),
        copy_done([]),
        command("CLOSE i", [CLOSED, IDLE]),
        command("FETCH 1 FROM i", [error("34000", 'portal "i" does not exist'), IDLE]),
        TERMINATE,
    ])
    show("a FETCH that is a COPY to the client", [
        START, declare("o", "out"), command("FETCH 1 FROM o", [NO_DATA, *COPY_OUT, IDLE], "start"), TERMINATE,
    ])


def main():
    if sys.argv[1:] == ["sample"]:
        print(HEAD % "by the handlers of sample queries", SAMPLES, sep="", end="")
        error_items()
        copies()
        return
    print(HEAD % "over the built-in relations")
    lives()
    faults()
    portals()
    phases()
    questions()


if __name__ == "__main__":
    main()
