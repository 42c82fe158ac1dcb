"""The rows of the program that records and verifies sessions, for tools/command_rows.py.

A session stands here as the client's frames with the replies and the registry's calls that the conversation's rules give, and
its recording is made by the layout of tools/replay_rows.py. Each answer is written down by the rules: the status, what goes to
the output, and the line of errors. What is changed in a recording tells its verdict.
"""
import struct

from cursor_rows import COLUMNS, HALF, IDLE, MONTH, TRANSACTION, YEAR, frame, tag, written
from cursor_serving_rows import CANCELED, DAY, GREETING, START, TERMINATE, bind, digits, error, execute, parse, query, sync, text
from replay_rows import ENDS, KEY, LONG_KEY, fields
from replay_rows import session as session_in_bytes
from replay_rows import text as text_of

TABLE = ("shifts\\t0\\tspan\\n1 year 1 mon 1 day 01:10:15\\n-00:00:00.500000\\n-1 mons 2 days 00:00:03\\n\\nslow\\t2\\tspan\\n1 day\\n\\n"
         "wide\\t0\\ta\\tb\\tc\\n1 day\\t2 days\\t3 days\\n\\nnone\\t0\\tspan\\n")
RECORD = "record f 7 01020304"
VERIFY = "verify f"
USAGE = "2 err usage: pg_replay record FILE PID KEY, verify FILE\\n"
BAD = "22 err bad recording\\n"
KEY_OF_EIGHT = bytes(range(1, 9))
SHIFTS = [COLUMNS, YEAR, HALF, MONTH, tag("SELECT 3"), IDLE]


class Session:
    """The client's bytes, the registry's calls, the replies and the end of a session under a pid and a key."""

    def __init__(self, client, calls, replies, end="Terminate", pid=7, key=KEY):
        self.client, self.calls, self.replies, self.end, self.pid, self.key = client, calls, replies, end, pid, key

    def but(self, **others):
        """The session with other parts."""
        return Session(**{**vars(self), **others})

    def recording(self):
        return text_of(fields(self.pid, self.key, self.client, self.calls, self.replies, self.end))


def called(word):
    return {"yes": ("ask", True), "no": ("ask", False)}.get(word, word)


def of_steps(steps, **others):
    """The session of steps: a frame of the client, its replies, and the registry's calls."""
    calls = [called(word) for step in steps for word in step[2].split()]
    return Session(b"".join(s[0] for s in steps), calls, b"".join(written(s[1]) for s in steps), **others)


def startup(version, greeting):
    """A startup packet of this version without parameters but the user."""
    body = struct.pack(">i", version) + text("user") + text("demo") + b"\0"
    return (struct.pack(">i", 4 + len(body)) + body, greeting, "")


def cancel_packet(pid, key):
    return struct.pack(">iii", 12 + len(key), 80877102, pid) + key


def copied(line):
    return frame(b"d", line.encode() + b"\n")


EMPTY = Session(b"", [], b"", "InputEnd")
CLIENT, REPLIES = session_in_bytes("first path, as bytes")
FIRST = Session(CLIENT, ["start"], REPLIES)
COPY = of_steps([START, query("COPY shifts TO STDOUT", [
    frame(b"H", struct.pack(">bhh", 0, 1, 0)), copied("1 year 1 mon 1 day 01:10:15"), copied("-00:00:00.500000"),
    copied("-1 mons 2 days 00:00:03"), frame(b"c"), tag("COPY 3"), IDLE]), TERMINATE])
SLOW = of_steps([START, query("slow", [COLUMNS, DAY, tag("SELECT 1"), IDLE], "start no no"), TERMINATE])
# The first question is answered yes, and the query is asked again.
SLOW_TWICE = of_steps([START, query("slow", [CANCELED, IDLE], "start yes"),
                       query("slow", [COLUMNS, DAY, tag("SELECT 1"), IDLE], "start no no"), TERMINATE])
PAGES = of_steps([START, parse("", "shifts", [frame(b"1")]), bind("p", "", [frame(b"2")]), execute("p", 2, [YEAR, HALF, frame(b"s")], "start"),
                  execute("p", 2, [MONTH, tag("SELECT 3")]), sync(), TERMINATE])
# Of 3.0 the registration is narrowed to the first four bytes of the key, which the client is told; of 3.2 it is told the key.
NARROWED = of_steps([startup(196608, GREETING), query("shifts", SHIFTS), TERMINATE], key=KEY_OF_EIGHT)
NARROWED.calls.insert(0, "narrow")
NARROWED_256 = NARROWED.but(key=bytes([1, 2, 3, 4]) + LONG_KEY[4:])
LONG = of_steps([startup(196610, [*GREETING[:-2], frame(b"K", struct.pack(">i", 7) + KEY_OF_EIGHT), IDLE]), query("shifts", SHIFTS), TERMINATE],
                key=KEY_OF_EIGHT)
OLD = bytes.fromhex("00000008 00020000")
FATAL = Session(OLD, [], written([frame(b"E", b"".join(k + text(v) for k, v in (
    (b"S", "FATAL"), (b"V", "FATAL"), (b"C", "0A000"), (b"M", "unsupported frontend protocol 2.0: server supports 3.0 and 3.2"))) + b"\0")]), "Fatal")
CANCEL = Session(cancel_packet(7, KEY), [("cancel", 7, KEY, False)], b"", "CancelServed")
CANCEL_LONG = Session(cancel_packet(-1, LONG_KEY), [("cancel", -1, LONG_KEY, False)], b"", "CancelServed", 2147483647, LONG_KEY)
BAD_FRAME = Session(START[0] + b"Q\0\0\0\3", [], written(START[1]), "BadFrame")
CUT = Session(CLIENT[:-1], ["start"], REPLIES, "InputEnd")
# Bytes that came with the end and were never looked at.
BEHIND = FIRST.but(client=CLIENT + b"\0\1\2")
UNKNOWN = of_steps([START, query("nosuch", [error("42P01", 'relation "nosuch" does not exist'), IDLE]), query("BEGIN", [tag("BEGIN"), TRANSACTION]), TERMINATE])


def row(name, words, given, answer, file=TABLE, file_fails="-", fails="-", write_fails="-"):
    shown = given if isinstance(given, str) else digits(given).strip()
    print("|".join((name, "replay", words, file, file_fails, shown, fails, write_fails, answer)))


def written_out(data):
    return " out hex " + data.hex() if len(data) <= 10_000 else f" out {len(data)} bytes of sum {sum(data)}"


def squeezed(data, parts):
    """Digits of these bytes, in which a part that stands so often behind itself is written once. The parts stand in their order."""
    words = []
    for count, part in parts:
        front, found, data = data.partition(count * part)
        assert found
        words += [front.hex(), f"{count}*{part.hex()}"]
    return " ".join([*words, data.hex()])


def record(name, s, **others):
    row("record: " + name, f"record f {s.pid} {s.key.hex()}", s.client, "0" + written_out(s.recording()), **others)


def verify(name, s, verdict="same", **others):
    row("verify: " + name, VERIFY, s.recording(), f"{0 if verdict == 'same' else 20} out {verdict}\\n", **others)


GOOD = [
    ("empty recording", EMPTY), ("recording of the first path", FIRST), ("COPY", COPY), ("slow query", SLOW), ("pages", PAGES),
    ("long key in 3.0", NARROWED), ("key of 256 bytes in 3.0", NARROWED_256), ("long key in 3.2", LONG),
    ("a version that isn't spoken", FATAL), ("cancel request", CANCEL), ("cancel request with keys of 256 bytes", CANCEL_LONG),
    ("bad frame", BAD_FRAME), ("first path, cut off", CUT), ("bytes behind the end", BEHIND), ("unknown relation, in a transaction", UNKNOWN),
]


def changed(data, place):
    return data[:place] + bytes([data[place] ^ 1]) + data[place + 1 :]


def verdicts():
    """The four verdicts, each at the first and at the last place."""
    for name, s in GOOD:
        verify(name, s)
    verify("a question that is answered yes", SLOW_TWICE)
    verify("cancel request that is answered yes", CANCEL.but(calls=[("cancel", 7, KEY, True)]))
    verify("cancel request with keys of 256 bytes that is answered yes", CANCEL_LONG.but(calls=[("cancel", -1, LONG_KEY, True)]))
    verify("an answer that is never asked for", SLOW.but(calls=SLOW.calls + [("ask", True)]), "calls 3")

    verify("reply byte 141 changed", FIRST.but(replies=changed(REPLIES, 141)), "replies 141")
    verify("first reply byte changed", FIRST.but(replies=changed(REPLIES, 0)), "replies 0")
    verify("last reply byte changed", FIRST.but(replies=changed(REPLIES, len(REPLIES) - 1)), f"replies {len(REPLIES) - 1}")
    verify("last reply byte missing", FIRST.but(replies=REPLIES[:-1]), f"replies {len(REPLIES) - 1}")
    verify("a reply byte more", FIRST.but(replies=REPLIES + b"\0"), f"replies {len(REPLIES)}")
    verify("no replies", FIRST.but(replies=b""), "replies 0")
    verify("replies where there are none", EMPTY.but(replies=b"Z"), "replies 0")

    verify("call taken out", FIRST.but(calls=[]), "calls 0")
    verify("a call where there is none", EMPTY.but(calls=["start"]), "calls 0")
    verify("first call changed", SLOW.but(calls=["narrow"] + SLOW.calls[1:]), "calls 0")
    verify("last call changed", SLOW.but(calls=SLOW.calls[:-1] + ["start"]), "calls 2")
    verify("last call missing", SLOW.but(calls=SLOW.calls[:-1]), "calls 2")
    verify("last call twice", FIRST.but(calls=["start", "start"]), "calls 1")
    verify("cancel request of another pid", CANCEL.but(calls=[("cancel", 8, KEY, False)]), "calls 0")
    verify("cancel request of another key", CANCEL.but(calls=[("cancel", 7, changed(KEY, 3), False)]), "calls 0")
    verify("cancel request of a longer key", CANCEL.but(calls=[("cancel", 7, KEY + b"\0", False)]), "calls 0")
    verify("narrow left out", NARROWED.but(calls=NARROWED.calls[1:]), "calls 0")

    # Two questions are asked, which are answered yes at once: the query is canceled behind the first.
    verify("first answer turned", SLOW.but(calls=["start", ("ask", True), ("ask", False)]), "calls 2")
    place = SLOW.replies.index(written([COLUMNS]))
    verify("last answer turned", SLOW.but(calls=["start", ("ask", False), ("ask", True)]), f"replies {place}")
    verify("answer of a canceled query turned", SLOW_TWICE.but(calls=["start", ("ask", False)] + SLOW_TWICE.calls[2:]), "calls 2")

    for end in ENDS[1:]:
        verify("end " + end, FIRST.but(end=end), "end")
    for end in ENDS[:1] + ENDS[2:]:
        verify("empty recording with end " + end, EMPTY.but(end=end), "end")
    verify("calls before replies", FIRST.but(calls=[], replies=b"", end="Fatal"), "calls 0")
    verify("replies before the end", FIRST.but(replies=REPLIES[:-1], end="Fatal"), f"replies {len(REPLIES) - 1}")
    verify("another pid", FIRST.but(pid=8), f"replies {REPLIES.index(written([GREETING[-2]])) + 8}")
    verify("another key", FIRST.but(key=changed(KEY, 3)), f"replies {REPLIES.index(written([GREETING[-2]])) + 12}")
    verify("client cut off", FIRST.but(client=CLIENT[:-1]), "end")
    verify("another relation file", FIRST, f"replies {REPLIES.index(b'D') + 11 + 15}", file="shifts\\t0\\tspan\\n2 years 1 mon 1 day 01:10:15\\n"
           "-00:00:00.500000\\n-1 mons 2 days 00:00:03\\n")
    # More questions than the recording tells answers and the client bytes are asked for.
    verify("questions of which none is recorded", SLOW.but(calls=["start"]), "calls 1", file="slow\\t1000\\tspan\\n1 day\\n")
    verify("questions past the recorded ones", SLOW, "calls 3", file="slow\\t1000\\tspan\\n1 day\\n")


def unread():
    """What is no recording."""
    whole = EMPTY.recording()
    assert len(whole) == 35
    for name, data in (("nothing", b""), ("first 34 bytes", whole[:-1]), ("a byte more", whole + b"\0"), ("05 as last byte", whole[:-1] + b"\5"),
                       ("a client in the place of a recording", CLIENT), ("first path, its last byte missing", FIRST.recording()[:-1]),
                       ("count of the client's bytes 2^63", whole[:14] + b"\x80" + whole[15:])):
        row("verify: " + name, VERIFY, data, BAD)
    row("verify: a file that is refused before a bad recording", VERIFY, b"", "3 err line 1: header\\n", file="shifts\\n")


def faults():
    whole = EMPTY.recording()
    row("record: the first read fails", RECORD, CLIENT, "4 err read fault\\n", fails="0")
    row("record: the read of the end fails", RECORD, CUT.client, "4 err read fault\\n", fails="1")
    row("verify: the first read fails", VERIFY, whole, "4 err read fault\\n", fails="0")
    row("verify: the read of the end fails", VERIFY, whole, "4 err read fault\\n", fails="1")
    for front in (0, 1, 34):
        told = written_out(whole[:front]) if b"\0" in whole[:front] else " out " + whole[:front].decode() if front else ""
        row(f"record: the write fails behind {front} bytes", RECORD, b"", "5" + told + " err write fault\\n", write_fails=str(front))
    row("verify: the write fails", VERIFY, whole, "5 err write fault\\n", write_fails="0")
    row("verify: the write fails behind four bytes", VERIFY, FIRST.but(calls=[]).recording(), "5 out call err write fault\\n", write_fails="4")
    for words in (RECORD, VERIFY):
        command = words.split()[0]
        row(command + ": a file that is refused", words, whole, "3 err line 2: cell\\n", file="shifts\\t0\\tspan\\n1 dai\\n")
        row(command + ": a file that can't be read", words, whole, "9 err file fault\\n", file_fails="0")
        row(command + ": a file that can't be read to its end", words, whole, "9 err file fault\\n", file_fails="1")
        row(command + ": the file is judged before the input", words, whole, "9 err file fault\\n", file_fails="0", fails="0")


def counted():
    """Calls that are one more than there are: of an input that is read by 65,536 bytes, up to a read that gives none, and of a
    recording and a verdict, which are one write."""
    for size, reads in ((65_536, 2), (65_537, 3)):
        given = f"{size}*00"
        row(f"verify: an input of {size} bytes in {reads} reads", VERIFY, given, BAD, fails=str(reads))
        row(f"verify: an input of {size} bytes whose last read fails", VERIFY, given, "4 err read fault\\n", fails=str(reads - 1))
    record("a recording in one write", FIRST, write_fails="1:0")
    verify("a verdict in one write", FIRST, write_fails="1:0")
    verify("another verdict in one write", FIRST.but(calls=[]), "calls 0", write_fails="1:0")


def long_session():
    """A client of more than 8,192 bytes, replies and a recording of more than 65,536."""
    often, (asked, replies, calls) = 800, query("shifts", SHIFTS)
    s = of_steps([START, *often * [(asked, replies, calls)], TERMINATE])
    assert len(s.client) > 8_192 and len(s.replies) > 65_536
    told = written(replies)
    row("record: a long session", RECORD, squeezed(s.client, [(often, asked)]), "0" + written_out(s.recording()))
    for name, changed_session, verdict in (
        ("a long session", s, "same"),
        ("a long session, its last reply byte changed", s.but(replies=changed(s.replies, len(s.replies) - 1)), f"replies {len(s.replies) - 1}"),
    ):
        rest = often - 1
        given = squeezed(changed_session.recording(), [(rest, asked), (rest, b"\0"), (rest, told)])
        row("verify: " + name, VERIFY, given, f"{0 if verdict == 'same' else 20} out {verdict}\\n")


def bad_words():
    for words in ("-", "record", "verify", "verify f g", "record f 7", "record f 7 01020304 5", "Record f 7 01020304", "VERIFY f", "records f 7 01020304",
                  "verify f 7 01020304", "record f", "serve f 7 01020304", "record f 0 01020304", "record f 2147483648 01020304", "record f -1 01020304",
                  "record f +7 01020304", "record f 07 01020304", "record f 7 010203", "record f 7 0102030405060", "record f 7 0102030g",
                  "record f 7 " + "00" * 257, "record f " + "9" * 30 + " 01020304"):
        row("words: " + words[:40], words, EMPTY.recording(), USAGE)
    row("words are judged before the file", "record f 0 01020304", b"", USAGE, file="\\x\\n", file_fails="0")
    digits_of = EMPTY.but(key=bytes.fromhex("abcdefAB"), pid=2147483647)
    row("greatest pid, and digits of either case", "record f 2147483647 abcdefAB", b"", "0" + written_out(digits_of.recording()))
    row("key of 256 bytes", "record f 1 " + "ff" * 256, b"", "0" + written_out(EMPTY.but(key=b"\xff" * 256, pid=1).recording()))
    row("an empty relation file", RECORD, b"", "0" + written_out(EMPTY.recording()), file="")


def print_rows():
    assert len(FIRST.recording()) == 347
    for name, s in GOOD:
        record(name, s)
    verdicts()
    unread()
    faults()
    counted()
    long_session()
    bad_words()
