"""The rows of cursor commands, for tools/word_rows.py: queries with the commands that they are, and replies with what commands
make of them.

Both rules stand here once more, over a query's words and over replies as pairs of a type and a body.
"""
import re
import struct


def command_of(query):
    text = query.encode().strip(b"\t\n\v\f\r ;")
    words = [w.decode() for w in re.split(rb"[\t-\r ]+", text) if w]
    keys = [w.upper() if w.isascii() else w for w in words]
    if len(words) == 5 and (keys[0], keys[2], keys[3]) == ("DECLARE", "CURSOR", "FOR"):
        return ("declare", words[1], words[4])
    if len(words) == 4 and (keys[0], keys[2]) == ("FETCH", "FROM"):
        if keys[1] == "ALL":
            return ("fetch", "0", words[3])
        if re.fullmatch("[1-9][0-9]*", words[1], re.ASCII) and int(words[1]) <= 2147483647:
            return ("fetch", words[1], words[3])
    if len(words) == 2 and keys[0] == "CLOSE":
        return ("close", words[1])
    return None


def shown(query):
    """A query as a row writes it."""
    for byte, letter in zip("\t\n\v\f\r", "tnvfr"):
        query = query.replace(byte, "\\" + letter)
    return re.sub(r"\A | \Z", lambda m: "\\s", query)


def frame(kind, body=b""):
    return (kind, body)


def tag(text):
    return frame(b"C", text.encode() + b"\0")


def error(code, severity="ERROR"):
    fields = [(b"S", severity), (b"V", severity), (b"C", code), (b"M", "refused")]
    return frame(b"E", b"".join(k + v.encode() + b"\0" for k, v in fields) + b"\0")


def written(frames):
    return b"".join(kind + struct.pack(">i", 4 + len(body)) + body for kind, body in frames)


def replies_of(command, frames):
    if any(kind == b"E" for kind, _ in frames):
        return [f for f in frames if f[0] in (b"T", b"E", b"Z")]
    ready = [f for f in frames if f[0] == b"Z"]
    if command[0] == "declare":
        return [tag("DECLARE CURSOR")] + ready
    if command[0] == "close":
        return [tag("CLOSE CURSOR")] + ready
    rows = sum(kind == b"D" for kind, _ in frames)
    out = []
    for kind, body in frames:
        if kind == b"s" or (kind == b"C" and body.startswith(b"SELECT ")):
            out.append(tag(f"FETCH {rows}"))
        elif kind != b"n":
            out.append((kind, body))
    return out


def read(name, query):
    command = command_of(query)
    answer = " ".join(command) if command else "none"
    print(f"{name} | command | {shown(query)} | {answer}")


def replies(name, query, frames):
    answer = written(replies_of(command_of(query), frames)).hex()
    print(f"{name} | replies | {shown(query)} | {written(frames).hex()} | {answer}")


IDLE, TRANSACTION, BROKEN = (frame(b"Z", s) for s in (b"I", b"T", b"E"))
PARSED, BOUND, CLOSED, SUSPENDED, NO_DATA, EMPTY = (frame(k) for k in (b"1", b"2", b"3", b"s", b"n", b"I"))
COLUMNS = frame(b"T", struct.pack(">h", 1) + b"span\0" + struct.pack(">ihihih", 0, 0, 1186, 16, -1, 0))


def row(text):
    return frame(b"D", struct.pack(">hi", 1, len(text)) + text.encode())


YEAR, HALF, MONTH = row("1 year 1 mon 1 day 01:10:15"), row("-00:00:00.500000"), row("-1 mons 2 days 00:00:03")


def print_rows():
    print("\n# ---- cursor life and cursor refusals")
    for query in ["DECLARE c CURSOR FOR shifts", "fetch 2 from c;", "FETCH ALL FROM c", "CLOSE c", "FETCH 1 FROM nosuch",
                  "FETCH 0 FROM c", "DECLARE c CURSOR FOR nosuch", "FETCH 1 FROM c"]:
        read(query, query)

    print("\n# ---- limits")
    for limit in ["1", "9", "10", "2147483647", "2147483648", "4294967297", "99999999999999999999", "01", "007", "00", "+1", "-1",
                  "1.0", "1e1", "0x1", "1_0", "1;", "a", "all", "All", "aLL", "ALLE", "AL", "\uff11", "\u0661"]:
        read(f"limit {limit}", f"FETCH {limit} FROM c")

    print("\n# ---- key words")
    for query in ["declare c cursor for r", "DeClArE c CuRsOr FoR r", "DECLARED c CURSOR FOR r", "DECLARE c CURSORS FOR r",
                  "DECLARE c CURSOR FROM r", "fEtCh 1 fRoM c", "FETCH 1 IN c", "FETCHED 1 FROM c", "FETCH 1 FOR c", "cLoSe c",
                  "CLOSED c", "CLO\u017fE c", "CLOSE\u00a0c", "MOVE 1 FROM c"]:
        read(query.replace("\u00a0", " no-break space "), query)

    print("\n# ---- words")
    for query in ["", ";", "CLOSE", "CLOSE c d", "FETCH", "FETCH 1", "FETCH 1 FROM", "FETCH FROM c", "FETCH 1 c", "FETCH 1 FROM c d",
                  "FETCH FORWARD 1 FROM c", "FETCH NEXT FROM c", "DECLARE", "DECLARE c", "DECLARE c CURSOR", "DECLARE c CURSOR FOR",
                  "DECLARE c CURSOR FOR r s", "DECLARE CURSOR FOR r", "DECLARE c NO SCROLL CURSOR WITH HOLD FOR shifts",
                  "DECLARE c CURSOR WITH HOLD FOR shifts", "shifts", "BEGIN", "COPY shifts TO STDOUT"]:
        read(query or "nothing", query)

    print("\n# ---- names")
    for query in ["DECLARE BEGIN CURSOR FOR COMMIT", "DECLARE C CURSOR FOR Shifts", "CLOSE CURSOR", "CLOSE close", "FETCH 1 FROM FROM",
                  "FETCH ALL FROM all", "DECLARE for CURSOR FOR for", "CLOSE \"c\"", "CLOSE c;d", "CLOSE ;c", "CLOSE caf\u00e9",
                  "CLOSE \u4e16\u754c", "CLOSE \U0001f600", "DECLARE c CURSOR FOR shifts;;"]:
        read(query, query)

    print("\n# ---- whitespace and semicolons")
    for name, query in [("front and end", " \t\n\v\f\r;; CLOSE c ; \r\f\v\n\t;"), ("each between words", "FETCH\t1\nFROM\vc"),
                        ("others between words", "DECLARE\fc\rCURSOR \t FOR\n\nr"), ("semicolons alone inside", "CLOSE ; c"),
                        ("two commands", "CLOSE c; CLOSE d"), ("a next line character", "CLOSE\u0085c")]:
        read(name, query)

    print("\n# ---- replies to DECLARE")
    declare = "DECLARE c CURSOR FOR shifts"
    replies("declared", declare, [PARSED, BOUND, CLOSED, IDLE])
    replies("declared in a transaction", declare, [PARSED, BOUND, CLOSED, TRANSACTION])
    replies("relation unknown", declare, [error("42P01"), IDLE])
    replies("relation unknown in a transaction", declare, [error("42P01"), BROKEN])
    replies("refused in Bind", declare, [PARSED, error("42P01"), IDLE])

    print("\n# ---- replies to FETCH")
    replies("two rows", "fetch 2 from c;", [COLUMNS, YEAR, HALF, SUSPENDED, IDLE])
    replies("the last row", "FETCH ALL FROM c", [COLUMNS, MONTH, tag("SELECT 3"), IDLE])
    replies("no row is left", "FETCH ALL FROM c", [COLUMNS, tag("SELECT 3"), IDLE])
    replies("no row at all", "FETCH 1 FROM c", [COLUMNS, tag("SELECT 0"), IDLE])
    replies("ten rows", "FETCH 10 FROM c", [COLUMNS] + [HALF] * 10 + [SUSPENDED, TRANSACTION])
    replies("three hundred rows", "FETCH ALL FROM c", [COLUMNS] + [HALF] * 300 + [tag("SELECT 300"), IDLE])
    replies("a long row", "FETCH 1 FROM c", [COLUMNS, row("x" * 1000), SUSPENDED, IDLE])
    replies("of BEGIN", "FETCH 1 FROM c", [NO_DATA, tag("BEGIN"), TRANSACTION])
    replies("of COMMIT", "FETCH 1 FROM c", [NO_DATA, tag("COMMIT"), IDLE])
    replies("of an empty portal", "FETCH 1 FROM c", [NO_DATA, EMPTY, IDLE])
    replies("a tag of another command", "FETCH 1 FROM c", [COLUMNS, HALF, tag("INSERT 0 1"), IDLE])
    replies("a tag that is SELECT alone", "FETCH 1 FROM c", [COLUMNS, HALF, tag("SELECT"), IDLE])
    replies("a tag that begins as a word", "FETCH 1 FROM c", [COLUMNS, HALF, tag("SELECTED 1"), IDLE])
    replies("a tag in small letters", "FETCH 1 FROM c", [COLUMNS, HALF, tag("select 1"), IDLE])
    replies("a row that reads as a tag", "FETCH 1 FROM c", [COLUMNS, frame(b"D", b"SELECT 1\0"), SUSPENDED, IDLE])
    replies("portal unknown", "FETCH 1 FROM nosuch", [error("34000"), IDLE])
    replies("canceled", "FETCH ALL FROM c", [COLUMNS, error("57014"), IDLE])
    replies("an error behind rows", "FETCH ALL FROM c", [COLUMNS, YEAR, HALF, error("22023"), BROKEN])
    replies("a fatal error", "FETCH ALL FROM c", [COLUMNS, error("57P01", "FATAL")])
    replies("stopped at a question", "FETCH ALL FROM c", [COLUMNS])

    print("\n# ---- replies to CLOSE")
    replies("closed", "CLOSE c", [CLOSED, IDLE])
    replies("closed in a transaction", "CLOSE c", [CLOSED, TRANSACTION])
