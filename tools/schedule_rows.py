#!/usr/bin/env python3
"""The stored run of crates/schedule_server: usage: schedule_rows.py client | replies

`client` writes what one client sends, and `replies` what it must be answered under the pid and the key of tools/styles_rows.py: both
by the frames, queries and errors of docs/FORMATS.md and the rules of docs/CONVERSATION.md. tools/shift_plain.py says which shifts
stand, tools/styles_rows.py reads the texts of intervals, and tools/print_intervals.py prints them; nothing here is the program's own.
"""
import re
import struct
import sys

import print_intervals
import shift_plain
from read_intervals import SPACE
from styles_rows import (INTERVAL, TEXT, Refused, codes, frame, greeted, interval_of, refused, startup, string, style_of, trimmed, types,
                         value)

HOUR = 3_600_000_000
E = "\N{LATIN SMALL LETTER E WITH DIAERESIS}"
# How many arguments stand behind each key word, and what a parameter in the place of each of them is.
ARGUMENTS = {"BOOK": [TEXT, INTERVAL, INTERVAL], "CANCEL": [TEXT, INTERVAL], "SHIFTS": [], "SHIFTS OF": [TEXT], "BEGIN": [], "COMMIT": [],
             "ROLLBACK": []}
PARAMETERS = {"$1": 0, "$2": 1, "$3": 2}
COLUMNS = [("name", TEXT, -1), ("start", INTERVAL, 16), ("length", INTERVAL, 16)]
OTHER_QUERY = "a query is BOOK name start length, CANCEL name start, SHIFTS, SHIFTS OF name, BEGIN, COMMIT or ROLLBACK"
SEMICOLON = "a text with a semicolon stands in quotes"
REFUSALS = {"NotPositive": ("22023", "the length of a shift is above zero"), "Unknown": ("42704", "no shift of this name starts then"),
            "Clash": ("23P01", "the shift clashes with one that is booked")}
FAILED = "current transaction is aborted, commands ignored until end of transaction block"
LEAST = "-178956970 years -8 mons -2147483648 days -2562047788:00:54.775808"


# What the client sends: messages as a kind and its fields.

def asks(*queries):
    """Simple queries."""
    return [("Q", query) for query in queries]


def parse(query, name=""):
    return ("P", name, query)


def bind(values=(), formats=(), results=(), portal="", statement=""):
    return ("B", portal, statement, formats, values, results)


def execute(portal="", limit=0):
    return ("E", portal, limit)


STATEMENT, PORTAL, SYNC, FLUSH = ("D", "S", ""), ("D", "P", ""), ("S",), ("H",)


def extended(query, values=(), formats=(), results=()):
    """One extended query, of which all is described."""
    return [parse(query), STATEMENT, bind(values, formats, results), PORTAL, execute(), SYNC]


def cell(months, days, microseconds):
    """An interval in binary."""
    return struct.pack(">qii", microseconds, days, months)


# Bookings that clash and such that touch, lengths of zero and below, intervals in each style, and the least one.
BOOKINGS = asks(
    "SHIFTS", "BOOK ann 08:00:00 08:00:00", "BOOK ann 09:00 '1 day'", "BOOK ann 16:00:00 08:00:00", "BOOK ann 7:00 1:00",
    "BOOK ann 15:59:59.999999 00:00:00.000001", "BOOK ann 06:00:00 01:00:00.000001", "BOOK ann -1:00 '3 days'",
    "BOOK bob 09:00 '1 day'", "BOOK ANN 09:00:00 1:00", "BOOK bob '3 days' 0", "BOOK bob '3 days' '-1 days'",
    "BOOK bob '3 days' '1 mon -30 days'", "BOOK bob '1 day 08:59:59' -0:00:01", "BOOK ann 09:00 0", "BOOK bob '3 days' '-1 mons 31 days'",
    "BOOK bob '@ 5 days' P1DT2H", "BOOK bob 1-2 '1 mon 2 days 00:00:00.5'", f"BOOK old '{LEAST}' '2147483647 days'",
    "SHIFTS", "SHIFTS OF ann", "SHIFTS OF nobody",
)
# A start is the same however it is told: a month is 30 days, and a day 24 hours.
CANCELS = asks(
    "CANCEL ann 9:00", "CANCEL nobody 08:00:00", "CANCEL ann '8 hours'", "CANCEL ann 08:00:00", "BOOK ann 08:00:00 08:00:00",
    "CANCEL ann 16:00", "BOOK eve '1 mon' '1 day'", "BOOK eve '30 days 12:00:00' 1:00", "CANCEL eve '29 days 24:00:00'",
    "CANCEL eve '30 days'", "BOOK eve '1 mon' '1 day'", "CANCEL eve '30 days'", "BOOK eve '-1 days' 24:00", "BOOK eve 0 0:30",
    "CANCEL eve -24:00:00", "SHIFTS OF eve",
)
# Key words, words that stand for their own text, quoted texts, and names of each length.
WORDS = asks(
    "shifts", " Shifts ;; ", "sHIFTS\n\toF\r\x0beve\x0c", "book\tbook\n1:00 1:00", "Cancel BOOK 1:00", "cANCEL book 1:00",
    "\N{LATIN SMALL LETTER LONG S}HIFTS", "BOOK 'o''hara' '08:00' '1:00'", "SHIFTS OF 'o''hara'", "BOOK '''' 1:00 1:00",
    "SHIFTS OF ''''", "BOOK 'a'1:00'1:00'", "SHIFTS OF'a'", f"BOOK 'Zo{E} Ray; ' '-1 mons 2 days' 00:00:00.000001", "SHIFTS OF 'a;b'",
    "SHIFTS OF '$1'", "SHIFTS OF '$4';", "BOOK a$1 1:00 1:00", "SHIFTS OF a$1", "SHIFTS OF OF", f"BOOK {'n' * 63} 1:00 1:00",
    f"BOOK {'n' * 64} 1:00 1:00", f"BOOK {E * 32} 1:00 1:00", "BOOK '' soon soon", "SHIFTS",
)
# Texts that stand for no interval, quotes that aren't ended, other queries, blank ones, and parameters where none is given.
BROKEN = asks(
    "BOOK ann soon 1:00", "BOOK ann 1:00 '1 fortnight'", "BOOK ann P1X soon", "BOOK ann '@ 1' 1:00", "BOOK ann '2147483648 days' 1:00",
    "BOOK ann P2147483647Y 1:00", "BOOK ann 2147483648-0 1:00", "BOOK ann 1- 1:00", "BOOK ann P1.1.1D 1:00", "BOOK ann '' 1:00",
    "BOOK ann 1:00 '1 2 3 4'", "CANCEL ann soon", "CANCEL ann 10", "BOOK 'ann 1:00 1:00", "SHIFTS OF '''", "'", "BOOK ann 1:00 1:00'",
    "SELECT 1", "BOOK", "BOOK ann", "BOOK ann 1:00", "BOOK ann 1:00 1:00 1:00", "CANCEL", "CANCEL ann", "CANCEL ann 1:00 1:00",
    "SHIFTS FOR ann", "SHIFTS OF", "SHIFTS OF ann bob", "SHIFTS 'OF' ann", "'SHIFTS'", "BOOKS ann 1:00 1:00", "BEGIN WORK",
    "COMMIT; ROLLBACK", "ROLLBACK now", "", ";", " \t;\n; ",
    "BOOK $1 $2 $3", "BOOK ann $1 1:00", "BOOK ann 1:00 $1", "CANCEL $1 1:00", "SHIFTS OF $1", "BOOK '' $1 $2", "BOOK $2 $1 $3",
    "BOOK $1 $1 $2", "BOOK $1 $2 $2", "CANCEL $1 $3", "CANCEL ann $2", "SHIFTS OF $2", "SHIFTS $1",
)
# Words that begin with `$` and are no parameters, words with a semicolon in them, and which of two errors comes first.
ODD_WORDS = asks(
    "SHIFTS OF $4", "SHIFTS OF $0", "SHIFTS OF $x", "SHIFTS OF $", "SHIFTS OF $$", "SHIFTS OF $11", f"SHIFTS OF $1{E}", "CANCEL $01 1:00",
    "CANCEL ann $9;", "SHIFTS OF ann;COMMIT", "SHIFTS OF 'ann;COMMIT'", "SHIFTS OF ;ann", "SHIFTS OF a;b", "CANCEL ann 1:00;SHIFTS",
    "BOOK ann 1:00 1;00", "SHIFTS;SHIFTS", "SHIFTS; SHIFTS", "BEGIN;COMMIT", "SHIFTS OF ann; COMMIT", "SHIFTS OF ann'; COMMIT'",
    "SHIFTS OF $a;b", "CANCEL $1;a $9", "BOOK a;b $9 1:00", "BOOK $9 a;b 1:00", "BOOK $2 $1 $9", "BOOK $2 $1 a;b", "BOOK '' soon $9",
    "BOOK a b c d $9", "BOOK $9 a;b", "CANCEL $9", "SHIFTS $9", "LET $9", "$9", "$1", "a;b", "BOOK $9 a;b 'c",
)
# One that is kept, one that is rolled back, and such that fail: by an order, by a query that means nothing, by a length.
TRANSACTIONS = asks(
    "COMMIT", "ROLLBACK", "BEGIN", "COMMIT",
    "begin", "BOOK sue 08:00:00 01:00:00", "SHIFTS OF sue", "BOOK sue 8:30 1:00", "SHIFTS", "BOOK sue '1 day' '1 day'", "BEGIN",
    "COMMIT now", "CANCEL ann soon", " ; ", "Commit", "SHIFTS OF sue",
    "BEGIN", "BOOK sue 08:00:00 01:00:00", "SHIFTS OF sue", "BEGIN", "CANCEL sue 8:00", "BOOK sue 9:00 1:00", "SHIFTS OF sue", "commit",
    "SHIFTS OF sue",
    "BEGIN", "CANCEL sue 9:00", "BOOK sue 9:30 1:00", "SHIFTS OF sue", "Rollback", "SHIFTS OF sue",
    "BEGIN", "CANCEL sue 9:00", "CANCEL sue 9:00", "SHIFTS OF sue", "ROLLBACK", "SHIFTS OF sue",
    "BEGIN", "BOOK sue 1:00 0", "COMMIT", "BEGIN", "SELECT 1", "BEGIN", "rollback", "COMMIT",
    "BEGIN", "CANCEL sue '9 hours'", "COMMIT", "SHIFTS OF sue", "BOOK sue 9:00 1:00",
    "BEGIN", "CANCEL sue 9:00", "BOOK sue 9:00 2:00", "CANCEL sue 9:00", "BOOK sue 8:00 2:00", "COMMIT", "SHIFTS OF sue",
)
# In a transaction that failed, a text that means nothing has its own error. Any other query but COMMIT and ROLLBACK is refused before its
# arguments are read.
FAILED_ONES = asks(
    "BEGIN", "CANCEL sue 8:00", "BOOK sue 1 soon", "BOOK sue soon 1:00", "BOOK '' soon soon", f"SHIFTS OF {'n' * 64}", "CANCEL ann $1",
    "SHIFTS OF $1", "BOOK $1 $2 $3", "SHIFTS", "SHIFTS OF sue", "BEGIN", "SHIFTS OF $4", "SHIFTS OF a;b", "BOOK $2 $1 $3", "CANCEL ann",
    "SHIFTS OF 'sue", "COMMIT;ROLLBACK", "COMMIT now", ";", "COMMIT", "SHIFTS OF sue", "BEGIN", "LET", "BOOK sue soon 1:00", "ROLLBACK",
)
# Parameters and results in both formats; commands whose portal is executed again; what isn't there.
PREPARED = [
    *extended("BOOK $1 $2 $3", [b"zoe", b"1 day", b"2:00"]), *extended("book $1 $2 $3", [b"zoe", cell(0, 2, 0), cell(0, 0, HOUR)], [1]),
    *extended("BOOK $1 $2 $3", [b"zoe", b"@ 3 days", cell(0, 0, HOUR)], [0, 0, 1]),
    *extended("BOOK $1 $2 $3", [b"zoe", cell(0, 4, 0), b"PT1H"], [7, 1]), *extended("BOOK zoe $1 '1:00'", [cell(1, 0, 0) + b"more"], [1]),
    *extended("BOOK $1 5-0 $2", [b"zoe", b"1:00", b"not looked at"], [], [1, 1]),
    parse("BOOK $1 $2 $3", "book"), ("D", "S", "book"), bind([b"yves", cell(0, 1, 0), cell(0, 0, HOUR)], [0, 1, 1], statement="book"),
    PORTAL, execute(), bind([b"yves", cell(0, 2, 0), cell(0, 0, HOUR)], [1], statement="book"), execute(), SYNC,
    bind([b"yves", b"1 day", cell(1, -29, 0)], [0, 0, 1], statement="book"), execute(), SYNC, ("C", "S", "book"), SYNC,
    *extended("CANCEL $1 $2", [b"zoe", cell(0, 30, 0)], [0, 1]), *extended("CANCEL zoe '5 years'", results=[0]), *extended("SHIFTS"),
    *extended("SHIFTS OF $1", [b"zoe"], [], [1]), *extended("SHIFTS OF $1", [b"zoe"], [1], [0, 1, 0]),
    *extended("SHIFTS OF zoe", results=[1, 0, 1, 1, 1]), *extended("SHIFTS OF $1", [b"o'hara"], [], [2]),
    *extended(" begin; "), *extended("BEGIN"), *extended("Commit"), *extended("ROLLBACK"),
    parse("BOOK yan 1:00 1:00"), bind(), execute(), execute(), execute(), *asks("SHIFTS"), FLUSH, SYNC,
    parse("CANCEL $1 1:00"), bind([b"yan"]), execute("", 1), SYNC, execute(), SYNC,
    *extended(""), *extended(" ; ", [b"zoe"]), ("D", "S", "nowhere"), SYNC, ("D", "P", "nowhere"), SYNC, ("D", "x", ""), SYNC,
    bind(statement="nowhere"), SYNC, execute("nowhere"), SYNC,
]
# Nulls, values that are missing, names and intervals that are none, bookings that are refused, and too few result formats.
REFUSED_VALUES = [
    *extended("BOOK $1 $2 $3", [None, None, b"soon"]), *extended("BOOK $1 $2 $3", [b"ann", None, b"1:00"]),
    *extended("BOOK $1 $2 $3", [b"ann", b"1:00", None]), *extended("SHIFTS OF $1", [None], [], [1]),
    *extended("BOOK $1 $2 $3", [b"ann", b"1:00"]), *extended("BOOK $1 $2 $3", [b"ann"]), *extended("BOOK $1 $2 $3"),
    *extended("BOOK $1 $2 $3", [b"ann", cell(0, 0, 0)[:15], cell(0, 1, 0)], [1]), *extended("BOOK ann $1 $2", [cell(0, 9, 0), b""], [1]),
    *extended("BOOK ann $1 $2", [b"", b"1:00"]), *extended("CANCEL ann $1", [b"1 fortnight"]), *extended("CANCEL ann $1", [b"\xff"]),
    *extended("CANCEL ann $1", [b"1 day\xff"], [0]), *extended("CANCEL $1 $2", [b"", b"soon"]), *extended("SHIFTS OF $1", [b"n" * 64]),
    *extended("SHIFTS OF $1", [b"a\0b"], [1]), *extended("SHIFTS OF $1", [b"zo\xeb"]), *extended("SHIFTS OF $1", [b"\xff" * 64]),
    *extended("BOOK $1 '2 days' $2", [b"zoe", cell(0, 1, 0)], [1]), *extended("BOOK zoe $1 '1 day'", [cell(0, 2, 1)], [1]),
    *extended("BOOK ann $1 $2", [cell(0, 9, 0), cell(1, -30, 0)], [1]), *extended("CANCEL $1 $2", [b"zoe", b"2 days 1:00:00"]),
    *extended("SHIFTS", results=[1, 1]), *extended("BOOK $3 $2 $1", [b"zoe"]), *extended("SHIFTS OF 'zoe"), *extended("LET $1", [b"zoe"]),
    *extended("SHIFTS OF $4", [b"zoe"]), *extended("SHIFTS OF $0", [b"zoe"]), *extended("SHIFTS OF a;b"), *extended("SHIFTS; COMMIT"),
    *extended("begin"), *extended("CANCEL $1 $2", [b"zoe", b"soon"]), *extended("CANCEL $1 $2", [b"zoe", b"soon"]),
    *extended("BOOK $1 $2 $3", [None, b"soon"]), *extended("SHIFTS OF $1", [b"\xff"]), *extended("SHIFTS OF $1"), *extended("SHIFTS OF $4"),
    *extended("LET $1"), *extended("SHIFTS", results=[1, 1]), *extended("BEGIN"), *extended("Commit"),
]
# A portal shows what stood when it was started, whatever is booked, canceled and rolled back behind it, and in a transaction that failed
# too. Its statement may be another one by then.
PAGES = [
    parse("SHIFTS OF $1", "of"), ("D", "S", "of"), bind([b"ann"], results=[0, 1, 1], portal="pages", statement="of"), ("D", "P", "pages"),
    bind([b"ann"], portal="late", statement="of"), execute("pages", 1), parse("BOOK ann $1 $2"), bind([b"50 days", b"1:00"]), execute(),
    execute("pages", 1), parse("SHIFTS", "of"), SYNC, execute("pages", 2), execute("pages", 1), execute("pages"), execute("late", 3),
    execute("late", -1), execute("late"), SYNC,
    *asks("CANCEL ann '50 days'"), bind([b"ann"], portal="late", statement="of"), execute("late", 1), ("C", "P", "late"), ("C", "S", "of"),
    execute("late"), SYNC,
    parse("BEGIN"), bind(), execute(), parse("BOOK ann '50 days' 1:00"), bind(), execute(), parse("SHIFTS OF ann"), bind(portal="own"),
    execute("own", 2), SYNC, *asks("ROLLBACK", "SHIFTS OF ann"), execute("own", 3), execute("own"), SYNC,
    parse("BEGIN"), bind(), execute(), bind(portal="again"), parse("SHIFTS OF ann"), bind(portal="own"), execute("own", 1),
    parse("CANCEL ann soon"), bind(), execute(), execute("own"), SYNC, execute("own", 1), parse("SHIFTS"), STATEMENT, bind(), PORTAL,
    execute(), SYNC, execute("again"), SYNC, parse("COMMIT"), bind(), execute(), execute(), SYNC, execute("own", 2), execute("again"), SYNC,
    *asks("BOOK ann '50 days' 1:00"),
]
CONVERSATION = [*BOOKINGS, *CANCELS, *WORDS, *BROKEN, *ODD_WORDS, *TRANSACTIONS, *FAILED_ONES, *PREPARED, *REFUSED_VALUES, *PAGES, ("X",)]


def counted(numbers):
    """As many values as there are, behind their number."""
    return struct.pack(">h", len(numbers)) + b"".join(map(value, numbers))


def sent(kind, *fields):
    """A message's frame."""
    if kind == "B":
        portal, statement, formats, values, results = fields
        return frame("B", string(portal) + string(statement) + codes(formats) + counted(values) + codes(results))
    if kind == "E":
        return frame("E", string(fields[0]) + struct.pack(">i", fields[1]))
    if kind in "DC":
        return frame(kind, fields[0].encode() + string(fields[1]))
    return frame(kind, b"".join(map(string, fields)) + (codes([]) if kind == "P" else b""))


def client():
    yield startup()
    for message in CONVERSATION:
        yield sent(*message)


# What a query means.

def refuse(code, message):
    raise Refused(refused(code, message))


def meaning_of(query):
    """The key words of a query, and its arguments: each a text, or the place of a parameter."""
    text = trimmed(query)
    if text.count("'") % 2:
        refuse("42601", "a quote isn't ended")
    found = [(True, part[1].replace("''", "'")) if part[2] is None else (False, part[2])
             for part in re.finditer(f"'((?:[^']|'')*)'|([^{SPACE}']+)", text)]
    words = ["" if is_quoted else token.encode().upper().decode() for is_quoted, token in found]
    size = 2 if words[:2] == ["SHIFTS", "OF"] else 1
    key, behind = " ".join(words[:size]), found[size:]
    if key not in ARGUMENTS or len(behind) != len(ARGUMENTS[key]):
        refuse("42601", OTHER_QUERY)
    arguments = [token if is_quoted else argument_of(token) for is_quoted, token in behind]
    given = [one for one in arguments if isinstance(one, int)]
    if given != list(range(len(given))):
        refuse("42P02", "parameters stand in their order: $1, $2, $3")
    return key, arguments


def argument_of(word):
    """What a word stands for in the place of an argument."""
    if word in PARAMETERS:
        return PARAMETERS[word]
    if word.startswith("$"):
        refuse("42P02", f"there is no parameter {word}")
    if ";" in word:
        refuse("42601", SEMICOLON)
    return word


def types_of(statement):
    """The types of a statement's parameters."""
    key, arguments = statement
    return [kind for kind, one in zip(ARGUMENTS[key], arguments) if isinstance(one, int)]


def columns_of(statement):
    return COLUMNS if statement and statement[0].startswith("SHIFTS") else []


def format_at(formats, place):
    """The format of a value or a column: one is for all, and where there is none it is text."""
    numbers = formats * (place + 1) if len(formats) == 1 else formats
    return 1 if place < len(numbers) and numbers[place] == 1 else 0


def given(values, place):
    """The bytes of a parameter."""
    if place >= len(values):
        refuse("42P02", f"there is no parameter ${place + 1}")
    if values[place] is None:
        refuse("22004", f"there is no value for ${place + 1}")
    return values[place]


def name_asked(argument, values):
    data = given(values, argument) if isinstance(argument, int) else argument.encode()
    try:
        text = data.decode()
    except UnicodeDecodeError:
        refuse("22021", "a name is UTF-8 without zero bytes")
    if not 1 <= len(data) <= 63:
        refuse("22023", "a name has 1 to 63 bytes")
    if "\0" in text:
        refuse("22021", "a name is UTF-8 without zero bytes")
    return text


def interval_asked(argument, values, formats):
    if not isinstance(argument, int):
        return interval_of(argument)
    data = given(values, argument)
    if format_at(formats, argument) == 1:
        if len(data) < 16:
            refuse("22007", "no interval in binary: fewer than sixteen bytes")
        return struct.unpack(">qii", data[:16])[::-1]
    try:
        return interval_of(data.decode())
    except UnicodeDecodeError:
        return refuse("22007", f"no interval in {style_of(data.decode(errors='replace'))}: not UTF-8")


# How a query is answered.

def tag(text):
    return frame("C", string(text))


def description(columns, results):
    fields = [string(name) + struct.pack(">ihihih", 0, 0, kind, size, -1, format_at(results, place))
              for place, (name, kind, size) in enumerate(columns)]
    return frame("T", struct.pack(">h", len(fields)) + b"".join(fields))


def row(shift, results):
    """A shift's name, and its start and length each in the format of its column."""
    told = [cell(*one) if format_at(results, place) else print_intervals.postgres(one).encode() for place, one in enumerate(shift[1:], 1)]
    return frame("D", counted([shift[0].encode(), *told]))


class Portal:
    """A statement with its parameters; the rows that are left, once it is started, and how many were told."""

    def __init__(self, statement, formats, values, results):
        self.statement, self.formats, self.values, self.results = statement, list(formats), values, list(results)
        self.left, self.count = None, 0


class Session:
    """The one client of a schedule. Nobody else changes it, so what a transaction did can always be kept."""

    def __init__(self):
        self.shifts, self.own, self.status, self.is_dropping = [], None, "I", False
        self.statements, self.portals = {}, {}

    def answer(self, kind, *fields):
        """The replies to a message. Behind an error of an extended query all is dropped up to Sync."""
        if self.is_dropping and kind not in "SX":
            return b""
        try:
            return getattr(self, f"on_{kind}")(*fields)
        except Refused as error:
            self.status = "I" if self.status == "I" else "E"
            self.is_dropping = kind != "Q"
            return error.args[0] + (b"" if self.is_dropping else self.ready())

    def ready(self):
        return frame("Z", self.status.encode())

    # What orders do.

    def asked(self, statement, values=(), formats=()):
        """Does what a statement asks: its tag, or the shifts that it shows."""
        key, arguments = statement
        if self.status == "E" and key not in ("COMMIT", "ROLLBACK"):
            refuse("25P02", FAILED)
        reads = [name_asked(one, values) if kind == TEXT else interval_asked(one, values, formats)
                 for kind, one in zip(ARGUMENTS[key], arguments)]
        if key in ("BEGIN", "COMMIT", "ROLLBACK"):
            return self.turned(key)
        seen = self.shifts if self.own is None else self.own
        if key.startswith("SHIFTS"):
            return sorted((one for one in seen if reads in ([], [one[0]])), key=lambda one: (one[0].encode(), shift_plain.span(one[1])))
        came = shift_plain.book(seen, *reads) if key == "BOOK" else shift_plain.cancel(seen, *reads)
        if came != "Ok":
            refuse(*REFUSALS[came])
        return tag(f"{key} 1")

    def turned(self, key):
        """Begins a transaction, or ends one. One that failed is rolled back by COMMIT too."""
        if key == "BEGIN":
            self.own = list(self.shifts) if self.own is None else self.own
            self.status = "T"
            return tag("BEGIN")
        is_kept = key == "COMMIT" and self.status != "E"
        if is_kept and self.own is not None:
            self.shifts = self.own
        self.own, self.status = None, "I"
        return tag("COMMIT" if is_kept else "ROLLBACK")

    # Messages.

    def on_Q(self, query):
        if not trimmed(query):
            return frame("I") + self.ready()
        told = self.asked(meaning_of(query))
        if isinstance(told, list):
            told = description(COLUMNS, []) + b"".join(row(one, []) for one in told) + tag(f"SELECT {len(told)}")
        return told + self.ready()

    def on_P(self, name, query):
        self.statements[name] = meaning_of(query) if trimmed(query) else None
        return frame("1")

    def on_B(self, portal, statement, formats, values, results):
        if statement not in self.statements:
            refuse("26000", f'prepared statement "{statement}" does not exist')
        bound = self.statements[statement]
        if bound is None and values:
            refuse("08P01", f'bind message supplies {len(values)} parameters, but prepared statement "{statement}" requires 0')
        if 2 <= len(results) < len(columns_of(bound)):
            refuse("08P01", f"bind message has {len(results)} result formats but query has {len(columns_of(bound))} columns")
        self.portals[portal] = Portal(bound, formats, values, results)
        return frame("2")

    def on_D(self, target, name):
        if target == "S":
            if name not in self.statements:
                refuse("26000", f'prepared statement "{name}" does not exist')
            statement = self.statements[name]
            parameters, columns = types_of(statement) if statement else [], columns_of(statement)
            return types(parameters) + (description(columns, []) if parameters or columns else frame("n"))
        if target == "P":
            portal = self.portal(name)
            columns = columns_of(portal.statement)
            return description(columns, portal.results) if columns else frame("n")
        return refuse("08P01", f"invalid target type: {ord(target)}")

    def portal(self, name):
        if name not in self.portals:
            refuse("34000", f'portal "{name}" does not exist')
        return self.portals[name]

    def on_E(self, name, limit):
        portal = self.portal(name)
        if portal.statement is None:
            return frame("I")
        if portal.left is None:
            told = self.asked(portal.statement, portal.values, portal.formats)
            if portal.statement[0] in ("COMMIT", "ROLLBACK"):
                self.portals.pop("", None)
            if not isinstance(told, list):
                return told
            portal.left = told
        return self.page(portal, limit)

    def page(self, portal, limit):
        """So many rows, where as many are left, and else all of them."""
        is_full = 1 <= limit <= len(portal.left)
        size = limit if is_full else len(portal.left)
        rows, portal.left = portal.left[:size], portal.left[size:]
        portal.count += size
        return b"".join(row(one, portal.results) for one in rows) + (frame("s") if is_full else tag(f"SELECT {portal.count}"))

    def on_C(self, target, name):
        {"S": self.statements, "P": self.portals}[target].pop(name, None)
        return frame("3")

    def on_H(self):
        return b""

    def on_S(self):
        self.portals.pop("", None)
        self.is_dropping = False
        return self.ready()

    def on_X(self):
        return b""


def replies():
    yield from greeted()
    session = Session()
    for message in CONVERSATION:
        yield session.answer(*message)


if __name__ == "__main__":
    if sys.argv[1:] not in (["client"], ["replies"]):
        sys.exit(__doc__.split("\n")[0])
    for part in client() if sys.argv[1] == "client" else replies():
        sys.stdout.buffer.write(part)
