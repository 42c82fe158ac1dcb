"""The rows of the program that tells rotas, for tools/command_rows.py.

Each answer is written down here by the rules: the status, what goes to the output, and the line of errors. The texts of
rotas and clashes are those of the restatement in tools/rota_rows.py.
"""
from rota_rows import DAY, clashes, lines, read_moment, rota

SHIFTS = [(13, 1, 4215000000), (0, 0, -500000), (-1, 2, 3000000)]
TABLE = ("shifts\\t0\\tspan\\n1 year 1 mon 1 day 01:10:15\\n-00:00:00.500000\\n-1 mons 2 days 00:00:03\\n\\nslow\\t2\\tspan\\n1 day\\n\\n"
         "wide\\t0\\ta\\tb\\tc\\n1 day\\t2 days\\t3 days\\n\\nnone\\t0\\tspan\\n")
START = "2024-01-31T08:00:00"
USAGE = "2 err usage: rota_report lines FILE RELATION COLUMN START STYLE, clashes FILE RELATION COLUMN START RELATION COLUMN START\\n"

# The four styles' texts of the rota of shifts: of each step, and of the total.
STYLES = {
    "postgres": ("1 year 1 mon 1 day 01:10:15", "-00:00:00.500000", "-1 mons 2 days 00:00:03", "1 year 3 days 01:10:17.500000"),
    "postgres_verbose": ("@ 1 year 1 mon 1 day 1 hour 10 mins 15 secs", "@ 0.5 secs ago", "@ 1 mon -2 days -3 secs ago",
                         "@ 1 year 3 days 1 hour 10 mins 17.5 secs"),
    "iso_8601": ("P1Y1M1DT1H10M15S", "PT-0.500000S", "P-1M2DT3S", "P1Y3DT1H10M17.500000S"),
    "sql_standard": ("+1-1 +1 +1:10:15", "-0:00:00.500000", "-0-1 +2 +0:00:03", "+1-0 +3 +1:10:17.500000"),
}
MOMENTS = ("2024-01-31 08:00:00", "2025-03-01 09:10:15", "2025-03-01 09:10:14.500000", "2025-02-03 09:10:17.500000")


def shifts_in(style):
    labels = ("0", "1", "2", "end")
    return "0 out " + "".join("%s\\t%s\\t%s\\n" % row for row in zip(labels, MOMENTS, STYLES[style]))


def told(start, steps):
    return "0 out " + lines(read_moment(start), steps)


def compared(start, steps, other, others):
    text = "".join("%d %d\\n" % pair for pair in clashes(rota(read_moment(start), steps), rota(read_moment(other), others)))
    return "0 out " + text if text else "0"


def written(pieces):
    """What is told of so many bytes."""
    text = "".join(pieces).replace("\\t", "\t").replace("\\n", "\n").encode()
    return "%d bytes of sum %d" % (len(text), sum(text)) if len(text) > 10_000 else "".join(pieces)


def writes_of(text):
    """The pieces that a text is written in: it is sent whenever 65,536 bytes or more wait behind a line, and at its end."""
    pieces, waits = [], ""
    for line in text.replace("\\n", "\\n\0").split("\0"):
        if len(waits) - waits.count("\\") >= 65_536:
            pieces, waits = pieces + [waits], ""
        waits += line
    return pieces + [waits]


def counted():
    """Reports and clashes of one write, and of several, of which one that fails is made, or is one more than there are. And files
    of one read and of two, before that of the end."""
    small = "lines f shifts span %s postgres" % START
    yield "a report in one write", small, TABLE, "-", "1:0", shifts_in("postgres")
    twice = "clashes f shifts span %s shifts span %s" % (START, START)
    steps = [SHIFTS[0], SHIFTS[1], SHIFTS[2]]
    yield "clashes in one write", twice, TABLE, "-", "1:0", compared(START, steps, START, steps)
    # 5,000 days; and 100 days back and forth, each of which clashes with each
    days, back = [(0, 1, 0)] * 5_000, [(0, 1, 0), (0, -1, 0)] * 100
    for name, words, file, text in (
        ("a long report", "lines f r a %s postgres" % START, "r\\t0\\ta\\n*5000 1 day\\n", told(START, days)),
        ("many clashes", "clashes f r a %s r a %s" % (START, START), "r\\t0\\ta\\n*100 1 day\\n-1 days\\n", compared(START, back, START, back)),
    ):
        pieces = writes_of(text.removeprefix("0 out "))
        assert len(pieces) > 1
        yield "%s in %d writes" % (name, len(pieces)), words, file, "-", "%d:0" % len(pieces), "0 out " + written(pieces)
        for number in range(1, len(pieces)):
            yield "%s whose write %d fails" % (name, number), words, file, "-", "%d:0" % number, \
                "5 out %s err write fault\\n" % written(pieces[:number])
    for size, reads in ((65_536, 2), (65_537, 3)):
        file = "r\\t0\\ta\\n1 day\\n*%d \\n" % (size - len("r 0 a\n1 day\n"))
        order = "lines f r a %s postgres" % START
        yield "a file of %d bytes in %d reads" % (size, reads), order, file, str(reads), "-", told(START, [(0, 1, 0)])
        yield "a file of %d bytes whose last read fails" % size, order, file, str(reads - 1), "-", "9 err file fault\\n"


def rows():
    """Of each row its name, the words, the relation file, the read of it that fails, the write that fails, and the answer."""
    order = "lines f shifts span %s " % START
    for name, style in (("rota of shifts", "postgres"), ("rota of shifts, verbose", "postgres_verbose"), ("rota of shifts, ISO", "iso_8601"),
                        ("rota of shifts, SQL", "sql_standard")):
        yield name, order + style, TABLE, "-", "-", shifts_in(style)
    yield "style in capitals between spaces", order + "~ISO_8601~", TABLE, "-", "-", shifts_in("iso_8601")
    yield "rota of an empty relation", "lines f none span %s iso_8601" % START, TABLE, "-", "-", "0 out end\\t2024-01-31 08:00:00\\tPT0S\\n"
    yield "second column", "lines f wide b %s postgres" % START, TABLE, "-", "-", told(START, [(0, 2, 0)])
    yield "column that stands twice", "lines f r a %s postgres" % START, "r\\t0\\ta\\ta\\n1 day\\t2 days\\n", "-", "-", told(START, [(0, 1, 0)])
    yield "name with spaces", "lines f r a~column %s postgres" % START, "r\\t0\\ta column\\n1 day\\n", "-", "-", told(START, [(0, 1, 0)])
    yield "lines end with a return", "lines f r a %s postgres" % START, "r\\t0\\ta\\r\\n1 day\\r\\n", "-", "-", told(START, [(0, 1, 0)])
    yield "leap days", "lines f r a 2000-02-28T00:00:00 postgres", "r\\t0\\ta\\n1 day\\n1 year\\n-1 mons\\n", "-", "-", \
        told("2000-02-28T00:00:00", [(0, 1, 0), (12, 0, 0), (-1, 0, 0)])

    for name, words in (
        ("no word", "-"), ("the command alone", "lines"), ("unknown command", "line f shifts span %s postgres" % START),
        ("command in capitals", "LINES f shifts span %s postgres" % START), ("no style", "lines f shifts span %s" % START),
        ("a word more", order + "postgres more"), ("unknown style", order + "roman"), ("start that isn't a date", "lines f shifts span today postgres"),
        ("start on 30 February", "lines f shifts span 2024-02-30T00:00:00 postgres"), ("start with a space", "lines f shifts span 2024-01-31~08:00:00 postgres"),
        ("start at 24 hours", "lines f shifts span 2024-01-31T24:00:00 postgres"), ("start with a fraction", order[:-1] + ".5 postgres"),
        ("clashes of one rota", "clashes f shifts span %s" % START), ("clashes with a style", "clashes f shifts span %s none span %s postgres" % (START, START)),
        ("second start that isn't a date", "clashes f shifts span %s none span today" % START), ("words of the server", "serve f 7 01020304"),
    ):
        yield name, words, TABLE, "-", "-", USAGE
    yield "words are judged before the file", "lines f shifts span today postgres", "\\x\\n", "0", "-", USAGE

    for name, file, reason in (
        ("text", "shifts\\t0\\tspan\\n\\x\\n", "line 2: text"), ("header", "shifts\\n", "line 1: header"), ("name", "a b\\t0\\n", "line 1: name"),
        ("column", "a\\t0\\t" + "c" * 64 + "\\n", "line 1: column"), ("width", "shifts\\t0\\tspan\\n1 day\\t2 days\\n", "line 2: width"),
        ("cell", "shifts\\t0\\tspan\\n1 day\\n1 dai\\n", "line 3: cell"),
    ):
        yield "file is refused: " + name, order + "postgres", file, "-", "-", "3 err %s\\n" % reason
    yield "file of too many bytes", order + "postgres", "*67108865 \\n", "-", "-", "3 err file too long\\n"
    yield "file is judged before the column", "lines f nosuch span %s postgres" % START, "shifts\\n", "-", "-", "3 err line 1: header\\n"
    yield "file that can't be read", order + "postgres", TABLE, "0", "-", "9 err file fault\\n"
    yield "file that can't be read to its end", order + "postgres", TABLE, "1", "-", "9 err file fault\\n"
    yield "write that fails", order + "postgres", TABLE, "-", "0", "5 err write fault\\n"
    yield "write that fails behind ten bytes", order + "postgres", TABLE, "-", "10", "5 out 0\\t2024-01- err write fault\\n"
    yield "clashes whose write fails", "clashes f shifts span %s shifts span %s" % (START, START), TABLE, "-", "1", "5 out 0 err write fault\\n"

    missing = "20 err no such column\\n"
    yield "no such relation", "lines f nosuch span %s postgres" % START, TABLE, "-", "-", missing
    yield "relation in capitals", "lines f SHIFTS span %s postgres" % START, TABLE, "-", "-", missing
    yield "no such column", "lines f shifts nosuch %s postgres" % START, TABLE, "-", "-", missing
    yield "no relation in an empty file", order + "postgres", "", "-", "-", missing
    yield "second relation is missing", "clashes f shifts span %s nosuch span %s" % (START, START), TABLE, "-", "-", missing
    yield "second column is missing", "clashes f shifts span %s none nosuch %s" % (START, START), TABLE, "-", "-", missing
    last = "9999-12-31T23:59:59"
    yield "columns are judged before rotas", "clashes f shifts span %s none nosuch %s" % (last, START), TABLE, "-", "-", missing

    refused = "21 err out of range\\n"
    for name, step in (("months", "1 mon"), ("days", "1 day"), ("time", "00:00:01")):
        yield "out of range by its " + name, "lines f r a %s postgres" % last, "r\\t0\\ta\\n%s\\n" % step, "-", "-", refused
    yield "out of range at the second step", "lines f r a 0001-01-01T00:00:00 postgres", "r\\t0\\ta\\n1 day\\n-2 days\\n", "-", "-", refused
    yield "second rota out of range", "clashes f none span %s shifts span %s" % (START, last), TABLE, "-", "-", refused
    # 9,900 years back and as many on, some 312 * 10 ** 15 microseconds: with the 30th step the total leaves its type
    hours = 9900 // 400 * 146097 * 24 + 109572 * 24 + 6000
    step = (-118800, 0, hours * 3600 * 1000000)
    text = "-9900 years %d:00:00\\n" % hours
    yield "total of 29 steps", "lines f r a 9950-01-01T00:00:00 postgres", "r\\t0\\ta\\n" + 29 * text, "-", "-", told("9950-01-01T00:00:00", 29 * [step])
    yield "total overflow", "lines f r a 9950-01-01T00:00:00 postgres", "r\\t0\\ta\\n" + 30 * text, "-", "-", "22 err total overflow\\n"
    yield "no total of clashes", "clashes f r a 9950-01-01T00:00:00 r a 9950-01-01T00:00:00", "r\\t0\\ta\\n" + 30 * text, "-", "-", \
        compared("9950-01-01T00:00:00", 30 * [step], "9950-01-01T00:00:00", 30 * [step])
    yield "rota is judged before the total", "lines f r a 9950-01-01T00:00:00 postgres", "r\\t0\\ta\\n" + 30 * text + "9000 years\\n", "-", "-", refused

    two = "two\\t0\\ta\\n1 day\\n1 day\\n\\none\\t0\\ta\\tb\\n1 day\\t-1 days\\n"
    for name, start in (("clash with the second", "2024-01-02T12:00:00"), ("clash with both", "2024-01-01T12:00:00"), ("no clash", "2024-01-03T00:00:00")):
        yield name, "clashes f two a 2024-01-01T00:00:00 one a " + start, two, "-", "-", \
            compared("2024-01-01T00:00:00", [(0, 1, 0), (0, 1, 0)], start, [(0, 1, 0)])
    yield "no shift back in time", "clashes f two a 2024-01-01T00:00:00 one b 2024-01-02T12:00:00", two, "-", "-", "0"
    yield "clashes with an empty relation", "clashes f shifts span %s none span %s" % (START, START), TABLE, "-", "-", "0"


def print_rows():
    assert DAY == 86_400_000_000
    for name, words, file, file_fails, write_fails, answer in [*rows(), *counted()]:
        print("|".join((name, "rota", words, file, file_fails, "", "-", write_fails, answer)))
