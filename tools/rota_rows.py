#!/usr/bin/env python3
"""The rows of rotas, for tools/word_rows.py: questions, and the answers by a plain restatement of the rules.

The restatement counts days by Python's own proleptic Gregorian calendar (datetime.date), adds months by the month's
length, and finds clashes by looking at all pairs. The answers under GIVEN come from the rules themselves, written down by
hand, and are compared with the restatement.
"""
import calendar
import datetime
import random
import sys

DAY = 86_400_000_000
FIRST, LAST = -719_162, 2_932_896
EPOCH = datetime.date(1970, 1, 1).toordinal()


def date_of(day):
    return datetime.date.fromordinal(day + EPOCH)


def print_moment(moment):
    day, micro = moment
    date = date_of(day)
    seconds, rest = divmod(micro, 1_000_000)
    text = "%04d-%02d-%02d %02d:%02d:%02d" % (date.year, date.month, date.day, seconds // 3600, seconds // 60 % 60, seconds % 60)
    return text + (".%06d" % rest if rest else "")


def read_moment(text):
    form = "0000-00-00T00:00:00"
    if len(text) != 19 or any((not b.isascii() or not b.isdigit()) if f == "0" else b != f for f, b in zip(form, text)):
        return "shape"
    year, month, day, hour, minute, second = (int(text[a:b]) for a, b in ((0, 4), (5, 7), (8, 10), (11, 13), (14, 16), (17, 19)))
    if hour > 23 or minute > 59 or second > 59 or year < 1 or not 1 <= month <= 12:
        return "field"
    if not 1 <= day <= calendar.monthrange(year, month)[1]:
        return "field"
    return datetime.date(year, month, day).toordinal() - EPOCH, ((hour * 60 + minute) * 60 + second) * 1_000_000


def add(moment, step):
    (day, micro), (months, days, micros) = moment, step
    date = date_of(day)
    year, month = divmod(12 * date.year + date.month - 1 + months, 12)
    if not 1 <= year <= 9999:
        return "months"
    date = datetime.date(year, month + 1, min(date.day, calendar.monthrange(year, month + 1)[1]))
    day = date.toordinal() - EPOCH + days
    if not FIRST <= day <= LAST:
        return "days"
    day, micro = divmod(day * DAY + micro + micros, DAY)
    return (day, micro) if FIRST <= day <= LAST else "time"


def rota(start, steps):
    moments = [start]
    for place, step in enumerate(steps):
        later = add(moments[-1], step)
        if isinstance(later, str):
            return "%d %s" % (place, later)
        moments.append(later)
    return moments


def total(steps):
    sums = [0, 0, 0]
    for place, step in enumerate(steps):
        sums = [a + b for a, b in zip(sums, step)]
        if not all(-(2 ** (bits - 1)) <= n < 2 ** (bits - 1) for n, bits in zip(sums, (32, 32, 64))):
            return str(place)
    return tuple(sums)


def clashes(first, second):
    def spans(moments):
        at = [day * DAY + micro for day, micro in moments]
        return list(zip(at, at[1:]))
    a, b = spans(first), spans(second)
    return [(i, j) for i, (s, e) in enumerate(a) for j, (t, f) in enumerate(b) if s < e and t < f and max(s, t) < min(e, f)]


def postgres(step):
    """An interval as PostgreSQL prints it in the style `postgres`."""
    months, days, micros = step
    years, months = int(months / 12), months - 12 * int(months / 12)
    parts = []
    for number, word in ((years, "year"), (months, "mon"), (days, "day")):
        if number:
            parts.append("%d %s%s" % (number, word, "" if number == 1 else "s"))
    if micros or not parts:
        seconds, rest = divmod(abs(micros), 1_000_000)
        clock = "%s%02d:%02d:%02d" % ("-" if micros < 0 else "", seconds // 3600, seconds // 60 % 60, seconds % 60)
        parts.append(clock + (".%06d" % rest if rest else ""))
    return " ".join(parts)


def lines(start, steps):
    moments = rota(start, steps)
    rows = ["%d\\t%s\\t%s\\n" % (i, print_moment(m), postgres(s)) for i, (m, s) in enumerate(zip(moments, steps))]
    return "".join(rows) + "end\\t%s\\t%s\\n" % (print_moment(moments[-1]), postgres(total(steps)))


# What the rules say of these, in so many words.
GIVEN = {
    "rota of shifts": "0\\t2024-01-31 08:00:00\\t1 year 1 mon 1 day 01:10:15\\n1\\t2025-03-01 09:10:15\\t-00:00:00.500000\\n"
                      "2\\t2025-03-01 09:10:14.500000\\t-1 mons 2 days 00:00:03\\n"
                      "end\\t2025-02-03 09:10:17.500000\\t1 year 3 days 01:10:17.500000\\n",
    "end of the rota by time": "0 time", "end of the rota by days": "0 days", "end of the rota by months": "0 months",
    "total over the months": "1", "clash with the second": "1 0\\n", "clash with both": "0 0\\n1 0\\n",
}


def step_text(steps):
    return ",".join("%d %d %d" % step for step in steps) or "-"


def answer(kind, given):
    parts = given.split("|")
    steps = lambda text: [] if text == "-" else [tuple(map(int, part.split(" "))) for part in text.split(",")]
    if kind == "read":
        moment = read_moment(given)
        return moment if isinstance(moment, str) else "%d %d %s" % (moment + (print_moment(moment),))
    if kind == "add":
        later = add(read_moment(parts[0]), steps(parts[1])[0])
        return later if isinstance(later, str) else print_moment(later)
    if kind == "rota":
        moments = rota(read_moment(parts[0]), steps(parts[1]))
        return moments if isinstance(moments, str) else ",".join(map(print_moment, moments))
    if kind == "total":
        sums = total(steps(given))
        return sums if isinstance(sums, str) else "%d %d %d" % sums
    if kind == "lines":
        return lines(read_moment(parts[0]), steps(parts[2]))
    pairs = clashes(rota(read_moment(parts[0]), steps(parts[1])), rota(read_moment(parts[2]), steps(parts[3])))
    return "".join("%d %d\\n" % pair for pair in pairs)


def fixed():
    shifts = [(13, 1, 4215000000), (0, 0, -500000), (-1, 2, 3000000)]
    yield "rota of shifts", "lines", "2024-01-31T08:00:00|postgres|" + step_text(shifts)
    yield "rota without steps", "lines", "2024-01-31T08:00:00|postgres|-"
    last, first = "9999-12-31T23:59:59", "0001-01-01T00:00:00"
    yield "end of the rota by time", "rota", last + "|0 0 1000000"
    yield "end of the rota by days", "rota", last + "|0 1 0"
    yield "end of the rota by months", "rota", last + "|1 0 0"
    yield "last microsecond", "rota", last + "|0 0 999999,0 0 1"
    yield "before the first by time", "rota", first + "|0 0 -1"
    yield "before the first by days", "rota", first + "|0 -1 0"
    yield "before the first by months", "rota", first + "|-1 0 0"
    yield "third step refused", "rota", last + "|0 -1 0,0 1 0,0 1 0"
    yield "months before days, both too many", "add", last + "|2147483647 2147483647 0"
    yield "total over the months", "total", "2147483647 0 0,1 0 0"
    yield "total over the days", "total", "0 2147483647 0,0 1 0"
    yield "total over the microseconds", "total", "0 0 9223372036854775807,0 0 1"
    yield "total under the microseconds", "total", "0 0 -9223372036854775808,0 0 -1"
    yield "total that comes back", "total", "2147483647 0 0,-1 0 0,1 0 0"
    yield "total of none", "total", "-"
    yield "clash with the second", "clashes", "2024-01-01T00:00:00|0 1 0,0 1 0|2024-01-02T12:00:00|0 1 0"
    yield "clash with both", "clashes", "2024-01-01T00:00:00|0 1 0,0 1 0|2024-01-01T12:00:00|0 1 0"
    yield "shared end is no clash", "clashes", "2024-01-01T00:00:00|0 1 0|2024-01-02T00:00:00|0 1 0"
    yield "common start", "clashes", "2024-01-01T00:00:00|0 1 0|2024-01-01T00:00:00|0 0 1"
    yield "empty shift clashes with none", "clashes", "2024-01-01T12:00:00|0 0 0|2024-01-01T00:00:00|0 1 0"
    yield "shift back in time is empty", "clashes", "2024-01-02T00:00:00|0 -1 0,0 2 0|2024-01-01T00:00:00|0 1 0,0 1 0"
    yield "one within another", "clashes", "2024-01-01T00:00:00|0 9 0|2024-01-02T00:00:00|0 1 0,0 1 0,0 9 0"
    yield "rota without shifts", "clashes", "2024-01-01T00:00:00|-|2024-01-01T00:00:00|0 1 0"
    for name, start, step in (
        ("month end to February", "2023-01-31T08:00:00", "1 0 0"), ("month end to leap February", "2024-01-31T08:00:00", "1 0 0"),
        ("month end back to February", "2024-03-31T08:00:00", "-1 0 0"), ("month end back to 1900", "1900-03-31T00:00:00", "-1 0 0"),
        ("month end back to 2000", "2000-03-31T00:00:00", "-1 0 0"), ("leap day a year on", "2024-02-29T00:00:00", "12 0 0"),
        ("leap day back to 1900", "2000-02-29T00:00:00", "-1200 0 0"), ("leap day four years on", "2000-02-29T00:00:00", "48 0 0"),
        ("no leap day in 1900", "1900-02-28T12:00:00", "0 1 0"), ("leap day of 2000", "2000-02-28T12:00:00", "0 1 0"),
        ("months, then days", "2024-01-31T00:00:00", "1 1 0"), ("months back, then days", "2024-03-31T00:00:00", "-1 1 0"),
        ("time over the day's end", "2024-02-28T23:59:59", "0 0 1000000"), ("time before the day", "2024-03-01T00:00:00", "0 0 -1"),
        ("most months", first, "119987 0 0"), ("a month more", first, "119988 0 0"), ("most months back", last, "-119987 0 0"),
        ("a month more back", last, "-119988 0 0"), ("most days", first, "0 3652058 0"), ("a day more", first, "0 3652059 0"),
        ("most days back", last, "0 -3652058 0"), ("a day more back", last, "0 -3652059 0"),
        ("most microseconds", first, "0 0 9223372036854775807"), ("fewest microseconds", last, "0 0 -9223372036854775808"),
        ("fewest of all", last, "-2147483648 -2147483648 -9223372036854775808"), ("fewest days", last, "0 -2147483648 0"),
        ("microseconds alone", "1969-12-31T23:59:59", "0 0 999999"), ("across 1970", "1969-12-31T23:59:59", "0 0 1000001"),
        ("days back over months on", last, "-1 31 0"), ("out by months, though days lead back", last, "1 -31 0"),
    ):
        yield name, "add", "%s|%s" % (start, step)
    texts = ["0001-01-01T00:00:00", last, "2024-02-29T12:34:56", "1900-02-28T00:00:00", "2000-02-29T23:59:59", "1970-01-01T00:00:00",
             "1969-12-31T23:59:59", "0000-01-01T00:00:00", "2023-02-29T00:00:00", "1900-02-29T00:00:00", "2024-00-01T00:00:00",
             "2024-13-01T00:00:00", "2024-01-00T00:00:00", "2024-01-32T00:00:00", "2024-04-31T00:00:00", "2024-01-01T24:00:00",
             "2024-01-01T00:60:00", "2024-01-01T00:00:60", "2024-01-01 00:00:00", "2024-01-01t00:00:00", "2024-01-01T00:00:0",
             "2024-01-01T00:00:000", "+024-01-01T00:00:00", "2024-1--01T00:00:00", "2024/01/01T00:00:00", "2024-01-01T00.00.00",
             "2024-01-01T00:00:0a", "", "2024-01-01T00:00:00 ", "\u0662024-01-01T00:00:00", "99999-12-31T23:59:59"]
    for text in texts:
        yield "read " + (text or "nothing"), "read", text


def drawn():
    draw = random.Random(2024)
    moment = lambda: print_moment((draw.randint(FIRST, LAST), draw.randrange(86400) * 1_000_000)).replace(" ", "T")
    for i in range(120):
        step = (draw.randint(-24000, 24000), draw.randint(-40000, 40000), draw.randint(-10 ** 15, 10 ** 15))
        yield "drawn sum %d" % i, "add", "%s|%d %d %d" % ((moment(),) + step)
    for i in range(60):
        base = datetime.date(2024, 1, 1).toordinal() - EPOCH
        rotas = []
        for _ in range(2):
            start = print_moment((base + draw.randint(0, 5), draw.randrange(24) * 3_600_000_000)).replace(" ", "T")
            rotas.append(start + "|" + step_text([(0, draw.randint(-2, 2), draw.randint(-12, 12) * 3_600_000_000)
                                                  for _ in range(draw.randint(0, 8))]))
        yield "drawn clashes %d" % i, "clashes", "|".join(rotas)


def print_rows():
    print("# ---- rotas")
    for name, kind, given in list(fixed()) + list(drawn()):
        told = answer(kind, given)
        if GIVEN.get(name, told) != told:
            sys.exit("%s: the restatement says %s" % (name, told))
        print("|".join((name, kind, given, told)))
