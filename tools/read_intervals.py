#!/usr/bin/env python3
"""What an interval text stands for in each of PostgreSQL's four styles: the rules of docs/FORMATS.md restated in plain
Python, as a judge of the reader's answers.

Reads rows of the program text_rows from standard input, and writes the lines that it must print for those that begin with `read|`.
"""

import re
import sys

SPACE = "\t\n\x0b\x0c\r "
UNITS = ["year", "month", "day", "hour", "minute", "second"]
FIELD_BITS = {"year": 31, "month": 31, "day": 31, "hour": 63, "minute": 63, "second": 63}
WORDS = {
    "year": "year", "years": "year", "mon": "month", "mons": "month", "months": "month", "day": "day", "days": "day",
    "hour": "hour", "hours": "hour", "minute": "minute", "minutes": "minute", "second": "second", "seconds": "second",
}
VERBOSE_WORDS = dict(WORDS, min="minute", mins="minute", sec="second", secs="second")


class Refused(Exception):
    """The one refusal of a text."""


SHAPE = "Invalid interval: broken shape"


def rounded(numerator, denominator):
    """The nearest whole number, half away from zero, of a fraction that is not negative."""
    return (2 * numerator + denominator) // (2 * denominator)


def worth(unit, negative, whole, fraction, places):
    """Months, days and microseconds."""
    sign = -1 if negative else 1
    scale = 10 ** places
    part = lambda parts: sign * rounded(parts * fraction, scale)
    whole = sign * whole
    return {
        "year": lambda: (12 * whole + part(12), 0, 0),
        "month": lambda: (whole, part(30), 0),
        "day": lambda: (0, whole, 3_600_000_000 * part(24)),
        "hour": lambda: (0, 0, 3_600_000_000 * whole + 60_000_000 * part(60)),
        "minute": lambda: (0, 0, 60_000_000 * whole + 1_000_000 * part(60)),
        "second": lambda: (0, 0, 1_000_000 * whole + part(1_000_000)),
    }[unit]()


def decimal(text):
    """A decimal, or the text of its refusal."""
    if text == "":
        return "Failed to parse float: empty"
    negative = text[0] == "-"
    unsigned = text[1:] if text[0] in "+-" else text
    parts = unsigned.split(".")
    if len(parts) > 2 or not re.fullmatch("[0-9]+", "".join(parts)):
        return "Failed to parse float: malformed"
    fraction = parts[1] if len(parts) == 2 else ""
    if len(fraction) > 18:
        return "Failed to parse float: too many digits"
    return (negative, int(parts[0] or "0"), int(fraction or "0"), len(fraction))


def total(pairs, out_of_range):
    sums = [0, 0, 0]
    for unit, number in pairs:
        if isinstance(number, str):
            raise Refused(number)
        negative, whole, fraction, places = number
        signed = -whole if negative else whole
        bits = FIELD_BITS[unit]
        if not -(2 ** bits) <= signed < 2 ** bits:
            raise Refused(out_of_range)
        sums = [a + b for a, b in zip(sums, worth(unit, negative, whole, fraction, places))]
    if not -(2 ** 31) <= sums[0] < 2 ** 31:
        raise Refused("Invalid year/month interval: overflow")
    if not -(2 ** 31) <= sums[1] < 2 ** 31:
        raise Refused("Invalid interval: overflow")
    if not -(2 ** 63) <= sums[2] < 2 ** 63:
        raise Refused("Invalid time interval: overflow")
    return tuple(sums)


def tokens(text):
    return [token for token in re.split("[%s]+" % SPACE, text) if token]


def words_pairs(text, words):
    pairs = []
    rest = tokens(text)
    while rest:
        token = rest.pop(0)
        time = re.fullmatch(r"([+-]?)([0-9]+):([0-9]+):([0-9]+)(?:\.([0-9]*))?", token)
        joined = re.fullmatch(r"([0-9+.-]+)([A-Za-z]*)", token)
        if ":" in token:
            if not time:
                raise Refused(SHAPE)
            negative = time[1] == "-"
            fraction = (time[5] or "")[:6]
            for unit, whole, rest_of in (("hour", time[2], ""), ("minute", time[3], ""), ("second", time[4], fraction)):
                number = (negative, int(whole), int(rest_of or "0"), len(rest_of))
                if number[1] or number[2]:
                    pairs.append((unit, number))
            continue
        if not joined:
            raise Refused(SHAPE)
        word = joined[2]
        if not word:
            if not rest:
                raise Refused(SHAPE)
            word = rest.pop(0)
        if word not in words:
            raise Refused(SHAPE)
        pairs.append((words[word], decimal(joined[1])))
    units = [unit for unit, _ in pairs]
    if len(set(units)) != len(units):
        raise Refused(SHAPE)
    return pairs


def verbose_pairs(text):
    text = text.strip(SPACE)
    if not text.startswith("@"):
        raise Refused(SHAPE)
    text = text[1:].lstrip(SPACE)
    ago = text.endswith("ago")
    if ago:
        text = text[:-3].rstrip(SPACE)
    if text == "0":
        return []
    pairs = words_pairs(text, VERBOSE_WORDS)
    if ago:
        pairs = [(u, n if isinstance(n, str) else (not n[0],) + n[1:]) for u, n in pairs]
    return pairs


def iso_pairs(text):
    if len(text) < 2 or text[0] != "P":
        raise Refused(SHAPE)
    halves = text[1:].split("T")
    if len(halves) > 2:
        raise Refused(SHAPE)
    pairs = []
    for half, units in zip(halves, ({"Y": "year", "M": "month", "D": "day", "H": "hour"},
                                    {"Y": "year", "M": "minute", "D": "day", "H": "hour", "S": "second"})):
        if not re.fullmatch("(?:-?[0-9.]*[YMDHS])*", half):
            raise Refused(SHAPE)
        for number, letter in re.findall("(-?[0-9.]*)([YMDHS])", half):
            if letter not in units:
                raise Refused(SHAPE)
            pairs.append((units[letter], decimal(number)))
    return pairs


def field(text, negative):
    if text == "":
        return "Failed to parse integer: empty"
    if not re.fullmatch("[0-9]+", text):
        return "Failed to parse integer: invalid digit"
    return (negative, int(text), 0, 0)


def unsigned(text):
    return (text[:1] == "-", text[1:] if text[:1] in ("+", "-") else text)


def no_sign(text):
    if text[:1] in ("+", "-"):
        raise Refused(SHAPE)
    return text


def year_month(text):
    negative, rest = unsigned(text)
    if "-" not in rest:
        raise Refused(SHAPE)
    years, months = rest.split("-", 1)
    return [("year", field(no_sign(years), negative)), ("month", field(no_sign(months), negative))]


def day(text):
    negative, rest = unsigned(text)
    return [("day", field(no_sign(rest), negative))]


def clock(text, negative):
    _, rest = unsigned(text)
    parts = rest.split(":")
    if len(parts) not in (2, 3):
        raise Refused(SHAPE)
    pairs = [("hour", field(no_sign(parts[0]), negative)), ("minute", field(no_sign(parts[1]), negative))]
    if len(parts) == 3:
        seconds = parts[2].split(".")
        if len(seconds) > 2 or (len(seconds) == 2 and len(seconds[1].encode()) > 6):
            raise Refused(SHAPE)
        pairs.append(("second", field(no_sign(seconds[0]), negative)))
        if len(seconds) == 2:
            good = re.fullmatch("[0-9]*", seconds[1])
            number = (negative, 0, int(seconds[1] or "0"), len(seconds[1])) if good else "Failed to parse integer: invalid digit"
            pairs.append(("second", number))
    return pairs


def sql_pairs(text):
    parts = tokens(text)
    if len(parts) == 1:
        if parts[0] == "0":
            return []
        return clock(parts[0], parts[0][0] == "-") if ":" in parts[0] else year_month(parts[0])
    if len(parts) == 2:
        signed = parts[1] if parts[1][0] in "+-" else parts[0]
        return day(parts[0]) + clock(parts[1], signed[0] == "-")
    if len(parts) == 3:
        return year_month(parts[0]) + day(parts[1]) + clock(parts[2], parts[2][0] == "-")
    raise Refused(SHAPE)


def read(style, text):
    """The interval, or the text of the refusal."""
    try:
        if len(text.encode()) > 4096:
            raise Refused("Invalid interval: text too long")
        pairs = {
            "postgres": lambda: words_pairs(text, WORDS),
            "verbose": lambda: verbose_pairs(text),
            "iso": lambda: iso_pairs(text),
            "sql": lambda: sql_pairs(text),
        }[style]()
        kind = "integer" if style == "sql" else "float"
        return "%d %d %d" % total(pairs, "Failed to parse %s: out of range" % kind)
    except Refused as refusal:
        return str(refusal)


if __name__ == "__main__":
    for line in sys.stdin:
        if line.startswith("read|"):
            _, style, count, text = line.rstrip("\n").split("|", 3)
            print(line.rstrip("\n"), "=>", read(style, text * int(count)))
