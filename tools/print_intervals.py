#!/usr/bin/env python3
"""Prints intervals in the four styles, by a plain restatement of the rules of docs/FORMATS.md.

It shares nothing with the program: the texts that crates/conversation_rows/stdin expects of cells are these.
Usage: print_intervals.py [MONTHS DAYS MICROSECONDS]; without an interval those of the rows are printed.
"""

import sys

ROWS = [
    (13, 1, 4215000000),
    (0, 0, -500000),
    (-1, 2, 3000000),
    (0, 1, 0),
    (0, 2, 0),
    (0, 3, 0),
    (2147483647, 2147483647, 9223372036854775807),
    (-2147483648, -2147483648, -9223372036854775808),
]


def split(number, unit):
    """The quotient and the rest of a division that is truncated toward zero."""
    quotient = abs(number) // unit
    if number < 0:
        quotient = -quotient
    return quotient, number - quotient * unit


def normal_form(interval):
    months, days, microseconds = interval
    years, months = split(months, 12)
    hours, microseconds = split(microseconds, 3600000000)
    minutes, microseconds = split(microseconds, 60000000)
    seconds, microseconds = split(microseconds, 1000000)
    return years, months, days, hours, minutes, seconds, microseconds


def fraction(microseconds):
    return "." + "%06d" % abs(microseconds) if microseconds else ""


def postgres(interval):
    years, months, days, hours, minutes, seconds, microseconds = normal_form(interval)
    parts = []
    for number, word in [(years, "year"), (months, "mon"), (days, "day")]:
        if number:
            parts.append("%d %s" % (number, word if number == 1 else word + "s"))
    if interval[2]:
        sign = "-" if interval[2] < 0 else ""
        clock = "%02d:%02d:%02d" % (abs(hours), abs(minutes), abs(seconds))
        parts.append(sign + clock + fraction(microseconds))
    return " ".join(parts) or "00:00:00"


def seconds_text(seconds, microseconds):
    """Seconds as one decimal without trailing zeros."""
    total = seconds * 1000000 + microseconds
    sign = "-" if total < 0 else ""
    whole, rest = divmod(abs(total), 1000000)
    return sign + str(whole) + (".%06d" % rest).rstrip("0").rstrip(".")


def postgres_verbose(interval):
    if not any(interval):
        return "@ 0"
    years, months, days, hours, minutes, seconds, microseconds = normal_form(interval)
    total = seconds * 1000000 + microseconds
    parts = [(years, "year"), (months, "mon"), (days, "day"), (hours, "hour"), (minutes, "min"), (total, "sec")]
    parts = [part for part in parts if part[0]]
    ago = parts[0][0] < 0
    text = "@"
    for number, word in parts:
        number = -number if ago else number
        printed = seconds_text(0, number) if word == "sec" else str(number)
        text += " " + printed + " " + word + ("" if printed == "1" else "s")
    return text + (" ago" if ago else "")


def iso_8601(interval):
    if not any(interval):
        return "PT0S"
    years, months, days, hours, minutes, seconds, microseconds = normal_form(interval)
    text = "P"
    for number, letter in [(years, "Y"), (months, "M"), (days, "D")]:
        text += "%d%s" % (number, letter) if number else ""
    if interval[2]:
        text += "T"
        for number, letter in [(hours, "H"), (minutes, "M")]:
            text += "%d%s" % (number, letter) if number else ""
        if seconds or microseconds:
            sign = "-" if interval[2] < 0 else ""
            text += sign + str(abs(seconds)) + fraction(microseconds) + "S"
    return text


def sql_standard(interval):
    if not any(interval):
        return "0"
    years, months, days, hours, minutes, seconds, microseconds = normal_form(interval)
    pair = "%d-%d" % (abs(years), abs(months))
    clock = "%d:%02d:%02d" % (abs(hours), abs(minutes), abs(seconds)) + fraction(microseconds)
    if not days and not interval[2]:
        return ("-" if interval[0] < 0 else "") + pair
    if not interval[0] and not (min(days, interval[2]) < 0 < max(days, interval[2])):
        sign = "-" if min(days, interval[2]) < 0 else ""
        return sign + ("%d " % abs(days) if days else "") + clock
    signs = ["-" if number < 0 else "+" for number in interval]
    return " ".join([signs[0] + pair, signs[1] + str(abs(days)), signs[2] + clock])


def main():
    words = [int(word) for word in sys.argv[1:]]
    for interval in [tuple(words)] if words else ROWS:
        print("%d %d %d" % interval)
        for style in (postgres, postgres_verbose, iso_8601, sql_standard):
            print("  %s: %s" % (style.__name__, style(interval)))


if __name__ == "__main__":
    main()
