#!/usr/bin/env python3
"""A plain table of shifts: a booking is compared with each shift that stands. It tries the rule by which the table decides
(the last shift of the name that starts before the end of the new one) on random bookings, and prints what the tests of
crates/shift_table expect."""
import random

DAY = 86_400_000_000


def span(interval):
    months, days, microseconds = interval
    return (months * 30 + days) * DAY + microseconds


def clashes(table, name, start, length):
    begin, end = span(start), span(start) + span(length)
    return any(n == name and begin < span(s) + span(l) and span(s) < end for n, s, l in table)


def book(table, name, start, length):
    if span(length) <= 0:
        return "NotPositive"
    if clashes(table, name, start, length):
        return "Clash"
    table.append((name, start, length))
    return "Ok"


def find(table, name, start):
    return next((s for s in table if s[0] == name and span(s[1]) == span(start)), None)


def cancel(table, name, start, length=None):
    """Cancels this shift; without a length the one of this name and start, however long."""
    found = find(table, name, start)
    if not found or length and span(length) != span(found[2]):
        return "Unknown"
    table.remove(found)
    return "Ok"


def decided_by_last(table, name, start, length):
    begin, end = span(start), span(start) + span(length)
    before = [(n.encode(), span(s), span(s) + span(l)) for n, s, l in table if (n.encode(), span(s)) < (name.encode(), end)]
    return bool(before) and max(before)[0] == name.encode() and begin < max(before)[2]


def try_rule(rounds):
    rng = random.Random(1)
    table = []
    for _ in range(rounds):
        name = rng.choice("abc")
        start = (rng.randint(-1, 1), rng.randint(-40, 40), rng.randint(-DAY, DAY))
        length = (0, rng.randint(-1, 3), rng.randint(-DAY, DAY))
        if span(length) > 0:
            assert decided_by_last(table, name, start, length) == clashes(table, name, start, length)
        book(table, name, start, length)
        if rng.random() < 0.4 and table:
            cancel(table, *rng.choice(table)[:2])
    return len(table)


if __name__ == "__main__":
    hour = 3_600_000_000
    table = []
    print(book(table, "ann", (0, 0, 8 * hour), (0, 0, 8 * hour)))
    print(book(table, "ann", (0, 0, 9 * hour), (0, 1, 0)))
    print(book(table, "ann", (0, 0, 16 * hour), (0, 0, 8 * hour)))
    print(book(table, "bob", (0, 0, 9 * hour), (0, 1, 0)))
    print(book(table, "bob", (0, 1, 0), (0, 0, 0)))
    print(len(table), sum(1 for s in table if s[0] == "ann"))
    table = []
    print(book(table, "ann", (1, 0, 0), (0, 1, 0)), find(table, "ann", (0, 30, 0)))
    print(cancel(table, "ann", (0, 30, 0), (0, 2, 0)), cancel(table, "ann", (0, 30, 0), (0, 0, 24 * hour)), len(table))
    print(find(table, "ann", (0, 30, 0)), cancel(table, "ann", (0, 30, 0), (0, 1, 0)))
    print(span((-1, 30, 5)))
    print(try_rule(20_000) > 0)
