#!/usr/bin/python3 -BP
"""What pg8000 does over styles_server: styles_pg8000.py HOST PORT. A line tells each thing that was tried, and what came."""
import datetime
import sys

import pg8000


def connected():
    return pg8000.connect(host=sys.argv[1], port=int(sys.argv[2]), user="demo", database="demo")


def tell(what, action, autocommit=True):
    """Prints what an action over a new connection gives, or its error: the code and the text."""
    connection = connected()
    connection.autocommit = autocommit
    try:
        came = action(connection)
    except pg8000.Error as why:
        came = f"{type(why).__name__} " + " ".join(" ".join(map(str, why.args[:4])).split())
    print(f"{what}: {came}", flush=True)


def query(connection, text, *given):
    cursor = connection.cursor()
    cursor.execute(text, given)
    return ["|".join(row) for row in cursor.fetchall()]


def behind_an_error(connection):
    try:
        query(connection, "%s", "1 fortnight")
    except pg8000.Error:
        return query(connection, "%s", "36:00")


def by_turns(connection):
    other = connected()
    other.autocommit = True
    return [query(each, text) for each, text in ((connection, "1 day"), (other, "2 days"), (connection, "3 days"))]


tell("query", lambda c: query(c, "1 mon -2 days"))
tell("a text as the parameter", lambda c: query(c, "%s", "36:00"))
tell("a timedelta as the parameter", lambda c: query(c, "%s", datetime.timedelta(days=3, hours=1)))
tell("an Interval as the parameter", lambda c: query(c, "%s", pg8000.Interval(6700000, -3, 14)))
tell("null", lambda c: query(c, "%s", None))
tell("one statement, thrice", lambda c: [query(c, "%s", text) for text in ("1 day", "2 days", "3 days")])
tell("no interval", lambda c: query(c, "1 fortnight"))
tell("a parameter that is no interval", lambda c: query(c, "%s", "1 fortnight"))
tell("bytes as the parameter", lambda c: query(c, "%s", b"36:00"))
tell("a query behind an error", behind_an_error)
tell("two connections by turns", by_turns)
tell("without autocommit", lambda c: query(c, "1 day"), autocommit=False)
