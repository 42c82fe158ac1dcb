#!/usr/bin/python3 -BP
"""What psycopg2 does over styles_server: styles_psycopg2.py HOST PORT. A line tells each thing that was tried, and what came."""
import datetime
import sys

import psycopg2
from psycopg2.extensions import AsIs

ADDRESS = f"host={sys.argv[1]} port={sys.argv[2]} user=demo dbname=demo connect_timeout=60 replication=false"


def tell(what, action, autocommit=True):
    """Prints what an action over a new connection gives, or its error: the code and the text."""
    connection = psycopg2.connect(ADDRESS)
    connection.autocommit = autocommit
    try:
        came = action(connection)
    except psycopg2.Error as why:
        came = " ".join(f"{type(why).__name__} {why.pgcode} {why}".split())
    print(f"{what}: {came}", flush=True)
    connection.close()


def query(connection, text, given=None):
    cursor = connection.cursor()
    cursor.execute(text, given)
    return ["|".join(row) for row in cursor.fetchall()]


def columns(connection):
    cursor = connection.cursor()
    cursor.execute("1 day")
    return [(it.name, it.type_code) for it in cursor.description]


def behind_an_error(connection):
    try:
        query(connection, "1 fortnight")
    except psycopg2.Error:
        return query(connection, "1 day")


def by_turns(connection):
    other = psycopg2.connect(ADDRESS)
    other.autocommit = True
    return [query(each, text) for each, text in ((connection, "1 day"), (other, "2 days"), (connection, "3 days"))]


tell("query", lambda c: query(c, "1 mon -2 days"))
tell("query in iso_8601", lambda c: query(c, "P1Y2M-3DT4H5M6.7S"))
tell("columns", columns)
tell("AsIs as the parameter", lambda c: query(c, "%s", [AsIs("36:00")]))
tell("a text as the parameter, which is sent in quotes", lambda c: query(c, "%s", ["36:00"]))
tell("a timedelta as the parameter", lambda c: query(c, "%s", [datetime.timedelta(days=3, hours=1)]))
tell("no interval", lambda c: query(c, "1 fortnight"))
tell("a query behind an error", behind_an_error)
tell("two connections by turns", by_turns)
tell("without autocommit", lambda c: query(c, "1 day"), autocommit=False)
