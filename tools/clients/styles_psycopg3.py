#!/usr/bin/python3 -BP
"""What psycopg 3 does over styles_server: styles_psycopg3.py HOST PORT. A line tells each thing that was tried, and what came."""
import datetime
import sys

import psycopg

ADDRESS = f"host={sys.argv[1]} port={sys.argv[2]} user=demo dbname=demo connect_timeout=60"


def tell(what, action):
    """Prints what an action gives, or its error: the code and the text."""
    try:
        came = action()
    except psycopg.Error as why:
        came = " ".join(f"{type(why).__name__} {why.sqlstate} {why}".split())
    print(f"{what}: {came}", flush=True)


def query(text, given=None, **words):
    connection = psycopg.connect(ADDRESS, autocommit=True)
    return ["|".join(row) for row in connection.execute(text, given, **words)]


tell("query", lambda: query("1 mon -2 days"))
tell("prepared query", lambda: query("1 mon -2 days", prepare=True))
tell("a text as the parameter", lambda: query("%s", ["36:00"]))
tell("a timedelta as the parameter", lambda: query("%s", [datetime.timedelta(days=3, hours=1)]))
tell("no interval", lambda: query("1 fortnight"))
tell("a parameter that is no interval", lambda: query("%s", ["1 fortnight"]))
