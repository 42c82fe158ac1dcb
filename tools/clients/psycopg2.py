#!/usr/bin/python3 -BP
"""What psycopg2 does over the server: psycopg2.py HOST PORT. A line tells each thing that was tried, and what came."""
import io
import sys
import threading

import psycopg2

PLAIN = f"host={sys.argv[1]} port={sys.argv[2]} user=demo dbname=rosters connect_timeout=60"
ADDRESS = PLAIN + " replication=false"


def tell(what, action):
    """Prints what an action gives, or its error: the code and the beginning of the text."""
    try:
        came = action()
    except psycopg2.Error as why:
        came = f"{why.pgcode} {' '.join(str(why).split())[:70]}"
    print(f"{what}: {came}", flush=True)


def connected(address=ADDRESS, autocommit=True):
    connection = psycopg2.connect(address)
    connection.autocommit = autocommit
    return connection


def rows(text, connection=None, **words):
    """The rows of a query, on a new connection without one."""
    cursor = (connection or connected()).cursor(**words)
    cursor.execute(text)
    return [" ".join(map(str, row)) for row in cursor.fetchall()]


def intervals():
    cursor = connected().cursor()
    cursor.execute("corrections")
    return [repr(row[0]) for row in cursor.fetchall()]


def commit():
    connection = connected(autocommit=False)
    before = rows("unstaffed", connection)
    connection.commit()
    return before, rows("unstaffed", connection)


def rollback():
    connection = connected(autocommit=False)
    rows("unstaffed", connection)
    connection.rollback()


def copied(call):
    target = io.StringIO()
    call(connected().cursor(), target)
    return target.getvalue()


def cancel():
    connection = connected()
    threading.Timer(1, connection.cancel).start()
    return rows("slow", connection)


tell("without replication=false", lambda: rows("shifts", psycopg2.connect(PLAIN)))
tell("query", lambda: rows("shifts"))
tell("intervals", intervals)
tell("unknown relation", lambda: rows("nosuch"))
tell("transaction and commit", commit)
tell("copy_expert", lambda: repr(copied(lambda cursor, target: cursor.copy_expert("COPY leave TO STDOUT", target))))
tell("cancel", cancel)
tell("named cursor", lambda: rows("shifts", connected(autocommit=False), name="page"))
tell("rollback", rollback)
tell("copy_to", lambda: repr(copied(lambda cursor, target: cursor.copy_to(target, "leave"))))
tell("IntervalStyle in options", lambda: rows("corrections", connected(ADDRESS + " options='-c IntervalStyle=iso_8601'")))
