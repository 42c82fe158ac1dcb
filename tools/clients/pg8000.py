#!/usr/bin/python3 -BP
"""What pg8000 does over the server: pg8000.py HOST PORT. A line tells each thing that was tried, and what came."""
import io
import sys

import pg8000


def tell(what, action):
    """Prints what an action gives, or its error: the code and the beginning of the text."""
    try:
        came = action()
    except pg8000.Error as why:
        came = " ".join(" ".join(map(str, why.args)).split())[:100]
    print(f"{what}: {came}", flush=True)


def connected(autocommit=True):
    connection = pg8000.connect(host=sys.argv[1], port=int(sys.argv[2]), user="demo", database="rosters")
    connection.autocommit = autocommit
    return connection


def rows(*texts, autocommit=True):
    """The rows of the last of these queries, on one connection."""
    cursor = connected(autocommit).cursor()
    for text in texts[:-1]:
        cursor.execute(text)
    cursor.execute(texts[-1])
    return [" ".join(map(str, row)) for row in cursor.fetchall()]


def commands():
    connection = connected()
    cursor = connection.cursor()
    for text in ("BEGIN", "shifts", "COMMIT"):
        cursor.execute(text)
    return "done"


def copied():
    target = io.BytesIO()
    connected().cursor().execute("COPY leave TO STDOUT", stream=target)
    return target.getvalue()


tell("query", lambda: rows("shifts"))
tell("intervals", lambda: rows("corrections"))
tell("unknown relation", lambda: rows("nosuch"))
tell("two queries", lambda: rows("unstaffed", "leave"))
tell("BEGIN and COMMIT as queries", commands)
tell("without autocommit", lambda: rows("shifts", autocommit=False))
tell("COPY", copied)
tell("a call to cancel", lambda: [name for name in dir(connected()) if "cancel" in name.lower()])
