#!/usr/bin/python3 -BP
"""What psycopg 3 does over the server: psycopg3.py HOST PORT. A line tells each thing that was tried, and what came."""
import sys
import threading

import psycopg
from psycopg.types.string import TextLoader

ADDRESS = f"host={sys.argv[1]} port={sys.argv[2]} user=demo dbname=rosters connect_timeout=60"


def tell(what, action):
    """Prints what an action gives, or its error: the code and the beginning of the text."""
    try:
        came = action()
    except (psycopg.Error, NotImplementedError) as why:
        came = " ".join(f"{type(why).__name__} {getattr(why, 'sqlstate', '')} {why}".split())[:100]
    print(f"{what}: {came}", flush=True)


def connected(**words):
    return psycopg.connect(ADDRESS, autocommit=True, **words)


def texts(rows):
    return [" ".join(map(str, row)) for row in rows]


def query(text, **words):
    return texts(connected().execute(text, binary=True, **words))


def pipeline():
    with connected() as connection, connection.pipeline():
        cursors = [connection.execute(text, binary=True) for text in ("shifts", "corrections")]
        return [len(cursor.fetchall()) for cursor in cursors]


def copied():
    with connected().cursor().copy("COPY leave TO STDOUT") as copy:
        return b"".join(copy)


def cancel():
    connection = connected()
    threading.Timer(1, connection.cancel).start()
    return texts(connection.execute("slow"))


def loaded(**words):
    connection = connected(**words)
    connection.adapters.register_loader("interval", TextLoader)
    return texts(connection.execute("corrections"))


def transaction(end):
    connection = psycopg.connect(ADDRESS)
    connection.execute("unstaffed")
    return end(connection)


def prepared(count, threshold):
    """Asks so many texts, each of which is prepared as it comes where the threshold is 0, and gives the tag of the last one."""
    connection = connected(prepare_threshold=threshold)
    return [connection.execute("unstaffed" + " " * i).statusmessage for i in range(count)][-1]


tell("query", lambda: query("shifts"))
tell("intervals of cursor(binary=True)", lambda: [repr(row[0]) for row in connected().cursor(binary=True).execute("corrections")])
tell("intervals as text", lambda: texts(connected().execute("corrections")))
tell("with TextLoader", loaded)
tell("with TextLoader, IntervalStyle in options", lambda: loaded(options="-c IntervalStyle=iso_8601"))
tell("unknown relation", lambda: query("nosuch"))
tell("prepared query", lambda: query("contracts", prepare=True))
tell("pipeline", pipeline)
tell("stream", lambda: texts(connected().cursor(binary=True).stream("shifts", binary=True)))
tell("copy", copied)
tell("cancel", cancel)
tell("commit", lambda: transaction(psycopg.Connection.commit))
tell("rollback", lambda: transaction(psycopg.Connection.rollback))
tell("named cursor", lambda: psycopg.connect(ADDRESS).cursor("page").execute("shifts").fetchall())
tell("100 prepared texts", lambda: prepared(100, 0))
tell("101 prepared texts", lambda: prepared(101, 0))
tell("101 texts, prepare_threshold=None", lambda: prepared(101, None))
