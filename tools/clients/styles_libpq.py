#!/usr/bin/python3 -BP
"""What PostgreSQL's client library does over styles_server: styles_libpq.py HOST PORT. A line tells each thing that was tried, and what
came."""
import os
import struct
import sys

sys.path.insert(0, os.path.dirname(os.path.abspath(__file__)))
from libpq_calls import BINARY, Connection, TEXT

INTERVAL = 1186
# An hour, three days and fourteen months.
BYTES = struct.pack(">qii", 3600000000, 3, 14)
staying, client = Connection(*sys.argv[1:3]), Connection(*sys.argv[1:3])


def tell(what, came):
    print(f"{what}: {came}", flush=True)


tell("query", client.query("1 mon -2 days"))
tell("query in iso_8601", client.query("P1Y2M-3DT4H5M6.7S"))
tell("query in sql_standard", client.query("+1-2 -3 +4:05:06.7"))
tell("blank query", client.query(" ; "))
tell("two queries in one", client.query("1 day; 2 days"))
tell("no interval", client.query("1 fortnight"))
tell("extended query", client.extended("@ 1 day 2 hours ago"))
tell("extended query, rows in binary", client.extended("1 day", results=BINARY))
tell("parameter as text", client.extended("$1", [b"36:00"], [TEXT]))
tell("parameter of type interval", client.extended("$1", [b"P1W"], [TEXT], types=[INTERVAL]))
tell("parameter in binary", client.extended("$1", [BYTES], [BINARY]))
tell("null", client.extended("$1", [None]))
tell("parameter that is no interval", client.extended("$1", [b"soon"]))
tell("no parameter", client.extended("$1"))
tell("prepare", client.prepare("given", "$1"))
tell("describe", client.described("given"))
tell("prepared, thrice", [client.prepared("given", [value]) for value in (b"1 day", b"2 days", b"x")])
tell("prepare what is no interval", client.prepare("bad", "1 fortnight"))
tell("pipeline", client.pipeline(["1 day", "x", "2 days"]))
tell("pipeline behind it", client.pipeline(["1 day", "2 days"]))
tell("cancel between queries", client.cancel())
tell("query behind it", client.query("1 day"))
client.close()
tell("another client, which was connected all the while", staying.query("2 days"))
staying.close()
