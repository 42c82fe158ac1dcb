#!/usr/bin/python3 -BP
"""What pgbouncer does before styles_server: styles_pgbouncer.py HOST PORT. A line tells each thing that was tried, and what came."""
import os
import sys

sys.path.insert(0, os.path.dirname(os.path.abspath(__file__)))
from libpq_calls import BINARY, Connection, TEXT
from pooler import Pooler, WANTED


def tell_of(mode, **words):
    pooler = Pooler(*sys.argv[1:3], "demo", pool_mode=mode, default_pool_size=2, **words)

    def tell(what, came):
        print(f"{mode} pool, {what}: {came}", flush=True)

    client, other = Connection("127.0.0.1", pooler.port), Connection("127.0.0.1", pooler.port)
    tell("query", client.query("1 mon -2 days"))
    tell("parameter as text", client.extended("$1", [b"36:00"], [TEXT]))
    tell("parameter in binary", client.extended("$1", [bytes(16)], [BINARY]))
    tell("null", client.extended("$1", [None]))
    tell("no interval", client.query("1 fortnight"))
    tell("a parameter that is no interval", client.extended("$1", [b"1 fortnight"], [TEXT]))
    tell("pipeline", client.pipeline(["1 day", "1 fortnight", "2 days"]))
    tell("prepare", client.prepare("given", "$1"))
    tell("prepared, twice", [client.prepared("given", [text]) for text in (b"1 day", b"2 days")])
    tell("two clients by turns", [each.query(text) for each, text in ((client, "1 day"), (other, "2 days"), (client, "3 days"))])
    tell("BEGIN", client.query("BEGIN"))
    tell("connections to the server", pooler.connections())
    client.close()
    other.close()
    pooler.end()


def tell_without(name):
    pooler = Pooler(*sys.argv[1:3], "demo", **{word: value for word, value in WANTED.items() if word != name})
    for text in ("1 day", "2 days", "3 days"):
        client = Connection("127.0.0.1", pooler.port)
        print(f"without {name}:", client.query(text), flush=True)
        client.close()
    print(f"without {name}, connections to the server:", pooler.connections())
    pooler.end()


for pool_mode in ("session", "transaction"):
    tell_of(pool_mode, **WANTED)
for setting in ("server_reset_query", "server_check_query"):
    tell_without(setting)
