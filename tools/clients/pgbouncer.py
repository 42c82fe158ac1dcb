#!/usr/bin/python3 -BP
"""What pgbouncer does before the server: pgbouncer.py HOST PORT. A line tells each thing that was tried, and what came."""
import os
import signal
import sys
import time

sys.path.insert(0, os.path.dirname(os.path.abspath(__file__)))
from pooler import Pooler, WANTED


def said(process):
    return " ".join(process.communicate()[0].split())


def tell_of(mode):
    pooler = Pooler(*sys.argv[1:3], "rosters", pool_mode=mode, **WANTED)
    print(f"{mode} pool:", [said(pooler.psql("BEGIN", text, "COMMIT")) for text in ("corrections", "contracts", "nosuch")])
    print(f"{mode} pool, connections to the server:", pooler.connections())
    slow = pooler.psql("\\warn begun", "slow")
    slow.stdout.readline()
    time.sleep(1)
    slow.send_signal(signal.SIGINT)
    print(f"{mode} pool, Ctrl-C:", said(slow), said(pooler.psql("corrections")))
    print(f"{mode} pool, IntervalStyle:", pooler.styled())
    pooler.end()


def tell_without(name):
    pooler = Pooler(*sys.argv[1:3], "rosters", **{word: value for word, value in WANTED.items() if word != name})
    print(f"without {name}:", [said(pooler.psql("corrections")) for _ in range(3)])
    print(f"without {name}, connections to the server:", pooler.connections())
    pooler.end()


os.environ["LC_ALL"] = "C"
for pool_mode in ("session", "transaction"):
    tell_of(pool_mode)
for setting in ("server_reset_query", "server_check_query"):
    tell_without(setting)
