#!/usr/bin/python3 -BP
"""What PostgreSQL's client library does over waiting_server: waiting_libpq.py HOST PORT. A line tells each thing that was tried, and
what came. The query `soon` isn't ready for some 20 ms, and `late` not for twenty seconds and more."""
import os
import sys
import time

sys.path.insert(0, os.path.dirname(os.path.abspath(__file__)))
from libpq_calls import Connection

first, second = Connection(*sys.argv[1:3]), Connection(*sys.argv[1:3])


def tell(what, came):
    print(f"{what}: {came}", flush=True)


def seconds(action):
    """How long an action takes, and what it gives."""
    begun = time.monotonic()
    came = action()
    return time.monotonic() - begun, came


taken, came = seconds(lambda: first.query("soon"))
tell("soon", came)
tell("it takes 20 ms or more", taken >= 0.02)
first.begin("late")
tell("a second client, while the first one's query isn't ready", [second.query("now"), second.query("soon")])
tell("the first one waits", first.is_waiting(0.5))
tell("the second one cancels itself, which asks nothing", second.cancel())
tell("the first one waits", first.is_waiting(0.5))
second.begin("late")
tell("both wait", first.is_waiting(0.3) and second.is_waiting(0.3))
tell("a cancel by the first one's key", first.cancel())
taken, came = seconds(first.answer)
tell("the first one", came)
tell("within five seconds", taken < 5)
tell("the second one waits", second.is_waiting(0.5))
tell("the first one asks again", [first.query("now"), first.query("soon")])
tell("a cancel by the second one's key", second.cancel())
tell("the second one", second.answer())
tell("it asks again", second.query("now"))
tell("an extended query", first.extended("now"))
first.close()
tell("the second one, behind the end of the first", second.query("soon"))
second.close()
