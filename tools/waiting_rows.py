#!/usr/bin/env python3
"""The stored run of crates/waiting_server: usage: waiting_rows.py client | replies

`client` writes what one client sends, and `replies` what it must be answered under the pid and the key of tools/styles_rows.py: by the
frames and messages of docs/FORMATS.md and the rules of docs/CONVERSATION.md. Each query that isn't blank is answered by the tag
WAITED, however long it waits.
"""
import sys

from styles_rows import frame, greeted, startup, string, trimmed

QUERIES = ["now", "soon", " soon; ", "", ";", "soon soon", "SOON", "anything else"]


def client():
    yield startup()
    for query in QUERIES:
        yield frame("Q", string(query))
    yield frame("X")


def replies():
    yield from greeted()
    for query in QUERIES:
        yield (frame("C", string("WAITED")) if trimmed(query) else frame("I")) + frame("Z", b"I")


if __name__ == "__main__":
    if sys.argv[1:] not in (["client"], ["replies"]):
        sys.exit(__doc__.split("\n")[0])
    for part in client() if sys.argv[1] == "client" else replies():
        sys.stdout.buffer.write(part)
