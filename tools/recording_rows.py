#!/usr/bin/env python3
"""Writes the rows of sessions that are served and recorded, crates/recording_rows/stdin.

    python3 -B tools/recording_rows.py > crates/recording_rows/stdin

The sessions are those of tools/replay_program_rows.py. What is expected of each stands here by the rules: TooLong where more bytes
passed one way than there is room for, of those that were read and those of the writes that were done; else that the session was given
up; else the recording. Nothing here is the program's own.
"""

from replay_program_rows import BAD_FRAME, BEHIND, CANCEL, COPY, CUT, EMPTY, FATAL, FIRST, KEY, SLOW, SLOW_TWICE, UNKNOWN, digits

HEAD = """\
# A row: its name | the room | the turns | the registry's answers | reads | the read that fails | the write that fails | the
# client's bytes | the answers. Made by tools/recording_rows.py. A client of pid 7 and key 01020304 is served over the built-in
# relations, and recorded in the room. A `y` of the registry is yes, an `n` no, and behind them all is no. Reads are `whole`, or
# `single` bytes, or the number of bytes that the first one gives. The write `N:K` of the number N, from 0, fails behind K bytes,
# and `N:short` finds no memory. `-` is no such read or write. The answers are how the session ended, or what it was given up for;
# and the text of the recording in hexadecimal digits, or why there is none.
"""
GREATEST = 2**64 - 1
ENDS = {"Terminate": "terminate", "InputEnd": "input end", "BadFrame": "bad frame", "Fatal": "fatal", "CancelServed": "cancel served"}
STARTUP = 19
GREETED = 131
MANY = BEHIND.but(client=FIRST.client + b"\1" * 300)
CANCELED = CANCEL.but(calls=[("cancel", 7, KEY, True)])


def row(name, room, client, answers, turns=1000, asked="", reads="whole", read_fails="-", refuses="-"):
    print(" | ".join((name, str(room), str(turns), asked, reads, read_fails, refuses, digits(client).strip(), answers)))


def passed(s):
    return max(len(s.client), len(s.replies))


def recorded(name, s, room=None, **others):
    """A session that is recorded, with no byte of room to spare unless it is told."""
    row(name, passed(s) if room is None else room, s.client, f"{ENDS[s.end]}, {s.recording().hex()}", **others)


def refused(name, room, client, end, count, **others):
    """A session that was given up, and for which so many bytes of room are needed."""
    row(name, room, client, f"{end}, " + (f"too long {count}" if count > room else "unended"), **others)


def both_ways(name, client, end, count, **others):
    refused(name, count, client, end, count, **others)
    refused(name + ", and a byte of room too few", count - 1, client, end, count, **others)


def recordings():
    for name, s, asked in (("no client bytes", EMPTY, ""), ("the first path", FIRST, ""), ("COPY", COPY, ""), ("a slow query", SLOW, ""),
                           ("a slow query, with answers that are no", SLOW, "nn"), ("a question that is answered yes", SLOW_TWICE, "y"),
                           ("a cancel that meets nobody", CANCEL, ""), ("a cancel that meets somebody", CANCELED, "y"),
                           ("a version that isn't spoken", FATAL, ""), ("a bad frame", BAD_FRAME, ""), ("the first path, cut off", CUT, ""),
                           ("bytes behind the end", BEHIND, ""), ("an unknown relation", UNKNOWN, "")):
        recorded(name, s, asked=asked)
    recorded("single bytes, and a question that is answered yes", SLOW_TWICE, asked="y", reads="single")
    recorded("more room than is needed", FIRST, room=1000)


def rooms():
    for name, s in (("the first path", FIRST), ("more client bytes than replies", MANY), ("a slow query", SLOW)):
        for room in (passed(s) - 1, 0):
            row(f"{name}, in room of {room}", room, s.client, f"terminate, too long {passed(s)}")
    for room in (GREATEST, 2**63 - 1):
        row(f"room of {room}, for which there is no memory", room, FIRST.client, "no memory, no memory")


def given_up():
    """Sessions that are given up: of a failed write no byte is counted that it took, and all of each write that was done."""
    client = FIRST.client
    both_ways("the second read fails", client, "read fault", max(STARTUP, GREETED), reads=str(STARTUP), read_fails="1")
    refused("the first read fails", 0, client, "read fault", 0, read_fails="0")
    both_ways("the second write fails", client, "write fault", max(len(client), GREETED), reads=str(STARTUP), refuses="1:3")
    both_ways("the second write finds no memory", client, "no memory", max(len(client), GREETED), reads=str(STARTUP), refuses="1:short")
    both_ways("the first write fails", client, "write fault", len(client), refuses="0:100")
    both_ways("the first write fails behind all of its bytes", client, "write fault", len(client), refuses="0:100000")
    both_ways("the turns are spent", client, "turn limit", len(FIRST.replies), turns=len(client) - 1, reads="single")
    both_ways("no turn", client, "turn limit", 1, turns=1, reads="single")
    refused("without turns", 0, client, "turn limit", 0, turns=0)


def main():
    print(HEAD)
    recordings()
    rooms()
    given_up()


if __name__ == "__main__":
    main()
