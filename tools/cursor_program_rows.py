"""The rows of the program that serves cursors, for tools/command_rows.py.

The sessions are those of tools/cursor_serving_rows.py and tools/replay_program_rows.py. Each answer is written down by the rules: the
status, what goes to the output, and the line of errors.
"""

from cursor_rows import written
from cursor_serving_rows import LIFE, LIFE_WRITTEN_OUT, REFUSALS, REFUSALS_WRITTEN_OUT, digits
from replay_program_rows import BAD_FRAME, CANCEL, COPY, CUT, FATAL, FIRST, SLOW, TABLE, Session, written_out

SERVE = "serve f 7 01020304"
USAGE = "2 err usage: pg_cursor serve FILE PID KEY [TURNS]\\n"
LINES = {"BadFrame": (10, "bad frame"), "Fatal": (11, "fatal")}


def row(name, words, client, answer, file=TABLE, file_fails="-", fails="-", write_fails="-"):
    print("|".join(("cursor: " + name, "cursor", words, file, file_fails, digits(client).strip(), fails, write_fails, answer)))


def told(status, out, line=""):
    return f"{status}{written_out(out) if out else ''}" + (f" err {line}\\n" if line else "")


def served(name, s, words=SERVE):
    status, line = LINES.get(s.end, (0, ""))
    row(name, words, s.client, told(status, s.replies, line))


def of_steps(steps, replies):
    return Session(b"".join(step[0] for step in steps), [], written(replies))


def sessions():
    for name, s in (("a cursor's life", of_steps(LIFE, LIFE_WRITTEN_OUT)), ("commands that are refused", of_steps(REFUSALS, REFUSALS_WRITTEN_OUT)),
                    ("the first path", FIRST), ("COPY", COPY), ("a slow query", SLOW), ("the first path, cut off", CUT), ("a cancel request", CANCEL),
                    ("a version that isn't spoken", FATAL), ("a bad frame", BAD_FRAME)):
        served(name, s)


def turns():
    """A read is a turn, and so is the end of the input; a query that is unready twice takes two more."""
    served("one turn", FIRST, SERVE + " 1")
    row("one turn, and the input's end", SERVE + " 1", CUT.client, told(6, CUT.replies, "turn limit"))
    served("two turns, and the input's end", CUT, SERVE + " 2")
    served("three turns for a slow query", SLOW, SERVE + " 3")


def faults():
    row("the first read fails", SERVE, FIRST.client, "4 err read fault\\n", fails="0")
    row("the read of the end fails", SERVE, CUT.client, told(4, CUT.replies, "read fault"), fails="1")
    for front in (0, 3):
        row(f"the write fails behind {front} bytes", SERVE, FIRST.client, told(5, FIRST.replies[:front], "write fault"), write_fails=str(front))
    row("a file that is refused", SERVE, FIRST.client, "3 err line 2: cell\\n", file="shifts\\t0\\tspan\\n1 dai\\n")
    row("a file that can't be read", SERVE, FIRST.client, "9 err file fault\\n", file_fails="0")
    row("the file is judged before the input", SERVE, FIRST.client, "9 err file fault\\n", file_fails="0", fails="0")


def words():
    for given in ("-", "serve f 7", "serve f 0 01020304", "serve f 7 0102030", "serve f 7 01020304 0", "demo 7 3", "record f 7 01020304"):
        row("words: " + given, given, FIRST.client, USAGE)


def print_rows():
    sessions()
    turns()
    faults()
    words()
