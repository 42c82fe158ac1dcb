#!/usr/bin/env python3
"""Compares the rows and answers that are stored with what the tools beside this one make of the rules anew.

usage: rows.py [--write] [NAME..], with the names of crates; --write stores what is made, where a whole file is

It prints each file whose text is another, with the first line that is, and `N passed, M failed`; the status is 1 where one is.
"""
import pathlib
import subprocess
import sys

TOP = pathlib.Path(__file__).resolve().parent.parent
# A crate, its file, the tool that makes it with its words, what the tool reads, and how both are compared.
MADE = [
    ("call_rows", "stdin", "call_rows.py", None, "whole"),
    ("command_rows", "stdin", "command_rows.py", None, "whole"),
    ("conversation_rows", "stdin", "chunk_rows.py", None, "blocks"),
    ("counter_rows", "stdin", "counter_rows.py", None, "whole"),
    ("cursor_sample_rows", "stdin", "cursor_serving_rows.py sample", None, "whole"),
    ("cursor_serving_rows", "stdin", "cursor_serving_rows.py", None, "whole"),
    ("message_rows", "stdout", "message_rows.py", "stdin", "whole"),
    ("recording_rows", "stdin", "recording_rows.py", None, "whole"),
    ("relation_rows", "stdin", "demo_load.py rows", "stdin", "loads"),
    ("server", "stdout", "demo_lines.py 0 1", None, "whole"),
    ("schedule_server", "stdin", "schedule_rows.py client", None, "whole"),
    ("schedule_server", "stdout", "schedule_rows.py replies", None, "whole"),
    ("styles_server", "stdin", "styles_rows.py client", None, "whole"),
    ("styles_server", "stdout", "styles_rows.py replies", None, "whole"),
    ("text_rows", "stdout", "read_intervals.py", "stdin", "read"),
    ("waiting_server", "stdin", "waiting_rows.py client", None, "whole"),
    ("waiting_server", "stdout", "waiting_rows.py replies", None, "whole"),
    ("word_rows", "stdin", "word_rows.py", None, "whole"),
]


def made_by(words, given):
    """What a tool writes."""
    tool, *more = words.split()
    done = subprocess.run([sys.executable, "-B", TOP / "tools" / tool, *more], input=given, capture_output=True, check=False)
    if done.returncode:
        raise ValueError(f"tools/{tool} fails: {done.stderr.decode(errors='replace').strip().splitlines()[-1]}")
    return done.stdout


def whole(stored, made, _):
    """The first line in which two texts differ."""
    if stored == made:
        return None
    pairs = zip(stored.split(b"\n") + [None], made.split(b"\n") + [None])
    return next((place for place, (one, other) in enumerate(pairs, 1) if one != other), 1)


def blocks(stored, made, _):
    """A block of what was made that doesn't stand in the file; told as line 1."""
    return None if all(b"\n" + block + b"\n" in b"\n" + stored for block in made.rstrip(b"\n").split(b"\n\n")) else 1


def loads(stored, made, _):
    """The first row of a generated load that doesn't stand in the file."""
    rows = set(stored.splitlines())
    return next((place for place, row in enumerate(made.splitlines(), 1) if row not in rows), None)


def read(stored, made, given):
    """The first answer to a row of reading that is another."""
    rows, answers = given.splitlines(), iter(made.splitlines())
    pairs = zip(rows, stored.splitlines())
    return next((place for place, (row, told) in enumerate(pairs, 1) if row.startswith(b"read|") and told != next(answers, None)), None)


def differs(crate, file, words, source, how):
    """What is told of one file, if it is another."""
    folder = TOP / "crates" / crate
    given = (folder / source).read_bytes() if source else None
    if how == "loads":
        given = b"".join(row.split(b" | ")[2] + b"\n" for row in given.splitlines() if b" | load | " in row and not row.startswith(b"#"))
    try:
        made = made_by(words, given)
    except ValueError as why:
        return str(why)
    place = {"whole": whole, "blocks": blocks, "loads": loads, "read": read}[how]((folder / file).read_bytes(), made, given)
    if place and how == "whole" and "--write" in sys.argv:
        (folder / file).write_bytes(made)
        print(f"crates/{crate}/{file} is written")
        return None
    return f"crates/{crate}/{file}:{place}: tools/{words} makes another text" if place else None


def main():
    names = [word for word in sys.argv[1:] if word != "--write"]
    wanted = [row for row in MADE if not names or row[0] in names]
    failed = [told for row in wanted if (told := differs(*row))]
    for told in failed:
        print(told)
    print(f"{len(wanted) - len(failed)} passed, {len(failed)} failed")
    return 1 if failed or not wanted else 0


if __name__ == "__main__":
    sys.exit(main())
