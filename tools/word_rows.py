#!/usr/bin/env python3
"""Writes the rows of words of the command line, of recordings, of commands of cursors and of rotas, crates/word_rows/stdin.

    python3 -B tools/word_rows.py > crates/word_rows/stdin

The rules for words stand here once more, over Python's integers and texts; those of recordings stand in tools/replay_rows.py,
those of commands of cursors in tools/cursor_rows.py, and those of rotas in tools/rota_rows.py.
"""
import re

import cursor_rows
import replay_rows
import rota_rows

HEAD = """\
# A row: its name | what is asked | what is given | the answer. Made by tools/word_rows.py. What is asked is one of these:
# order|WORDS: what words of the server's command line order. They stand apart by single spaces, so an empty one stands between
# two spaces, or behind the last; `-` is no word. The answer is serve FILE PID KEY TURNS, KEY in small digits; demo FILE SEED N;
# tcp PORT FILE COUNT; unix PATH FILE COUNT; or usage FILE COUNT. FILE is what the words tell as their file, COUNT as their
# bound, both as Rust's `Debug` shows them.
# recording | BYTES: `ok` where the bytes are read as a recording and written as these bytes again, or the refusal:
# `truncated`, `bad field PLACE`, `trailing PLACE`. fronts | BYTES: the same of every front of the bytes but the whole, which is
# told once. Bytes are hexadecimal digits in words; a word `N*DIGITS` stands for its bytes N times.
# command | QUERY: the command that the query is, `declare NAME RELATION`, `fetch LIMIT NAME`, `close NAME`, or `none`. In a
# query `\\s`, `\\t`, `\\n`, `\\v`, `\\f` and `\\r` are whitespace, the bytes 20 and 09 to 0D. replies | QUERY | BYTES: what the
# command makes of the bytes, which are the replies to its messages.
# Of rotas: a start is YYYY-MM-DDTHH:MM:SS, a step months, days and microseconds; steps are split by commas, and `-` is none.
# read | TEXT: day number, microseconds and printed text, or `shape` or `field`. add | START|STEP: the moment, or the part that
# leads out of the years 1 to 9999. rota | START|STEPS: the moments, or the place of the first step that is refused, and by
# which part. total | STEPS: the sums, or the place of the first step that they overflow with. lines | START|STYLE|STEPS: the
# lines of the rota. clashes | START|STEPS|START|STEPS: the lines of the clashes. \\t and \\n are tabs and line ends.
"""
TURNS = 10**9


def number(word, least, most):
    """The number that a word writes in decimal, without a sign or a leading zero."""
    if re.fullmatch("0|[1-9][0-9]*", word, re.ASCII) and least <= int(word) <= most:
        return int(word)
    return None


def key(word):
    """The digits of an even number of hexadecimal digits, 8 to 512 of them, in lower case."""
    if re.fullmatch("([0-9A-Fa-f]{2}){4,256}", word, re.ASCII):
        return word.lower()
    return None


def quoted(text):
    return '"' + text + '"'


def place(kind, word):
    if kind == "tcp" and number(word, 1, 65535) is not None:
        return f"tcp {number(word, 1, 65535)}"
    if kind == "unix" and word:
        return "unix " + quoted(word)
    return None


def order(words):
    if len(words) in (4, 5) and words[0] == "serve":
        pid, digits = number(words[2], 1, 2**31 - 1), key(words[3])
        turns = TURNS if len(words) == 4 else number(words[4], 1, 2**64 - 1)
        if None not in (pid, digits, turns):
            return f"serve Some({quoted(words[1])}) {pid} {digits} {turns}"
    if len(words) == 3 and words[0] == "demo":
        seed, count = number(words[1], 0, 2**64 - 1), number(words[2], 0, 10000)
        if None not in (seed, count):
            return f"demo None {seed} {count}"
    if len(words) in (4, 5) and words[0] == "listen":
        where = place(words[1], words[2])
        count = "None" if len(words) == 4 else number(words[4], 0, 10000)
        if None not in (where, count):
            bound = count if count == "None" else f"Some({count})"
            return f"{where} Some({quoted(words[3])}) Some({bound})"
    return "usage None None"


SERVE = [
    "serve f 7 01020304", "serve f 1 00000000", "serve  2147483647 fFaBCDef", "serve listen 7 01020304 1",
    "serve f 7 01020304 18446744073709551615", "serve f 7 01020304 1000000000", "serve f 0 01020304", "serve f 2147483648 01020304",
    "serve f 18446744073709551617 01020304", "serve f 07 01020304", "serve f +7 01020304", "serve f -7 01020304", "serve f  01020304",
    "serve f 7x 01020304", "serve f 7 0102030g", "serve f 7 +1020304", "serve f 7 0x020304", "serve f 7 01 20304", "serve f 7 ",
    "serve f 7 01020304 0", "serve f 7 01020304 18446744073709551616", "serve f 7 01020304 01", "serve f 7 01020304 ",
    "serve f 7 01020304 1 1", "serve f 7", "serve 7 01020304", "SERVE f 7 01020304", "serv f 7 01020304", "serve", "7 01020304",
    "serve tcp 80 f", "serve f 7 0102030405060708 5",
]
DEMO = [
    "demo 0 0", "demo 18446744073709551615 10000", "demo 7 1", "demo 18446744073709551616 1", "demo 0 10001", "demo 0 4294967296",
    "demo 00 1", "demo 01 1", "demo  1", "demo -1 1", "demo 1 00", "demo 1 +1", "demo 1 ", "demo 1", "demo 1 1 1", "Demo 1 1", "demo",
]
LISTEN = [
    "listen tcp 1 f", "listen tcp 65535 f 0", "listen tcp 80  10000", "listen tcp 0 f", "listen tcp 65536 f", "listen tcp 65617 f",
    "listen tcp 080 f", "listen tcp +80 f", "listen tcp  f", "listen tcp 80 f 10001", "listen tcp 80 f 00", "listen tcp 80 f 01",
    "listen tcp 80 f -0", "listen tcp 80 f ", "listen tcp 80 f 1 1", "listen tcp 80", "listen tcp /tmp/s f", "listen unix /tmp/s f",
    "listen unix 0 f 1", "listen unix \N{LATIN SMALL LETTER E WITH ACUTE} f 10000", "listen unix  f", "listen unix  f 1",
    "listen unix s f 10001", "listen unix s f x", "listen unix s f 1 1", "listen unix s", "listen TCP 80 f", "listen udp 80 f",
    "listen Unix s f", "listen  80 f", "Listen tcp 80 f", "listen", "listen f 7 01020304",
]
DIGITS = "0123456789abcdefABCDEF0123456789"
LENGTHS = [0, 1, 2, 6, 7, 8, 9, 10, 11, 16, 255, 256, 510, 511, 512, 513, 514, 516, 1024]


def row(name, text):
    words = [] if text == "-" else text.split(" ")
    print(f"{name}|order|{text}|{order(words)}")


def print_rows():
    for title, texts in [("serve", SERVE), ("demo", DEMO), ("listen", LISTEN), ("no command", ["-", "", " "])]:
        print(f"# ---- {title}")
        for text in texts:
            row(text or "an empty word", text)
        print()
    print("# ---- lengths of a key")
    for length in LENGTHS:
        row(f"a key of {length} digits", "serve f 7 " + (DIGITS * 32)[:length])
    for length in [8, 512]:
        for wrong in [0, length // 2, length - 1]:
            digits = (DIGITS * 16)[:length]
            row(f"a key of {length} digits, of which one at {wrong} is none", f"serve f 7 {digits[:wrong]}g{digits[wrong + 1:]}")


def main():
    print(HEAD)
    print_rows()
    replay_rows.print_rows()
    cursor_rows.print_rows()
    print()
    rota_rows.print_rows()


if __name__ == "__main__":
    main()
