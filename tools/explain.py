#!/usr/bin/env python3
"""Runs a program of this repository, and says more where it ends with one of its short lines.

usage: explain PROGRAM WORDS.., as: tools/explain crates/server/out/server listen tcp 5433 data/rosters

What the program writes comes as it stands, its line on standard error first. Behind that stands one line more, on standard
error: which word, which field of which line, which place, and what the system said of it. The status is the program's.
"""
import datetime
import errno
import os
import re
import signal
import socket
import stat
import subprocess
import sys

from read_intervals import read

MOST = 18446744073709551615
SPACE = "\t\n\x0b\x0c\r "
STYLES = ("postgres", "postgres_verbose", "iso_8601", "sql_standard")


def number(least, most):
    def why(word):
        good = re.fullmatch("0|[1-9][0-9]*", word, re.ASCII) and least <= int(word) <= most
        return None if good else f"{word} is no number from {least} to {most}"
    return why


def key(word):
    good = re.fullmatch("([0-9a-fA-F]{2})*", word, re.ASCII) and 8 <= len(word) <= 512
    return None if good else f"{word} isn't 8 to 512 hexadecimal digits, an even number of them"


def path(word):
    return None if word else "it is empty"


def start(word):
    if not re.fullmatch("[0-9]{4}-[0-9]{2}-[0-9]{2}T[0-9]{2}:[0-9]{2}:[0-9]{2}", word, re.ASCII):
        return f"{word} isn't of the form YYYY-MM-DDTHH:MM:SS"
    try:
        datetime.datetime.strptime(word, "%Y-%m-%dT%H:%M:%S")
    except ValueError:
        return f"{word} is no moment of the years 0001 to 9999"
    return f"{word} is no moment" if word.endswith((":60", ":61")) else None


def style(word):
    return None if word.strip(SPACE).lower() in STYLES else f"{word} is none of {', '.join(STYLES)}"


def any_word(word):
    return None


NUMBERS = {"PID": (1, 2147483647), "TURNS": (1, MOST), "SEED": (0, MOST), "N": (0, 10000), "PORT": (1, 65535), "COUNT": (0, 10000)}
KINDS = {name: number(*bounds) for name, bounds in NUMBERS.items()}
KINDS |= {"KEY": key, "PATH": path, "START": start, "STYLE": style, "FILE": any_word, "RELATION": any_word, "COLUMN": any_word}
SERVE = "serve FILE PID KEY [TURNS]"
LISTEN = ["listen tcp PORT FILE [COUNT]", "listen unix PATH FILE [COUNT]"]
# The orders of each program. A name in capitals stands for a word, one in brackets may be left out.
ORDERS = {
    "relation_server": [SERVE, "demo SEED N", *LISTEN],
    "pg_cursor": [SERVE, *LISTEN],
    "pg_replay": ["record FILE PID KEY", "verify FILE"],
    "rota_report": ["lines FILE RELATION COLUMN START STYLE", "clashes FILE RELATION COLUMN START RELATION COLUMN START"],
}


def order_of(program, words):
    """The order that the words begin, its fixed words and the names of the others; or what is wrong with the first words."""
    orders = [order.split() for order in ORDERS[program]]
    firsts = list(dict.fromkeys(order[0] for order in orders))
    if not words or words[0] not in firsts:
        given = f"{words[0]} is no order" if words else "an order is missing"
        return None, f"{given}: there are {', '.join(firsts)}, --help and --version"
    orders = [order for order in orders if order[0] == words[0]]
    if len(orders) > 1:
        seconds = [order[1] for order in orders]
        if words[1:2] == [] or words[1] not in seconds:
            given = f", and not {words[1]}" if words[1:2] else ""
            return None, f"behind {words[0]} stands {' or '.join(seconds)}{given}"
        orders = [order for order in orders if order[1] == words[1]]
    return orders[0], None


def wrong_word(program, words):
    """Which word is none that the program takes."""
    for place, word in enumerate(words, 1):
        try:
            word.encode()
        except UnicodeEncodeError:
            return f"word {place} isn't UTF-8"
    order, why = order_of(program, words)
    if why:
        return why
    for place, name in enumerate(order):
        if place >= len(words):
            return None if name.startswith("[") else f"{name} is missing"
        kind = KINDS.get(name.strip("[]"))
        why = kind and kind(words[place])
        if why:
            return f"{name.strip('[]')}: {why}"
    return f"a word too many: {words[len(order)]}" if len(words) > len(order) else None


def said(why):
    """What the system said, as a part of a line."""
    if why.errno == errno.EADDRINUSE:
        return "address in use"
    return why.strerror[:1].lower() + why.strerror[1:]


def bind_trouble(port):
    """Why nobody can listen at a port of 127.0.0.1, if nobody can."""
    with socket.socket() as listener:
        listener.setsockopt(socket.SOL_SOCKET, socket.SO_REUSEADDR, 1)
        try:
            listener.bind(("127.0.0.1", port))
            listener.listen()
        except OSError as why:
            return f"127.0.0.1:{port}: {said(why)}"
    return None


def socket_trouble(place):
    """Why no server can listen at a path."""
    if len(os.fsencode(place)) > 107:
        return f"{place}: the path of a socket has at most 107 bytes"
    try:
        kind = os.lstat(place).st_mode
    except FileNotFoundError:
        folder = os.path.dirname(place) or "."
        if not os.path.isdir(folder):
            return f"{folder}: no such folder"
        return None if os.access(folder, os.W_OK) else f"{folder}: permission denied"
    except OSError as why:
        return f"{place}: {said(why)}"
    return f"{place}: address in use" if stat.S_ISSOCK(kind) else f"{place}: what stands there is no socket, and is left alone"


def open_trouble(file):
    """Why a file can't be read."""
    try:
        with open(file, "rb") as it:
            it.read(1)
    except OSError as why:
        return f"{file}: {said(why)}"
    return None


def lines_of(file):
    """The lines of a relation file."""
    with open(file, "rb") as it:
        lines = it.read().split(b"\n")
    return [line[:-1] if line.endswith(b"\r") else line for line in lines]


def relations_of(lines):
    """For each header of these lines its number, from 1, and its fields; a line that isn't UTF-8 ends them."""
    headers, is_inside = [], False
    for place, line in enumerate(lines, 1):
        if line and not is_inside:
            headers.append((place, line.decode(errors="replace").split("\t")))
        is_inside = bool(line)
    return headers


def header_trouble(reason, fields, earlier):
    """What is wrong with a header."""
    if reason == "header":
        if len(fields) < 2:
            return ": a header has a name, a number and the columns' names, with tabs between them"
        return f", field 2: no number from 0 to 4294967295: {fields[1]}"
    if reason == "name":
        name = fields[0]
        taken = [place for place, others in earlier if others[0] == name]
        if taken:
            return f", field 1: {name} is the name of line {taken[0]}"
        return f", field 1: no name of a relation: {name}"
    if len(fields) - 2 > 1600:
        return f": {len(fields) - 2} columns, and there are at most 1600"
    bad = [place for place, name in enumerate(fields[2:], 3) if len(name.encode()) > 63 or "\0" in name]
    return f", field {bad[0]}: no name of a column: {fields[bad[0] - 1]}" if bad else ""


def line_trouble(file, place, reason):
    """What is wrong with a line of a relation file."""
    lines = lines_of(file)
    line = lines[place - 1]
    headers = [found for found in relations_of(lines[:place])]
    if reason == "text":
        try:
            line.decode()
        except UnicodeDecodeError as why:
            return f"{file}: line {place}: not UTF-8 at byte {why.start + 1}"
        return None
    fields = line.decode().split("\t")
    if reason in ("header", "name", "column"):
        return f"{file}: line {place}{header_trouble(reason, fields, headers[:-1])}"
    columns = len(headers[-1][1]) - 2
    if reason == "width":
        fields_told = "1 field" if len(fields) == 1 else f"{len(fields)} fields"
        return f"{file}: line {place}: {fields_told} for {columns} column{'s' * (columns != 1)}"
    for number_of, field in enumerate(fields, 1):
        if not re.fullmatch("-?[0-9]+ -?[0-9]+ -?[0-9]+", read("postgres", field)):
            return f"{file}: line {place}, field {number_of}: no interval: {field}"
    return None


def column_trouble(words):
    """Which relation or column a file doesn't have: the words name one of each behind the file, and maybe one more of each."""
    file, pairs = words[1], [words[2:4], words[5:7]] if words[0] == "clashes" else [words[2:4]]
    relations = {}
    for _, fields in relations_of(lines_of(file)):
        relations.setdefault(fields[0], fields[2:])
    for relation, column in pairs:
        if relation not in relations:
            return f"{file} has no relation {relation}, but {', '.join(relations) or 'none'}"
        if column not in relations[relation]:
            return f"{file}: {relation} has no column {column}, but {', '.join(relations[relation]) or 'none'}"
    return None


def file_of(words):
    """FILE of good words."""
    return words[3] if words[0] == "listen" else words[1]


def more(name, words, status, line):
    """The line to be said of a program that ended with this status and line, if there is one."""
    if status == 2 and line.startswith("usage: "):
        return wrong_word(name, words)
    found = re.fullmatch(r"line ([0-9]+): (\w+)", line)
    if status == 3 and found:
        return line_trouble(file_of(words), int(found[1]), found[2])
    if status == 3:
        return f"{file_of(words)}: more than 67108864 bytes"
    if status == 9:
        return open_trouble(file_of(words))
    if status == 12 and line == "accept fault":
        return bind_trouble(int(words[2])) if words[1] == "tcp" else socket_trouble(words[2])
    if status == 20 and line == "no such column":
        return column_trouble(words)
    return None


def name_of(program):
    """The name that a program tells of itself."""
    told = subprocess.run([program, "--version"], stdin=subprocess.DEVNULL, capture_output=True, text=True, check=False)
    return (told.stdout.split() or [""])[0]


def run(program, words):
    """Runs the program and explains its end. The status is the program's, or the signal's that ended it."""
    child = subprocess.Popen([program, *words], stderr=subprocess.PIPE)
    signal.signal(signal.SIGINT, lambda *_: None)
    for it in (signal.SIGTERM, signal.SIGHUP):
        signal.signal(it, lambda which, _: child.send_signal(which))
    last = b""
    for line in child.stderr:
        sys.stderr.buffer.write(line)
        sys.stderr.buffer.flush()
        last = line
    status = child.wait()
    if status < 0:
        signal.signal(-status, signal.SIG_DFL)
        os.kill(os.getpid(), -status)
    if status > 0:
        try:
            name = name_of(program)
            told = more(name, words, status, last.decode(errors="replace").rstrip("\n")) if name in ORDERS else None
        except (OSError, ValueError, IndexError):
            told = None
        if told:
            print(told, file=sys.stderr)
    return status


def main():
    if len(sys.argv) < 2 or not os.access(sys.argv[1], os.X_OK):
        print("usage: explain PROGRAM WORDS..", file=sys.stderr)
        return 1
    return run(os.path.abspath(sys.argv[1]), sys.argv[2:])


if __name__ == "__main__":
    sys.exit(main())
