#!/usr/bin/env python3
"""Serves a relation file at a port of 127.0.0.1 until it is interrupted, and says why where it can't.

usage: serve.py PORT FILE [HANDLER], with PORT from 1 to 65535, or 0 for one that is free. With HANDLER the program of these
handlers is served in the place of the file, as `styles` by crates/styles_server.
"""
import re
import socket
import sys

from explain import bind_trouble, open_trouble, run
from programs import program, stop


def port_of(word):
    """The port that a word names; 0 takes one that is free."""
    if not re.fullmatch("[0-9]+", word, re.ASCII) or len(word) > 5 or int(word) > 65535:
        stop(f"PORT={word}: a port is a number from 1 to 65535, or 0 for a free one")
    if int(word):
        return int(word)
    with socket.socket() as listener:
        listener.bind(("127.0.0.1", 0))
        return listener.getsockname()[1]


def main():
    port = port_of(sys.argv[1])
    if trouble := bind_trouble(port):
        stop(trouble)
    if handler := "".join(sys.argv[3:]):
        return run(str(program(f"{handler}_server")), ["listen", str(port)])
    if trouble := open_trouble(sys.argv[2]) if sys.argv[2] else "FILE is empty: make serve FILE=data/rosters serves the sample":
        stop(trouble)
    return run(str(program("server")), ["listen", "tcp", str(port), sys.argv[2]])


if __name__ == "__main__":
    sys.exit(main())
