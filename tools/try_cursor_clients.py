#!/usr/bin/env python3
"""Tries two clients at once of a listening `pg_cursor`, and a cancel of a FETCH that isn't ready, at a Unix socket.

    tools/try_cursor_clients.py PROGRAM

It tells what it finds, a line each. The status is 0 where all is as it should be.
"""
import pathlib
import select
import socket
import struct
import subprocess
import sys
import tempfile

from checking import end, tell

RELATIONS = "endless\t4294967295\tspan\n1 day\n\ngood\t0\tspan\n1 day\n2 days\n"
VERSION = 196608
CANCEL = 80877102
# Two clients, and one cancel.
CONNECTIONS = 3


def packet(code, body):
    """A packet without a type."""
    return struct.pack("!ii", len(body) + 8, code) + body


class Client:
    """A client that speaks in simple queries."""

    def __init__(self, path):
        self.stream = connected(path)
        self.stream.sendall(packet(VERSION, b"user\0demo\0\0"))
        self.key = dict(self.answer())[b"K"]

    def exactly(self, count):
        found = b""
        while len(found) < count:
            piece = self.stream.recv(count - len(found))
            if not piece:
                sys.exit("the server ended the connection")
            found += piece
        return found

    def answer(self):
        """The messages up to ReadyForQuery, by type and body."""
        messages = []
        while not messages or messages[-1][0] != b"Z":
            head = self.exactly(5)
            messages.append((head[:1], self.exactly(struct.unpack("!i", head[1:])[0] - 4)))
        return messages

    def send(self, text):
        body = text.encode() + b"\0"
        self.stream.sendall(b"Q" + struct.pack("!i", len(body) + 4) + body)

    def rows(self, text):
        """How many rows a query is answered, or its errors."""
        self.send(text)
        messages = self.answer()
        errors = [body for kind, body in messages if kind == b"E"]
        return errors or sum(kind == b"D" for kind, _ in messages)

    def is_silent(self):
        """Whether nothing comes for half a second."""
        return not select.select([self.stream], [], [], 0.5)[0]

    def leave(self):
        self.stream.sendall(b"X\0\0\0\4")
        self.stream.close()


def connected(path):
    stream = socket.socket(socket.AF_UNIX)
    stream.settimeout(60)
    stream.connect(path)
    return stream


def cancel(path, key):
    """Sends a cancel request, and waits until it was served."""
    with connected(path) as stream:
        stream.sendall(packet(CANCEL, key))
        stream.recv(1)


def try_clients(path, server):
    waiting, other = Client(path), Client(path)
    tell(waiting.rows("DECLARE c CURSOR FOR endless") == 0, "a cursor is declared over a query that isn't ready")
    waiting.send("FETCH 1 FROM c")
    tell(waiting.is_silent(), "its FETCH waits")
    fetched = [other.rows(text) for text in ("DECLARE c CURSOR FOR good", "FETCH 1 FROM c", "FETCH ALL FROM c")]
    tell(fetched == [0, 1, 1], "another client's cursor of the same name gives its rows meanwhile")
    tell(waiting.is_silent(), "the FETCH still waits")
    cancel(path, waiting.key)
    told = waiting.answer()
    is_canceled = [kind for kind, _ in told] == [b"T", b"E", b"Z"] and b"C57014\0" in told[1][1]
    tell(is_canceled, "a cancel from another connection ends the FETCH")
    fetched = [waiting.rows(text) for text in ("DECLARE d CURSOR FOR good", "FETCH ALL FROM d")]
    tell(fetched == [0, 2], "its connection goes on")
    other.leave()
    tell(server.poll() is None, f"behind {CONNECTIONS} connections the server waits for the client that is left")
    waiting.leave()
    tell(server.wait(60) == 0, "it ends well when that has gone")
    tell(not pathlib.Path(path).exists(), "its socket is removed")


def main():
    with tempfile.TemporaryDirectory() as folder:
        relations, path = pathlib.Path(folder, "relations"), f"{folder}/socket"
        relations.write_text(RELATIONS)
        words = [sys.argv[1], "listen", "unix", path, str(relations), str(CONNECTIONS)]
        server = subprocess.Popen(words, stdin=subprocess.DEVNULL, stdout=subprocess.PIPE)
        try:
            if server.stdout.readline() != f"listening on {path}\n".encode():
                sys.exit("the server doesn't listen")
            try_clients(path, server)
        finally:
            server.kill()
    end()


main()
