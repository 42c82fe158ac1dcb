#!/usr/bin/python3 -BP
"""What clients of raw frames do over waiting_server: waiting_keys.py HOST PORT. A line tells each thing that was tried, and what came.
The query `late` isn't ready for twenty seconds and more, in which the other client and cancels are served."""
import select
import socket
import struct
import sys
import time

ADDRESS = (sys.argv[1], int(sys.argv[2]))
CANCEL = 80877102
VERSIONS = {"3.0": 196608, "3.2": 196610}
SECONDS = 60


def tell(what, came):
    print(f"{what}: {came}", flush=True)


class Client:
    """A client of a version of the protocol."""

    def __init__(self, version):
        self.socket = socket.create_connection(ADDRESS, SECONDS)
        packet = struct.pack("!i", VERSIONS[version]) + b"user\0demo\0\0"
        self.socket.sendall(struct.pack("!i", len(packet) + 4) + packet)
        kind, body = self.message()
        while kind != b"Z":
            if kind == b"K":
                self.pid, self.key = body[:4], body[4:]
            kind, body = self.message()

    def exactly(self, count):
        found = b""
        while len(found) < count:
            piece = self.socket.recv(count - len(found))
            if not piece:
                sys.exit("the server ended the connection")
            found += piece
        return found

    def message(self):
        """The next message, by its type and body."""
        head = self.exactly(5)
        return head[:1], self.exactly(struct.unpack("!i", head[1:])[0] - 4)

    def begin(self, text):
        self.socket.sendall(b"Q" + struct.pack("!i", len(text) + 5) + text.encode() + b"\0")

    def answer(self):
        """What a query is answered: its tag, or the code of its error."""
        lines = []
        while True:
            kind, body = self.message()
            if kind == b"Z":
                return " ".join(lines)
            lines += [part[1:].decode() for part in body.split(b"\0") if part[:1] == b"C"] if kind == b"E" else [body[:-1].decode()]

    def query(self, text):
        self.begin(text)
        return self.answer()

    def is_silent(self):
        """Whether nothing comes for half a second."""
        return not select.select([self.socket], [], [], 0.5)[0]

    def leave(self):
        self.socket.sendall(b"X\0\0\0\x04")
        self.socket.close()


def cancel(pid, key):
    """Sends a cancel request, and tells what comes before the server ends the connection."""
    with socket.create_connection(ADDRESS, SECONDS) as it:
        body = struct.pack("!i", CANCEL) + pid + key
        it.sendall(struct.pack("!i", len(body) + 4) + body)
        return it.recv(100)


def tried(version, other):
    """A client of a version, whose query another client's connections cancel."""
    client = Client(version)
    tell(f"{version}: bytes of its key", len(client.key))
    client.begin("late")
    tell("waits", client.is_silent())
    tell("the other client meanwhile", [other.query("now"), other.query("soon")])
    tell("a cancel by another key", cancel(client.pid, bytes(byte ^ 1 for byte in client.key)))
    tell("a cancel by the other client's pid and this key", cancel(other.pid, client.key))
    tell("a cancel by this pid and the other client's key", cancel(client.pid, other.key))
    tell("waits", client.is_silent())
    tell("the other client meanwhile", other.query("now"))
    begun = time.monotonic()
    tell("a cancel by its own key", cancel(client.pid, client.key))
    tell("is answered", client.answer())
    tell("within five seconds", time.monotonic() - begun < 5)
    tell("a cancel between queries", cancel(client.pid, client.key))
    tell("asks again", [client.query("now"), client.query("soon")])
    return client


def gone(other):
    """A client that goes away within its query."""
    client = Client("3.0")
    client.begin("late")
    tell("a third client waits", client.is_silent())
    client.socket.setsockopt(socket.SOL_SOCKET, socket.SO_LINGER, struct.pack("ii", 1, 0))
    client.socket.close()
    tell("it has reset its connection; a cancel by its key", cancel(client.pid, client.key))
    tell("the other client behind it", [other.query("now"), other.query("soon")])


first = Client("3.2")
second = tried("3.0", first)
third = tried("3.2", second)
gone(third)
for one in (first, second, third):
    one.leave()
