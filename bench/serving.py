"""What the benchmarks over standard input make and run: relation files, a client's bytes, and the program over both."""
import os
import struct
import subprocess
import sys
import tempfile
import time

HERE = os.path.dirname(os.path.abspath(__file__))
PROGRAM = os.path.join(HERE, "..", "crates", "server", "out", "server")


def relation(name, columns, rows):
    """A file of one relation whose queries are ready at once."""
    return "".join("\t".join(fields) + "\n" for fields in ([name, "0", *columns], *rows))


def message(kind, body=b""):
    """A type byte, the length of itself and the body, and the body."""
    return kind + struct.pack(">I", len(body) + 4) + body


def query(text):
    """A simple query."""
    return message(b"Q", text + b"\0")


def prepared(name, binary, limits=(0,), named=b""):
    """Parse, Bind, an Execute for each limit and Sync over a relation; under a name that isn't empty a Describe of the portal, and
    a Close of the portal and of the statement, too."""
    label = named + b"\0"
    sent = message(b"P", label + name + b"\0\0\0") + message(b"B", label + label + struct.pack(">hhhh", 0, 0, 1, binary))
    sent += message(b"D", b"P" + label) if named else b""
    sent += b"".join(message(b"E", label + struct.pack(">i", limit)) for limit in limits)
    sent += message(b"C", b"P" + label) + message(b"C", b"S" + label) if named else b""
    return sent + message(b"S")


def client(style, body=b"", times=1):
    """A startup packet with this interval style, the body so many times, and Terminate."""
    startup = struct.pack(">I", 196608) + b"user\0bench\0intervalstyle\0" + style.encode() + b"\0\0"
    return struct.pack(">I", len(startup) + 4) + startup + body * times + message(b"X")


def served(program, file, sent):
    """Serves a client over a relation file: the nanoseconds, the bytes of the replies, the status and the line of errors."""
    with tempfile.TemporaryFile() as source, tempfile.TemporaryFile() as sink:
        source.write(sent)
        source.seek(0)
        start = time.monotonic_ns()
        done = subprocess.run([*program, "serve", file, "7", "01020304"], stdin=source, stdout=sink, stderr=subprocess.PIPE)
        taken = time.monotonic_ns() - start
        return taken, os.fstat(sink.fileno()).st_size, done.returncode, done.stderr.decode().strip()


def built(program):
    """Ends the script where the program isn't built."""
    if not os.path.exists(program[0]):
        sys.exit(f"{program[0]} isn't there: `rt run` in crates/server builds it")
