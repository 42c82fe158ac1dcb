"""Starts what the benchmarks over TCP measure: the program over a relation file, and a PostgreSQL with the same rows."""
import contextlib
import glob
import os
import shutil
import socket
import struct
import subprocess
import tempfile

HERE = os.path.dirname(os.path.abspath(__file__))
PROGRAM = os.path.join(HERE, "..", "crates", "server", "out", "server")
ROSTERS = os.path.join(HERE, "..", "data", "rosters")


def free_port():
    with socket.socket() as probe:
        probe.bind(("127.0.0.1", 0))
        return probe.getsockname()[1]


@contextlib.contextmanager
def program(words, file=ROSTERS):
    """The program listening over a relation file: its process and its port."""
    port = free_port()
    running = subprocess.Popen([*words, "listen", "tcp", str(port), file], stdin=subprocess.DEVNULL, stdout=subprocess.PIPE)
    try:
        told = running.stdout.readline()
        if not told.startswith(b"listening"):
            raise SystemExit(f"{words[0]} doesn't listen")
        yield running, port
    finally:
        running.kill()
        running.wait()


def relations(file=ROSTERS):
    """Each relation of a relation file: its name, its columns and its rows."""
    with open(file, encoding="utf-8") as text:
        for part in text.read().strip("\n").split("\n\n"):
            header, *rows = (line.split("\t") for line in part.split("\n"))
            yield header[0], header[2:], rows


def tables():
    """The statements that make tables of these relations."""
    for name, columns, rows in relations():
        yield "CREATE TABLE {} ({});".format(name, ", ".join(f'"{column}" interval' for column in columns))
        for row in rows:
            yield "INSERT INTO {} VALUES ({});".format(name, ", ".join(f"'{cell}'" for cell in row))
    yield "VACUUM ANALYZE;"


@contextlib.contextmanager
def postgres():
    """A PostgreSQL of its own, with its default settings, over tables of the same rows: its port, or None where there is none."""
    found = sorted(glob.glob("/usr/lib/postgresql/*/bin/postgres"))
    binary = os.path.dirname(found[-1]) if found else os.path.dirname(shutil.which("postgres") or "")
    if not binary:
        yield None
        return
    # PostgreSQL refuses to run as root.
    apart = ["runuser", "-u", "postgres", "--"] if os.geteuid() == 0 else []
    folder = tempfile.mkdtemp(prefix="turns-")
    if apart:
        shutil.chown(folder, "postgres")
    quiet = {"stdout": subprocess.DEVNULL, "stderr": subprocess.DEVNULL, "cwd": folder}
    subprocess.run([*apart, f"{binary}/initdb", "-A", "trust", "-U", "demo", f"{folder}/data"], check=True, **quiet)
    port = free_port()
    options = f"-c listen_addresses=127.0.0.1 -c port={port} -c unix_socket_directories={folder}"
    control = [*apart, f"{binary}/pg_ctl", "-w", "-D", f"{folder}/data"]
    subprocess.run([*control, "-o", options, "-l", f"{folder}/log", "start"], check=True, **quiet)
    try:
        ask = ["psql", "-X", "-q", "-h", "127.0.0.1", "-p", str(port), "-U", "demo", "postgres"]
        subprocess.run(ask, input="\n".join(tables()), text=True, check=True)
        yield port
    finally:
        subprocess.run([*control, "-m", "fast", "stop"], **quiet)
        shutil.rmtree(folder, ignore_errors=True)


def status_of(pid, name):
    """A number of /proc/PID/status: VmRSS in kB, Threads, .."""
    with open(f"/proc/{pid}/status", encoding="utf-8") as lines:
        return next(int(line.split()[1]) for line in lines if line.startswith(name + ":"))


class Connection:
    """A client of raw frames."""

    def __init__(self, port):
        self.socket = socket.create_connection(("127.0.0.1", port))
        self.socket.sendall(struct.pack(">II", 19, 3 << 16) + b"user\0demo\0\0")
        self.until_ready()

    def until_ready(self):
        """The bytes up to the end of a ReadyForQuery, which are all that has come."""
        got = b""
        while got[-6:-1] != b"Z\0\0\0\5":
            more = self.socket.recv(65536)
            if not more:
                raise SystemExit("the server ended the connection")
            got += more
        return got

    def send(self, text, times=1):
        """Sends a simple query so many times at once."""
        self.socket.sendall((b"Q" + struct.pack(">I", len(text) + 5) + text.encode() + b"\0") * times)

    def query(self, text, times=1):
        """Sends a simple query so many times, all but the first at once, and reads all replies."""
        self.send(text)
        length = len(self.until_ready())
        left = length * (times - 1)
        self.send(text, times - 1)
        while left:
            left -= len(self.socket.recv(min(left, 1 << 20)))
