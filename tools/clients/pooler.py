"""A pgbouncer before a server, for the scripts that try it."""
import os
import pathlib
import shutil
import socket
import struct
import subprocess
import tempfile
import time

NOBODY = 65534
# What spares the server queries of pgbouncer's own.
WANTED = {"auth_type": "any", "server_reset_query": "", "server_check_query": ";", "server_check_delay": "0"}


def free_port():
    with socket.socket() as s:
        s.bind(("127.0.0.1", 0))
        return s.getsockname()[1]


class Pooler:
    """A pgbouncer with one connection to the server, and these words of its configuration."""

    def __init__(self, host, port, database, **words):
        self.port, self.database = free_port(), database
        self.folder = pathlib.Path(tempfile.mkdtemp())
        places = {"listen_addr": "127.0.0.1", "listen_port": self.port, "unix_socket_dir": "", "logfile": self.folder / "log"}
        words = {**places, "default_pool_size": 1, **words}
        top = f"[databases]\n{database} = host={host} port={port} dbname={database} user=demo\n[pgbouncer]\n"
        (self.folder / "ini").write_text(top + "".join(f"{name} = {value}\n" for name, value in words.items()))
        if os.getuid() == 0:
            shutil.chown(self.folder, NOBODY)
        user = ["-u", "nobody"] if os.getuid() == 0 else []
        self.process = subprocess.Popen(["pgbouncer", "-q", *user, str(self.folder / "ini")], stderr=subprocess.DEVNULL)
        while self.process.poll() is None and socket.socket().connect_ex(("127.0.0.1", self.port)) != 0:
            time.sleep(0.1)

    def end(self):
        self.process.terminate()
        self.process.wait()
        shutil.rmtree(self.folder)

    def psql(self, *queries):
        words = ["psql", "-X", "-A", "-t", "-h", "127.0.0.1", "-p", str(self.port), "-U", "demo", "-d", self.database]
        return subprocess.Popen(words + [word for query in queries for word in ("-c", query)], stdout=-1, stderr=-2, text=True)

    def connections(self):
        return (self.folder / "log").read_text().count("new connection to server")

    def styled(self):
        """What comes to a client that names a style of intervals as it connects."""
        packet = struct.pack("!i", 196608) + f"user\0demo\0database\0{self.database}\0IntervalStyle\0iso_8601\0\0".encode()
        with socket.create_connection(("127.0.0.1", self.port)) as s:
            s.sendall(struct.pack("!i", len(packet) + 4) + packet)
            return s.makefile("rb").read()[5:].decode().strip("\0").split("\0")
