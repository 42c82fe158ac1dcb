"""What the scripts of make try share: how a finding is told, and a program run on the bytes that its input is given in pieces."""
import socket
import subprocess
import sys
import threading
import zlib

# A packet has to fit into a program's read.
LEAST_READ = 1_024
failures = []


def tell(good, line):
    """Prints a finding, and remembers a bad one."""
    print(("ok    " if good else "WRONG ") + line, flush=True)
    if not good:
        failures.append(line)
    return good


def end():
    """Ends the script: with status 1 where a finding was bad."""
    sys.exit(1 if failures else 0)


def sum_of(data):
    """The number of the bytes and a checksum."""
    return f"{len(data):,} bytes of sum {zlib.crc32(data):08x}"


def pieces(data, sizes):
    """The bytes in pieces of these sizes, over and over."""
    at, turn = 0, 0
    while at < len(data):
        size = sizes[turn % len(sizes)]
        yield data[at:at + size]
        at, turn = at + size, turn + 1


def run(words, given=b"", sizes=(1 << 20,), seconds=300):
    """The status, the output and the errors of a program whose input comes in pieces. Small pieces come as packets, each of which is
    a read of its own; larger ones by a pipe."""
    theirs, ours = socket.socketpair(socket.AF_UNIX, socket.SOCK_SEQPACKET) if max(sizes) <= LEAST_READ else (None, None)
    stdin = theirs or subprocess.PIPE
    with subprocess.Popen(words, stdin=stdin, stdout=subprocess.PIPE, stderr=subprocess.PIPE, bufsize=0) as process:
        if theirs:
            theirs.close()
        timer = threading.Timer(seconds, process.kill)
        timer.start()
        said = []
        reading = threading.Thread(target=lambda: said.append(process.stderr.read()))
        giving = threading.Thread(target=give, args=(ours.makefile("wb", 0) if ours else process.stdin, ours, given, sizes))
        for thread in (reading, giving):
            thread.start()
        out = b"".join(iter(lambda: process.stdout.read(1 << 20), b""))
        for thread in (reading, giving):
            thread.join()
        status = process.wait()
        timer.cancel()
    return status, out, said[0].decode(errors="replace")


def give(stream, packets, given, sizes):
    """Writes all pieces and closes; a program that has ended takes no more."""
    try:
        for piece in pieces(given, sizes):
            while piece:
                piece = piece[stream.write(piece):]
    except BrokenPipeError:
        pass
    try:
        stream.close()
        if packets:
            packets.close()
    except BrokenPipeError:
        pass
