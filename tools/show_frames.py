#!/usr/bin/env python3
"""Shows a conversation: usage: show_frames.py CLIENT PROGRAM [WORD..]

CLIENT is a file of client bytes, or of lines of hexadecimal digits, each with words behind two spaces, where its name
ends with .hex. PROGRAM is run on it with the words, and the frames of both sides are printed, a line
each: the message's name, its length in bytes, its bytes in hexadecimal, and what some of them say. The status is
PROGRAM's, and what PROGRAM writes as errors is shown where that isn't 0.
"""
import subprocess
import sys

CLIENT = {"Q": "Query", "P": "Parse", "B": "Bind", "D": "Describe", "E": "Execute", "C": "Close", "H": "Flush",
          "S": "Sync", "X": "Terminate", "d": "CopyData", "c": "CopyDone", "f": "CopyFail"}
SERVER = {"R": "AuthenticationOk", "S": "ParameterStatus", "K": "BackendKeyData", "Z": "ReadyForQuery",
          "1": "ParseComplete", "2": "BindComplete", "3": "CloseComplete", "n": "NoData", "s": "PortalSuspended",
          "I": "EmptyQueryResponse", "t": "ParameterDescription", "T": "RowDescription", "D": "DataRow",
          "C": "CommandComplete", "E": "ErrorResponse", "G": "CopyInResponse", "H": "CopyOutResponse",
          "W": "CopyBothResponse", "d": "CopyData", "c": "CopyDone"}
BEFORE_STARTUP = {80877103: "SSLRequest", 80877104: "GSSENCRequest", 80877102: "CancelRequest"}


def client_frames(data):
    """Yields each whole frame of a client with its name, and the rest, if there is one."""
    at, starting = 0, True
    while at < len(data):
        head = 4 if starting else 5
        size = int.from_bytes(data[at + head - 4:at + head], "big") + head - 4
        if len(data) - at < head or size < head or len(data) - at < size:
            yield "(rest)", data[at:]
            return
        name = CLIENT.get(chr(data[at]), "?")
        if starting:
            name = BEFORE_STARTUP.get(int.from_bytes(data[at + 4:at + 8], "big"), "Startup")
            starting = name in ("SSLRequest", "GSSENCRequest")
        yield name, data[at:at + size]
        at += size


def server_frames(data):
    """Yields each whole reply with its name, and the rest, if there is one."""
    at = 0
    while at < len(data):
        if data[at:at + 1] == b"N":
            yield "encryption refused", data[at:at + 1]
            at += 1
            continue
        size = int.from_bytes(data[at + 1:at + 5], "big") + 1
        if len(data) - at < 5 or size < 5 or len(data) - at < size:
            yield "(rest)", data[at:]
            return
        yield SERVER.get(chr(data[at]), "?"), data[at:at + size]
        at += size


def cells_of(body):
    """The cells of a DataRow: sixteen bytes that are no text as an interval's three numbers, any other as text."""
    at, cells = 2, []
    while at < len(body):
        size = int.from_bytes(body[at:at + 4], "big", signed=True)
        cell = body[at + 4:at + 4 + max(size, 0)]
        if size == 16 and not cell.decode("latin-1").isprintable():
            number = [int.from_bytes(part, "big", signed=True) for part in (cell[12:], cell[8:12], cell[:8])]
            cells.append("{} months {} days {} microseconds".format(*number))
        else:
            cells.append("null" if size < 0 else cell.decode("utf-8", "replace"))
        at += 4 + max(size, 0)
    return " | ".join(cells)


def columns_of(body):
    """The columns of a RowDescription: the name of each, its type and its format."""
    at, columns = 2, []
    while at < len(body):
        end = body.index(b"\0", at)
        kind = int.from_bytes(body[end + 7:end + 11], "big")
        form = int.from_bytes(body[end + 17:end + 19], "big")
        columns.append(f"{body[at:end].decode()} type {kind} {'binary' if form == 1 else 'text'}")
        at = end + 19
    return columns


def meaning_of(name, frame):
    """What a frame says beside its name."""
    body = frame[5:]
    if name == "DataRow":
        return cells_of(body)
    if name == "BackendKeyData":
        return f"pid {int.from_bytes(body[:4], 'big', signed=True)} key {body[4:].hex()}"
    if name == "RowDescription":
        return " | ".join(columns_of(body))
    if name in ("Startup", "Parse", "Query", "ParameterStatus", "CommandComplete", "ErrorResponse", "ReadyForQuery"):
        texts = (body[3:] if name == "Startup" else body).split(b"\0")
        return " ".join(text.decode() for text in texts if text and text.isascii() and text.decode().isprintable())
    return ""


def show(title, data, frames):
    print(f"{title}: {len(data)} bytes")
    for name, frame in frames(data):
        print(f"  {name:16} {len(frame):3}  {frame.hex()}  {meaning_of(name, frame)}".rstrip())


def read_client(name):
    """The client's bytes: the file's, or those that its lines tell, where it is one of digits."""
    with open(name, "rb") as file:
        data = file.read()
    if not name.endswith(".hex"):
        return data
    lines = data.decode().splitlines()
    return bytes.fromhex("".join(line.split("  ")[0] for line in lines if not line.startswith("#")))


def main():
    client = read_client(sys.argv[1])
    done = subprocess.run(sys.argv[2:], input=client, capture_output=True)
    if done.returncode != 0:
        sys.stderr.write(done.stderr.decode("utf-8", "replace"))
    show("client", client, client_frames)
    show("server", done.stdout, server_frames)
    print(f"status {done.returncode}")
    return done.returncode


if __name__ == "__main__":
    sys.exit(main())
