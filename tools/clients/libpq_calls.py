"""Calls of PostgreSQL's own client library, which psql, pgbench and most drivers stand on, by ctypes."""
import ctypes
import time

LIBRARY = ctypes.CDLL("libpq.so.5")
EMPTY, COMMAND_OK, ROWS, FATAL, PIPELINE_SYNC, ABORTED = 0, 1, 2, 7, 10, 11
TEXT, BINARY = 0, 1

for name, result, *arguments in [
    ("PQconnectdb", "p", "s"), ("PQstatus", "i", "p"), ("PQfinish", "v", "p"), ("PQerrorMessage", "s", "p"), ("PQsocket", "i", "p"),
    ("PQexec", "p", "p", "s"), ("PQprepare", "p", "p", "s", "s", "i", "p"),
    ("PQexecPrepared", "p", "p", "s", "i", "p", "p", "p", "i"), ("PQdescribePrepared", "p", "p", "s"), ("PQclear", "v", "p"),
    ("PQsendQuery", "i", "p", "s"), ("PQsendQueryParams", "i", "p", "s", "i", "p", "p", "p", "p", "i"), ("PQgetResult", "p", "p"),
    ("PQconsumeInput", "i", "p"), ("PQisBusy", "i", "p"), ("PQenterPipelineMode", "i", "p"), ("PQpipelineSync", "i", "p"),
    ("PQexitPipelineMode", "i", "p"), ("PQresultStatus", "i", "p"), ("PQcmdStatus", "s", "p"), ("PQntuples", "i", "p"),
    ("PQnfields", "i", "p"), ("PQgetvalue", "s", "p", "i", "i"), ("PQfname", "s", "p", "i"), ("PQftype", "i", "p", "i"),
    ("PQnparams", "i", "p"), ("PQparamtype", "i", "p", "i"), ("PQresultErrorField", "s", "p", "i"), ("PQbackendPID", "i", "p"),
    ("PQparameterStatus", "s", "p", "s"), ("PQgetCancel", "p", "p"), ("PQcancel", "i", "p", "s", "i"), ("PQfreeCancel", "v", "p"),
]:
    kinds = {"p": ctypes.c_void_p, "s": ctypes.c_char_p, "i": ctypes.c_int, "v": None}
    call = getattr(LIBRARY, name)
    call.restype, call.argtypes = kinds[result], [kinds[kind] for kind in arguments]


def array(kind, values):
    return (kind * len(values))(*values) if values else None


def told(result):
    """What a result is, in a line."""
    if not result:
        return "no result"
    status = LIBRARY.PQresultStatus(result)
    if status == FATAL:
        code, message = (LIBRARY.PQresultErrorField(result, ord(field)) for field in "CM")
        line = f"{(code or b'no code').decode()} {(message or b'').decode()}"
    elif status == ROWS:
        rows = range(LIBRARY.PQntuples(result))
        columns = range(LIBRARY.PQnfields(result))
        line = " ".join("|".join(LIBRARY.PQgetvalue(result, row, column).decode() for column in columns) for row in rows)
        line = f"{LIBRARY.PQcmdStatus(result).decode()}: {line}"
    elif status == COMMAND_OK:
        line = LIBRARY.PQcmdStatus(result).decode() or "ok"
    else:
        line = {EMPTY: "an empty query", PIPELINE_SYNC: "synced", ABORTED: "aborted"}.get(status, f"status {status}")
    LIBRARY.PQclear(result)
    return line


class Connection:
    """A connection to the server at a host and a port."""

    def __init__(self, host, port):
        self.it = LIBRARY.PQconnectdb(f"host={host} port={port} user=demo dbname=demo connect_timeout=60".encode())
        if LIBRARY.PQstatus(self.it):
            raise SystemExit(LIBRARY.PQerrorMessage(self.it).decode())

    def query(self, text):
        """A simple query."""
        return told(LIBRARY.PQexec(self.it, text.encode()))

    def extended(self, text, values=(), formats=(), results=TEXT, types=()):
        """Parse, Bind, Describe, Execute and Sync, with values of these formats. The first result is told: behind an error that ends the
        connection there is another one, that it ended."""
        LIBRARY.PQsendQueryParams(self.it, text.encode(), len(values), *self.given(types, values, formats), results)
        return self.answer()

    @staticmethod
    def given(types, values, formats):
        lengths = [len(value or b"") for value in values]
        return (array(ctypes.c_uint, types), array(ctypes.c_char_p, values), array(ctypes.c_int, lengths), array(ctypes.c_int, formats))

    def prepare(self, name, text):
        return told(LIBRARY.PQprepare(self.it, name.encode(), text.encode(), 0, None))

    def prepared(self, name, values, formats=()):
        return told(LIBRARY.PQexecPrepared(self.it, name.encode(), len(values), *self.given((), values, formats)[1:], TEXT))

    def described(self, name):
        """The types of a prepared statement's parameters, and its columns."""
        result = LIBRARY.PQdescribePrepared(self.it, name.encode())
        types = [LIBRARY.PQparamtype(result, index) for index in range(LIBRARY.PQnparams(result))]
        columns = range(LIBRARY.PQnfields(result))
        names = [f"{LIBRARY.PQfname(result, column).decode()} of {LIBRARY.PQftype(result, column)}" for column in columns]
        LIBRARY.PQclear(result)
        return f"parameters {types}, columns {', '.join(names) or 'none'}"

    def pipeline(self, texts):
        """What each of these queries is answered, which are sent in a pipeline before any is read, and the Sync behind them."""
        LIBRARY.PQenterPipelineMode(self.it)
        for text in texts:
            LIBRARY.PQsendQueryParams(self.it, text.encode(), 0, None, None, None, None, TEXT)
        LIBRARY.PQpipelineSync(self.it)
        lines = []
        for _ in texts:
            lines.append(told(LIBRARY.PQgetResult(self.it)))
            LIBRARY.PQgetResult(self.it)
        lines.append(told(LIBRARY.PQgetResult(self.it)))
        LIBRARY.PQexitPipelineMode(self.it)
        return lines

    def begin(self, text):
        """Sends a simple query, and reads nothing."""
        LIBRARY.PQsendQuery(self.it, text.encode())

    def is_waiting(self, seconds):
        """Whether no answer comes within some seconds."""
        end = time.monotonic() + seconds
        while time.monotonic() < end:
            LIBRARY.PQconsumeInput(self.it)
            if not LIBRARY.PQisBusy(self.it):
                return False
            time.sleep(0.01)
        return True

    def answer(self):
        """What a query that was begun is answered."""
        line = told(LIBRARY.PQgetResult(self.it))
        while LIBRARY.PQgetResult(self.it):
            pass
        return line

    def cancel(self):
        """Cancels by the connection's own key, over a connection of its own, and tells whether the server took that."""
        handle = LIBRARY.PQgetCancel(self.it)
        why = ctypes.create_string_buffer(256)
        is_taken = LIBRARY.PQcancel(handle, why, len(why))
        LIBRARY.PQfreeCancel(handle)
        return "sent" if is_taken else why.value.decode()

    def close(self):
        LIBRARY.PQfinish(self.it)
