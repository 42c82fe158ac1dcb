#!/usr/bin/env python3
"""Prints the rows of crates/conversation_rows on pages of many chunks, with the lengths of the writes.

The lengths are computed from the layouts of the protocol's messages and the printed texts (tools/print_intervals.py);
they share nothing with the program. What waits is sent where 65,536 bytes or more wait behind a message, and at the end
of a read, in pieces of 65,536 bytes and a shorter last one.
Usage: chunk_rows.py
"""

import print_intervals

CHUNK = 65536
GREETING = 131
READY = 6
PARSED = BOUND = 5
LONG = (2147483647, 2147483647, 9223372036854775807)


def data_row(cells):
    """Byte1 `D`, Int32 length, Int16 count, and each cell behind its Int32 length."""
    return 1 + 4 + 2 + sum(4 + cell for cell in cells)


def complete(tag):
    """Byte1 `C`, Int32 length, String tag."""
    return 1 + 4 + len(tag) + 1


def error(code, message):
    """Byte1 `E`, Int32 length, the severity twice, the code and the message, each behind a byte, and a zero byte."""
    return 1 + 4 + sum(1 + len(text) + 1 for text in ("ERROR", "ERROR", code, message)) + 1


def text(interval):
    return print_intervals.postgres(interval)


def pieces(waiting):
    """The writes of so many bytes that wait."""
    return [CHUNK] * (waiting // CHUNK) + ([waiting % CHUNK] if waiting % CHUNK else [])


def writes(numbers):
    return "writes " + " ".join(str(number) for number in numbers)


def query(name, relation, replies, lengths, before=(), reads="messages"):
    """A row of one query of a relation, read message by message or at once."""
    lines = ["row a long page: " + name, *relation, "use started", "client Parse | | %s |" % relation[0].split()[1]]
    lines += ["reply ParseComplete", "client Bind | | | | |%s" % (" 1" if before else ""), "reply BindComplete"]
    lines += ["client Execute | | 0", "call start", *replies, "use ended"]
    if reads == "messages":
        lines.append("reads messages")
        lengths = [GREETING, PARSED, BOUND] + lengths
    return "\n".join(lines + [writes(lengths + [READY])])


def binary_page():
    page = 5000 * data_row([16]) + complete("SELECT 5000")
    lengths = pieces(GREETING + PARSED + BOUND + page)
    replies = ["reply 5000 DataRow | hex 0000000000000000 00000001 00000000", "reply CommandComplete | SELECT 5000"]
    relation = ["relation shifts 0 span", "rows 5000 0 1 0"]
    return query("5,000 rows", relation, replies, lengths, before=True, reads="at once")


def text_page(name, counts):
    """A page of so many rows of one day, and of two days."""
    total = sum(counts)
    page = sum(n * data_row([len(text((0, day, 0)))]) for day, n in enumerate(counts, 1)) + complete("SELECT %d" % total)
    relation, replies = ["relation many 0 span"], []
    for day, n in enumerate(counts, 1):
        relation.append("rows %d 0 %d 0" % (n, day))
        replies.append("reply %d DataRow | %s" % (n, text((0, day, 0))))
    replies.append("reply CommandComplete | SELECT %d" % total)
    return query(name, relation, replies, pieces(page))


def broad_page():
    cell = text(LONG)
    page = 2 * data_row([len(cell)] * 1600) + complete("SELECT 2")
    relation = ["relation broad 0 " + " ".join("c%d" % n for n in range(1600))]
    relation.append("rows 2 " + " | ".join(["%d %d %d" % LONG] * 1600))
    replies = ["reply 2 DataRow | " + " | ".join([cell] * 1600), "reply CommandComplete | SELECT 2"]
    return query("rows of 1,600 columns", relation, replies, pieces(page))


def taken_back():
    """What waits ends twenty bytes or less before a chunk's end, and a row goes over it, before an error."""
    columns = 1 + 4 + 2 + 2 * (len("name") + 1 + 18)
    described = 1 + 4 + 2 + columns
    count = (CHUNK - PARSED - BOUND) // described
    waiting = PARSED + count * described + BOUND
    assert waiting < CHUNK < waiting + data_row([len("a"), len("1 day")])
    parameters = "74 00000006 0000"
    fields = "54 %08x 0002" % (columns - 1)
    for name, oid, size in ((b"name", 25, 0xFFFF), (b"span", 1186, 16)):
        fields += " %s00 00000000 0000 %08x %04x ffffffff 0000" % (name.hex(), oid, size)
    lines = ["row a long page: an error item behind a chunk's end", "handlers sample", "use started"]
    lines += ["client Parse | | broken |", "reply ParseComplete", "client %d Describe | S |" % count]
    lines += ["reply %d hex %s %s" % (count, parameters, fields), "client Bind | | | | |", "reply BindComplete"]
    lines += ["client Execute | | 0", "call start"]
    lines += ["reply ErrorResponse | S ERROR | V ERROR | C 22012 | M division by zero", "use ended", "reads 19"]
    lengths = [GREETING] + pieces(waiting + error("22012", "division by zero")) + [READY]
    return "\n".join(lines + [writes(lengths)])


def broken_long_page():
    """A page of six chunks and more is taken back at an error item, behind what waits; the portal goes on behind the error."""
    lines = ["row a long page: an error item in its middle", "handlers sample", "use started"]
    lines += ["client Parse | | long |", "reply ParseComplete", "client Bind | p | | | |", "reply BindComplete"]
    lines += ["client Execute | p | 0", "call start"]
    lines += ["reply ErrorResponse | S ERROR | V ERROR | C 22012 | M division by zero", "use synced"]
    lines += ["client Execute | p | 0", "reply DataRow | b | null", "reply CommandComplete | SELECT 1", "use ended"]
    waiting = GREETING + PARSED + BOUND + error("22012", "division by zero") + READY
    waiting += data_row([len("b"), 0]) + complete("SELECT 1") + READY
    return "\n".join(lines + [writes([waiting])])


def main():
    rows = [
        binary_page(),
        text_page("exactly a chunk", (4079, 15)),
        text_page("a row ends with its chunk", (5000,)),
        taken_back(),
        broken_long_page(),
        broad_page(),
    ]
    print("\n\n".join(rows))


if __name__ == "__main__":
    main()
