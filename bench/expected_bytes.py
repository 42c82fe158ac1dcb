"""The bytes that crates/interval_bench must count: the same intervals, printed by the rules of docs/FORMATS.md, apart from the program.

usage: expected_bytes.py COUNT"""
import sys

MASK = 2**64 - 1


def numbers(state):
    while True:
        state = (state + 0x9E3779B97F4A7C15) & MASK
        z = state
        z = ((z ^ (z >> 30)) * 0xBF58476D1CE4E5B9) & MASK
        z = ((z ^ (z >> 27)) * 0x94D049BB133111EB) & MASK
        yield z ^ (z >> 31)


def signed(n):
    return n - 2**64 if n >= 2**63 else n


def small(draw):
    return [next(draw) % 2001 - 1000, next(draw) % 2001 - 1000, next(draw) % (2**31 + 1) - 2**30]


def any_size(draw):
    fields = []
    for width in (32, 32, 64):
        shift = next(draw) % width
        fields.append((signed(next(draw)) >> (64 - width)) >> shift)
    return fields


def fields_of(months, days, microseconds):
    m, u = abs(months), abs(microseconds)
    a = -1 if months < 0 else 1
    b = -1 if microseconds < 0 else 1
    return (a * (m // 12), a * (m % 12), days, b * (u // 3600000000), b * (u // 60000000 % 60),
            b * (u // 1000000 % 60), b * (u % 1000000), -1 if microseconds < 0 else 1)


def postgres(i):
    y, m, d, h, n, s, u, sign = fields_of(*i)
    parts = [f"{v} {w}{'' if v == 1 else 's'}" for v, w in ((y, "year"), (m, "mon"), (d, "day")) if v]
    if h or n or s or u:
        parts.append(("-" if sign < 0 else "") + f"{abs(h):02}:{abs(n):02}:{abs(s):02}" + (f".{abs(u):06}" if u else ""))
    return " ".join(parts) or "00:00:00"


def verbose(i):
    y, m, d, h, n, s, u, sign = fields_of(*i)
    parts = [(v, str(abs(v)), w) for v, w in ((y, "year"), (m, "mon"), (d, "day"), (h, "hour"), (n, "min")) if v]
    if s or u:
        parts.append((sign, str(abs(s)) + (f".{abs(u):06}".rstrip("0") if u else ""), "sec"))
    if not parts:
        return "@ 0"
    ago = parts[0][0] < 0
    text = "@"
    for v, digits, word in parts:
        number = ("-" if (v < 0) != ago else "") + digits
        text += f" {number} {word}{'' if number == '1' else 's'}"
    return text + (" ago" if ago else "")


def iso(i):
    y, m, d, h, n, s, u, sign = fields_of(*i)
    text = "P" + "".join(f"{v}{w}" for v, w in ((y, "Y"), (m, "M"), (d, "D")) if v)
    if h or n or s or u:
        text += "T" + "".join(f"{v}{w}" for v, w in ((h, "H"), (n, "M")) if v)
        if s or u:
            text += ("-" if sign < 0 else "") + str(abs(s)) + (f".{abs(u):06}" if u else "") + "S"
    return text if text != "P" else "PT0S"


def sql(i):
    y, m, d, h, n, s, u, sign = fields_of(*i)
    time = f"{abs(h)}:{abs(n):02}:{abs(s):02}" + (f".{abs(u):06}" if u else "")
    minus = lambda negative: "-" if negative else ""
    either = lambda negative: "-" if negative else "+"
    clock = i[2] != 0
    if i == [0, 0, 0]:
        return "0"
    if not d and not clock:
        return f"{minus(i[0] < 0)}{abs(y)}-{abs(m)}"
    if i[0] == 0 and not (d * i[2] < 0):
        return f"{minus(d < 0)}{abs(d)} {time}" if d else minus(i[2] < 0) + time
    return f"{either(i[0] < 0)}{abs(y)}-{abs(m)} {either(d < 0)}{abs(d)} {either(i[2] < 0)}{time}"


PRINTERS = {"postgres": postgres, "postgres_verbose": verbose, "iso_8601": iso, "sql_standard": sql}


def drawn(count, interval=small):
    """As many intervals from the seed."""
    draw = numbers(2026)
    return [interval(draw) for _ in range(count)]


def main():
    for size, interval in (("small", small), ("any size", any_size)):
        for name, text_of in PRINTERS.items():
            total = sum(len(text_of(i)) for i in drawn(int(sys.argv[1]), interval))
            print(f"{size}, {name}: {total}, {total}")


if __name__ == "__main__":
    main()
