#!/usr/bin/env python3
"""Writes the rows of the programs that tell rotas, that record and verify sessions, and that serve cursors, crates/command_rows/stdin.

    python3 -B tools/command_rows.py > crates/command_rows/stdin

The rows of each program stand in a file of their own: tools/rota_program_rows.py, tools/replay_program_rows.py and
tools/cursor_program_rows.py.
"""
import cursor_program_rows
import replay_program_rows
import rota_program_rows

HEAD = """\
# A row: its name | the program | the words | the relation file | the read of it that fails | the bytes of the input | the read of
# them that fails | the write that fails | the answer. Made by tools/command_rows.py. The program is "rota", which tells rotas and
# reads no input, "replay", which records and verifies sessions, or "cursor", which serves cursors. Words are split by spaces, "~" is a space within one, and "-" is
# no word. In the file \\t, \\n and \\r are these bytes, and \\x is the byte 255; "HEAD*N TEXT" is HEAD, and then TEXT N times. The
# input is hexadecimal digits; a word "N*DIGITS" stands for its bytes N times. Reads and writes are counted from 0. "N:K" is a write
# that fails after K bytes, "K" the first one, and "-" is no failure. So a row whose failure is that of a call which is never made
# tells how many calls there are. The answer is the status, then "out" and what was written, then "err" and the line of errors,
# where there are any. What was written stands in hexadecimal digits where a zero byte is in it; over 10,000 bytes are told by their
# number and their sum.
"""


def main():
    print(HEAD)
    print("# ---- rotas")
    rota_program_rows.print_rows()
    print("\n# ---- sessions recorded and verified")
    replay_program_rows.print_rows()
    print("\n# ---- cursors served")
    cursor_program_rows.print_rows()


if __name__ == "__main__":
    main()
