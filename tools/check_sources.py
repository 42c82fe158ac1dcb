#!/usr/bin/env python3
"""Checks what no clause of a crate can say of its source: usage: check_sources.py

No source forgets what it holds: a value that is forgotten or leaked never gives its memory back, and that no contract tells. So no
line of a crate's src/ says `forget`, `ManuallyDrop` or a word with `leak` in it, but for comments.
It prints each line that does, and its status is then 1.
"""
import re
import sys

from sources import TOP

WORDS = re.compile(r"\b(forget|ManuallyDrop|\w*leak\w*)\b")


def found(text):
    """The lines outside of comments that say one of the words, by their numbers."""
    for number, line in enumerate(text.split("\n"), 1):
        if word := WORDS.search(line.split("//")[0]):
            yield number, word.group()


def main():
    files = sorted((TOP / "crates").glob("*/src/**/*.rt"))
    problems = [f"{path.relative_to(TOP)}:{number}: says {word}" for path in files for number, word in found(path.read_text())]
    for problem in problems:
        print(problem)
    print(f"{len(files)} sources, {len(problems)} that forget what they hold")
    return 1 if problems or not files else 0


if __name__ == "__main__":
    sys.exit(main())
