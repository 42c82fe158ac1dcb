"""Reads edits: the files under a crate's must-fail/, held/ and planted/ that change its code.

An edit has a line `file:`, and then lines `old:` and `new:` in turn. A planted body has one line `refused by:` more:

    refused by: rows CRATE                       the program of a crate writes something else than what is stored beside it
    refused by: tests CRATE                      a test of a crate fails, or comes to no end
    refused by: script NAME [WORD..]: WORDS      a script of tools/ tells a line with WORDS to be wrong
    refused by: script NAME [WORD..]             a script of tools/ comes to no end
    refused by: bench NAME CRATE..: WORDS        a script of bench/, which is given the programs of these crates, does so
"""
import re

from sources import TOP

ENDINGS = ("", ".py", ".sh")


class Refuser:
    """What has to refuse a planted body: its kind, the crate or the script, the words behind that, and the words of the line."""

    def __init__(self, text):
        self.text = text
        head, _, self.line = (part.strip() for part in text.partition(": "))
        self.kind, *rest = head.split()
        self.name, *self.words = rest or [""]

    @property
    def run(self):
        """What is run, whichever line is looked at."""
        return " ".join([self.kind, self.name, *self.words])

    def script(self):
        """The script's file, or None where there is none."""
        folder = TOP / {"script": "tools", "bench": "bench"}[self.kind]
        return next((path for ending in ENDINGS if (path := folder / f"{self.name}{ending}").is_file()), None)

    def problem(self):
        """Why nothing can be run so, if that is so."""
        folder = TOP / "crates" / self.name
        if self.kind == "rows" and not self.words and not self.line:
            return None if (folder / "src/main.rt").is_file() and (folder / "stdout").is_file() else f"{self.name} is no program with a stored run"
        if self.kind == "tests" and not self.words and not self.line:
            return None if any("#[test]" in path.read_text() for path in folder.rglob("src/**/*.rt")) else f"{self.name} has no tests"
        if self.kind not in ("script", "bench") or self.kind == "bench" and not (self.words and self.line):
            return f"nothing can be run by: {self.text}"
        if not self.script():
            return f"there is no script {self.name}"
        return None if self.line in self.script().read_text() else f"{self.script().name} tells no line with: {self.line}"


def refusers(path):
    """What the lines of an edit name that has to refuse it."""
    return [Refuser(text) for text in re.findall(r"^refused by: (.*)$", path.read_text(), re.M)]


def changed(path, top=TOP):
    """The files that an edit changes below a repository's folder, as it makes them; and why it can't be applied, if it can't: its pairs of
    `old:` and `new:` are taken in turn, in the file named before each, and each `old:` has to stand exactly once."""
    crate = top / path.parent.parent.relative_to(TOP)
    lines = re.findall("^(file|old|new):(?: (.*)|$)", path.read_text(), re.M)
    texts, file, old = {}, None, None
    for word, text in lines:
        if word == "file":
            file = crate / text.strip()
            if not file.is_file():
                return {}, f"there is no {text.strip()}"
            texts.setdefault(file, file.read_text())
        elif file is None or (word == "new") != (old is not None):
            return {}, "a line file: stands first, and then lines old: and new: in turn"
        elif word == "old":
            old = text
            if texts[file].count(old) != 1:
                return {}, f"in {file.name} there stands {texts[file].count(old)} times and not once: {old}"
        else:
            texts[file], old = texts[file].replace(old, text), None
    return texts, "it has no pair of lines old: and new:" if old is not None or not texts or len(lines) < 3 else None
