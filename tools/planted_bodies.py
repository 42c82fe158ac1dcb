#!/usr/bin/env python3
"""Tries the wrong bodies that no clause refuses, which stand under a crate's planted/, and records what refused each.

usage: planted_bodies.py [--list] [CRATE[/BODY]..], with no name for all crates that have planted bodies, CRATE/BODY for one body of a
crate; --list tells what is left to try

A planted body is an edit with a line more that names what has to refuse it: a table program, the tests of a crate, or a script
(tools/edits.py tells the form). Each is tried in a copy of what is committed, where all is built unproved. First what has to refuse it is
run without the body, and has to pass: once for each. Then the body is planted, and it has to fail. A body with which nothing can be built
fails itself, since nobody refused it.

tools/planted_bodies.tsv is the record, a line for each body that was refused: its crate, its name, the checksum of what it was tried on,
and what refused it; and for each run that passed without a body, whose crate is `-`. The checksum is of the body, and of src/ and specs/ of
the crates that were run and of all below, their lines of crates.txt, the kit's own line, and the rows or the script. So a body is tried
again where one of these has changed, and else not. It is recorded as soon as it is done. The last line is `N passed, M failed`, of the
bodies that were tried; the status is 1 where one wasn't refused.
"""
import functools
import hashlib
import os
import pathlib
import re
import shutil
import signal
import subprocess
import sys
import tempfile
import threading

from edits import changed, refusers
from programs import BUILT, NAMES, OVER_HANDLERS, TOP, UNPROVED, checksum, lines_of_crates, stop, with_all_below
from quick import compared, kit_without_prover, stored, words_of

RECORD = TOP / "tools/planted_bodies.tsv"
HEAD = "# crate\tbody\tchecksum of what it was tried on\twhat refused it (python3 tools/planted_bodies.py)\n"
# How many seconds a program or a script may take, and a test.
SECONDS, OF_A_TEST = 1800, 300
TOLD = ("ok ", "WRONG ")


class NotBuilt(Exception):
    """Something can't be built."""


def bodies_of(crate):
    return sorted((TOP / "crates" / crate / "planted").glob("*.edit"))


def refuser_of(body):
    found = refusers(body)
    if len(found) != 1 or found[0].problem():
        stop(f"{body.relative_to(TOP)}: {found[0].problem() if len(found) == 1 else 'it names nothing, or more than one, by refused by:'}")
    return found[0]


# The checksums, and the record.

@functools.lru_cache(maxsize=None)
def sum_of_sources(crate):
    return checksum(crate, UNPROVED)


def crates_run(refuser):
    """The crates whose programs or tests are run: those that a script is told, or else all that are installed or serve handlers."""
    if refuser.kind in ("rows", "tests"):
        return [refuser.name]
    crates = {name: crate for crate, name in NAMES.items()}
    named = [crates.get(word, word) for word in refuser.words]
    return [crate for crate in named if crate in lines_of_crates()] or [*NAMES, *OVER_HANDLERS]


def sum_of(refuser, body=None):
    """A sum of what a body is tried on: of the crates that are run, those that it stands below."""
    told, crates = hashlib.sha256(), crates_run(refuser)
    if body:
        told.update(body.read_bytes())
        own = body.parent.parent.name
        crates = [crate for crate in crates if own in with_all_below(crate)] or [own]
    for crate in crates:
        told.update(sum_of_sources(crate).encode())
        if refuser.kind == "rows":
            files = ["stdin", "stdout", "args", "status", *(f"data/{path.name}" for path in sorted((TOP / "crates" / crate / "data").glob("*")))]
            told.update(b"\0".join(stored(crate, file) for file in files))
    if refuser.kind in ("script", "bench"):
        told.update(refuser.script().read_bytes())
    return told.hexdigest()[:16]


def recorded():
    """What is recorded: of each crate and body the checksum and what refused it."""
    if not RECORD.is_file():
        return {}
    rows = [line.split("\t", 3) for line in RECORD.read_text().split("\n") if line and not line.startswith("#")]
    return {(crate, body): (told, why) for crate, body, told, why in rows}


def record(crate, body, told, why):
    """Stores what came of one, beside what is recorded meanwhile; None takes it out. What isn't there any more goes."""
    found = {**recorded(), (crate, body): (told, why)}
    bodies = [body for crate in lines_of_crates() for body in bodies_of(crate)]
    there = {(body.parent.parent.name, body.stem) for body in bodies} | {("-", refuser.text) for body in bodies for refuser in refusers(body)}
    rows = ["\t".join((*key, *found[key])) for key in sorted(found) if key in there and found[key][1]]
    RECORD.write_text(HEAD + "".join(row + "\n" for row in rows))


# What is run, in the copy.

def built(copy, crate):
    """The program of a crate, built unproved."""
    words = [sys.executable, "-B", copy / "tools/programs.py", crate]
    done = subprocess.run(words, cwd=copy, capture_output=True, text=True, check=False)
    if done.returncode:
        raise NotBuilt(done.stderr.strip()[-2000:])
    return done.stdout.strip()


def rows(copy, refuser):
    """Why a table program's run isn't the one that is stored, if it isn't."""
    program = built(copy, refuser.name)
    with tempfile.TemporaryDirectory() as room:
        for path in (copy / "crates" / refuser.name / "data").glob("*"):
            shutil.copy(path, room)
        given = stored(refuser.name, "stdin")
        try:
            done = subprocess.run([program, *words_of(refuser.name)], cwd=room, input=given, capture_output=True, timeout=SECONDS, check=False)
        except subprocess.TimeoutExpired:
            return f"no end within {SECONDS} seconds"
        why = compared(refuser.name, done)
        return why and why.split("\n  and not")[0].strip()


def tests(copy, refuser):
    """Which tests of a crate fail, if some do."""
    with tempfile.TemporaryDirectory() as room:
        words = [kit_without_prover(room), "try", "--test", "--seconds", str(OF_A_TEST)]
        done = subprocess.run(words, cwd=copy / "crates" / refuser.name, stdin=subprocess.DEVNULL, capture_output=True, text=True,
                              errors="replace", check=False)
    if not re.search(r"\d+ passed; \d+ failed", done.stdout + done.stderr):
        raise NotBuilt((done.stdout + done.stderr).strip()[-2000:])
    names = re.findall(r"^test (?:\w+::)*(\w+) \.\.\. (?!ok\b)", done.stdout, re.M)
    return None if done.returncode == 0 else f"test {', '.join(names)}" if names else f"status {done.returncode}"


def said(copy, refuser, room, awaited=None):
    """What a script says, line by line, and its status: None where it came to no end. It is ended where it tells the awaited words to be
    wrong."""
    script = copy / refuser.script().relative_to(TOP)
    programs = [built(copy, crate) for crate in refuser.words] if refuser.kind == "bench" else refuser.words
    lines, is_late = [], threading.Event()
    with subprocess.Popen([script, *programs], cwd=copy, stdin=subprocess.DEVNULL, stdout=subprocess.PIPE, stderr=subprocess.STDOUT, text=True,
                          errors="replace", start_new_session=True, env={**os.environ, "TMPDIR": room}) as process:
        timer = threading.Timer(SECONDS, lambda: (is_late.set(), os.killpg(process.pid, signal.SIGKILL)))
        timer.start()
        for line in process.stdout:
            lines.append(line.rstrip("\n"))
            if awaited and line.startswith("WRONG") and awaited in line:
                os.killpg(process.pid, signal.SIGKILL)
        status = process.wait()
        timer.cancel()
    if any("could not be built" in line for line in lines):
        raise NotBuilt("\n".join(lines)[-2000:])
    return lines, None if is_late.is_set() else status


def refusal(refuser, lines, status):
    """Why a script refuses, if it does."""
    if not refuser.line:
        return f"no end within {SECONDS} seconds" if status is None else None
    found = [line for line in lines if refuser.line in line]
    if any(line.startswith(TOLD) for line in lines):
        return next((line for line in found if line.startswith("WRONG")), None)
    return found[0] if found and status else None


def is_passed(refuser, lines, status):
    """Whether a script passes, as far as the line says that is looked at."""
    if refuser.line and any(line.startswith(TOLD) for line in lines):
        found = [line for line in lines if refuser.line in line and line.startswith(TOLD)]
        return bool(found) and all(line.startswith("ok ") for line in found)
    return status == 0


class Copy:
    """A copy of what is committed, in which bodies are planted, and what was run there without one."""

    def __init__(self, room):
        self.room, self.top, self.told = room, pathlib.Path(room) / "copy", {}
        subprocess.run(["git", "clone", "-q", TOP, self.top], check=True)

    def link(self, source, target):
        """Gives one folder what is built in another, under its checksum."""
        target.mkdir(exist_ok=True)
        for path in source.glob("*-" + "[0-9a-f]" * 24):
            if not (target / path.name).exists():
                try:
                    os.link(path, target / path.name)
                except OSError:     # (another file system)
                    shutil.copy2(path, target / path.name)

    def why_unsound(self, refuser):
        """What is wrong where no body is planted, if something is."""
        self.link(BUILT, self.top / ".built")
        if refuser.run not in self.told:
            try:
                self.told[refuser.run] = self.run(refuser)
            except NotBuilt as why:
                self.told[refuser.run] = f"not built: {why}"
            self.link(self.top / ".built", BUILT)
        told = self.told[refuser.run]
        if told is None or isinstance(told, str):
            return told
        return None if is_passed(refuser, *told) else f"status {told[1]}, {next((line for line in told[0] if refuser.line in line), 'no such line')}"

    def run(self, refuser, awaited=None):
        """What rows and tests find wrong, or what a script says."""
        if refuser.kind in ("rows", "tests"):
            return {"rows": rows, "tests": tests}[refuser.kind](self.top, refuser)
        return said(self.top, refuser, self.room, awaited)

    def refused(self, body, refuser):
        """What refuses a body, if something does."""
        self.link(BUILT, self.top / ".built")
        texts, why = changed(body, self.top)
        if why:
            raise NotBuilt(why)
        for path, text in texts.items():
            path.write_text(text)
        try:
            told = self.run(refuser, refuser.line)
        finally:
            subprocess.run(["git", "checkout", "-q", "--", "crates"], cwd=self.top, check=True)
        return told if refuser.kind in ("rows", "tests") else refusal(refuser, *told)


def tried(copy, body, refuser):
    """Tries a body and records it: whether it was refused."""
    crate, told, base = body.parent.parent.name, sum_of(refuser, body), sum_of(refuser)
    if recorded().get(("-", refuser.text), ("",))[0] != base:
        why = copy.why_unsound(refuser)
        if why:
            print(f"{crate}/{body.stem}: NOT TRIED: {refuser.text} doesn't pass without it: {why}", flush=True)
            return False
        record("-", refuser.text, base, "passes without a body")
    try:
        why = copy.refused(body, refuser)
        outcome = f"refused by {refuser.run}: {why}" if why else f"NOT REFUSED by {refuser.text}"
    except NotBuilt as unbuilt:
        why, outcome = None, f"BAD BODY: {unbuilt}"
    record(crate, body.stem, told, re.sub(r"\s+", " ", why) if why else None)
    print(f"{crate}/{body.stem}: {outcome}", flush=True)
    return bool(why)


def wanted(names):
    """The bodies that are meant."""
    found = {crate: bodies_of(crate) for crate in lines_of_crates() if bodies_of(crate)}
    for name in names:
        crate, slash, body = name.partition("/")
        if crate not in found or slash and body not in [path.stem for path in found[crate]]:
            stop(f"{name} is planted nowhere" if slash else f"{name} has no planted bodies")
    return [body for crate, bodies in found.items() for body in bodies if not names or {crate, f"{crate}/{body.stem}"} & set(names)]


def main():
    os.environ["UNPROVED"] = "1"
    left, known = [], recorded()
    for body in wanted([word for word in sys.argv[1:] if word != "--list"]):
        refuser = refuser_of(body)
        if known.get((body.parent.parent.name, body.stem), ("",))[0] != sum_of(refuser, body):
            left.append((body, refuser))
    if "--list" in sys.argv:
        for body, refuser in left:
            print(f"{body.parent.parent.name}/{body.stem}: {refuser.text}")
        return 0
    stands = subprocess.run(["git", "status", "--porcelain", "crates", "crates.txt", "tools", "bench", ":!tools/*.tsv"], cwd=TOP,
                            capture_output=True, check=True).stdout
    if stands:
        stop("crates/, tools/ or bench/ have changes that aren't committed: bodies are tried on what is committed")
    # (bodies of one run stand together, so that its programs are built once)
    left.sort(key=lambda pair: (pair[1].kind, pair[1].run, pair[0]))
    with tempfile.TemporaryDirectory() as room:
        copy = Copy(room) if left else None
        good = [tried(copy, body, refuser) for body, refuser in left]
    print(f"{sum(good)} passed, {len(good) - sum(good)} failed")
    return 0 if all(good) else 1


if __name__ == "__main__":
    sys.exit(main())
