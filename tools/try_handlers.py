#!/usr/bin/env python3
"""Follows docs/HANDLERS.md from top to bottom on a copy of the repository, and compares what its commands print with what it shows.

usage: try_handlers.py [FOLDER]          the copy is made in FOLDER, where there is one, and stays
       try_handlers.py --check FOLDER    makes in FOLDER the copy with the change that the page proves, and proves it by rt check

The page is the source. Of the headings that tools/handler_steps/steps names it takes each indented block: a line that begins with one
of COMMANDS is a command, and the lines behind it, up to the next one, are what it prints; any other block is code. The steps say where
the code of each block goes, so a block that has no step, or a step that has no block, is a failure. The headings of one line `build:`
are built together, unproved, and then their commands are run. Those of the line `proof:` are applied to a copy of their own, which
--check proves: that takes some 45 processor minutes for the crates below where nothing of them was kept.

It tells each command that printed something else. Its last line is `N passed, M failed`; the status is 1 where one failed.
"""
import os
import pathlib
import re
import shutil
import signal
import socket
import subprocess
import sys
import tempfile
import textwrap
import time

from check_examples import are_as, free_ports
from programs import TOP, stop

PAGE = "docs/HANDLERS.md"
STEPS = TOP / "tools/handler_steps/steps"
COMMANDS = ("make ", "psql ", "pgbench ", "printf ", "timeout ", "cp ", "git apply ")
# Of these, what is run before a build, and what builds and serves.
CHANGES = ("make handler ", "cp ", "git apply ")
SERVE = "make serve "
# How long a command may take, and a build.
SECONDS = 60
BUILD_SECONDS = 1800


class Failure(Exception):
    """What keeps the page from being followed."""


def sections(text):
    """The indented blocks below each heading, by the heading."""
    found, heading, block = {}, "", []
    for line in [*text.split("\n"), "#"]:
        if line.startswith("    ") or not line and block:
            block.append(line[4:])
            continue
        if block:
            found.setdefault(heading, []).append("\n".join(block).strip("\n"))
            block = []
        if line.startswith("#"):
            heading = line.lstrip("# ")
    return found


def is_command(line):
    return line.startswith(COMMANDS)


def is_code(block):
    return not is_command(block.split("\n")[0])


def commands_of(block):
    """The commands of a block, each with the lines that it prints."""
    found = []
    for line in block.split("\n"):
        if is_command(line):
            found.append((line, []))
        else:
            found[-1][1].append(line.rstrip())
    for _, lines in found:
        while lines and not lines[-1]:
            lines.pop()
        while lines and not lines[0]:
            lines.pop(0)
    return found


class Step:
    """Where the code of a block goes: how, into which file, and at which text of it."""

    def __init__(self, head, body):
        self.heading, number = head.rsplit(", block ", 1)
        self.number = int(number)
        self.how, self.file, self.text = re.fullmatch(r"(behind|in place of|whole|part of) (\S+)\n?(.*)", body, re.S).groups()

    def apply(self, top, code):
        """Applies it to the copy, and fails where the file has not the text that it names, or has it twice."""
        path, where = top / self.file, f"{self.heading}, block {self.number}: {self.file}"
        if self.how == "whole":
            path.write_text(code + "\n")
            return
        old, text = path.read_text(), self.text.strip("\n")
        if self.how == "part of":
            if not is_within(code, old):
                raise Failure(f"{where} has not the code that the page shows")
            return
        found = re.findall(re.escape(text).replace(re.escape("\n..\n"), "\n(?:.*\n)*?"), old)
        if len(found) != 1:
            raise Failure(f"{where} has {len(found)} times:\n{text}")
        if self.how == "behind":
            path.write_text(old.replace(found[0], f"{found[0]}\n{aligned(code, text.split(chr(10))[-1])}"))
        else:
            path.write_text(old.replace(found[0], aligned(code, text)))


def aligned(code, text):
    """The code, indented so that it begins where the text does."""
    wide, narrow = (len(one) - len(one.lstrip(" ")) for one in (text, code))
    return "\n".join(" " * (wide - narrow) + line if wide > narrow and line else line[max(narrow - wide, 0):] for line in code.split("\n"))


def is_within(code, text):
    """Whether the code stands in the text word for word, however far both are indented."""
    lines, wanted = text.split("\n"), textwrap.dedent(code).split("\n")
    return any(textwrap.dedent("\n".join(lines[at:at + len(wanted)])).split("\n") == wanted for at in range(len(lines)))


def steps():
    """The headings of each build, those of the proof, and the steps of each heading in the order of its blocks."""
    text, found = re.sub(r"(?m)^#.*\n", "", STEPS.read_text()), {}
    builds = [line.split(" | ") for line in re.findall(r"(?m)^build: (.*)$", text)]
    proof = [heading for line in re.findall(r"(?m)^proof: (.*)$", text) for heading in line.split(" | ")]
    for part in re.split(r"^== ", re.sub(r"(?m)^(build|proof): .*\n", "", text), flags=re.M):
        if part.strip():
            step = Step(*part.rstrip("\n").split("\n", 1))
            found.setdefault(step.heading, []).append(step)
    return builds, proof, found


def copied(top):
    """Copies the files that are tracked, as they stand."""
    tracked = subprocess.run(["git", "ls-files", "-z"], cwd=TOP, capture_output=True, text=True, check=False).stdout.split("\0")
    made = ("out", ".built", ".git", "__pycache__")
    paths = [TOP / name for name in tracked if name] or [p for p in TOP.rglob("*") if not set(made) & set(p.parts)]
    for path in paths:
        to = top / path.relative_to(TOP)
        if path.is_file():
            to.parent.mkdir(parents=True, exist_ok=True)
            shutil.copy2(path, to, follow_symlinks=False)


class Copy:
    """The copy of the repository, and the server that runs in it."""

    def __init__(self, top):
        self.top, self.server, self.passed, self.failed = top, None, 0, 0
        self.port = free_ports(1)[0]
        self.environment = {**os.environ, "LC_ALL": "C", "PSQLRC": "/dev/null", "PGCONNECT_TIMEOUT": "30",
                            "GIT_CEILING_DIRECTORIES": str(top.parent)}
        for name in ("MAKEFLAGS", "MAKELEVEL", "NAMES", "NAME", "HANDLER", "PORT"):
            self.environment.pop(name, None)

    def words(self, command):
        return ["bash", "-c", command.replace("5434", self.port)]

    def run(self, command, seconds=SECONDS):
        """The lines that a command prints, and its status."""
        done = subprocess.run(self.words(command), cwd=self.top, env=self.environment, stdin=subprocess.DEVNULL, stdout=subprocess.PIPE,
                              stderr=subprocess.STDOUT, timeout=seconds, check=False)
        lines = [line.rstrip() for line in done.stdout.decode(errors="replace").replace(self.port, "5434").rstrip("\n").split("\n")]
        return lines if lines != [""] else [], done.returncode

    def serve(self, command):
        """Builds what stands there and serves it, once the port is listened at."""
        self.end()
        begun = time.monotonic()
        told = tempfile.TemporaryFile("w+")
        self.server = subprocess.Popen(self.words(f"exec {command}"), cwd=self.top, env=self.environment, stdin=subprocess.DEVNULL,
                                       stdout=told, stderr=told, start_new_session=True)
        while not self.is_listened():
            if self.server.poll() is not None:
                told.seek(0)
                raise Failure(f"{command}: status {self.server.returncode}\n{told.read()}")
            if time.monotonic() > begun + BUILD_SECONDS:
                raise Failure(f"{command}: nobody listens behind {BUILD_SECONDS} seconds")
            time.sleep(0.2)
        print(f"built, and served behind {time.monotonic() - begun:.0f} s", flush=True)

    def is_listened(self):
        with socket.socket() as one:
            return one.connect_ex(("127.0.0.1", int(self.port))) == 0

    def end(self):
        """Ends the server."""
        if self.server and self.server.poll() is None:
            os.killpg(self.server.pid, signal.SIGTERM)
            self.server.wait()

    def try_command(self, heading, command, wanted):
        """Runs a command, and tells what it printed where the page shows something else."""
        try:
            lines, status = self.run(command)
        except subprocess.TimeoutExpired:
            lines, status = [f"it didn't end within {SECONDS} seconds"], 1
        if are_as(lines, wanted) if wanted else status == 0:
            self.passed += 1
        else:
            self.failed += 1
            print(f"{PAGE}, {heading}: {command}\n  printed:\n" + "\n".join(f"    {line}" for line in lines[:40]), flush=True)


def changed(copy, headings, blocks, found):
    """Makes the changes of these headings, and gives the commands that they show for afterwards."""
    later = []
    for heading in headings:
        for command, wanted in [one for block in blocks[heading] if not is_code(block) for one in commands_of(block)]:
            if command.startswith(CHANGES):
                copy.try_command(heading, command, wanted)
            else:
                later.append((heading, command, wanted))
        codes = [block for block in blocks[heading] if is_code(block)]
        for step in found.get(heading, []):
            step.apply(copy.top, codes[step.number - 1])
    return later


def follow(copy, blocks, builds, found):
    """Follows the headings of each build: its changes, the build, and its commands."""
    serve = None
    for headings in builds:
        commands = changed(copy, headings, blocks, found)
        serve = next((command for _, command, _ in commands if command.startswith(SERVE)), serve)
        print(f"{' | '.join(headings)}: {serve}", flush=True)
        copy.serve(serve)
        for heading, command, wanted in commands:
            if command.startswith(SERVE):
                copy.passed += 1
            else:
                copy.try_command(heading, command, wanted)


def prove(copy, blocks, proof, found):
    """Makes the changes of the proof, and proves them."""
    changed(copy, proof, blocks, found)
    begun = time.monotonic()
    done = subprocess.run(["rt", "check"], cwd=copy.top / "crates/dates", stdin=subprocess.DEVNULL, check=False)
    print(f"rt check took {time.monotonic() - begun:.0f} s")
    copy.passed, copy.failed = (copy.passed, copy.failed + 1) if done.returncode else (copy.passed + 1, copy.failed)


def check_steps(blocks, headings, found):
    """Each block of code has one step, and each step a block."""
    for heading in headings:
        count = len([block for block in blocks.get(heading, []) if is_code(block)])
        numbers = [step.number for step in found.get(heading, [])]
        if heading not in blocks or numbers != list(range(1, count + 1)):
            raise Failure(f"{PAGE}, {heading}: {count} blocks of code, and steps for {numbers or 'none'}")
    if unknown := set(found) - set(headings):
        raise Failure(f"{STEPS.relative_to(TOP)}: no build has {', '.join(unknown)}")


def main():
    words = [word for word in sys.argv[1:] if word != "--check"]
    if len(words) > 1 or words and pathlib.Path(words[0]).exists() or "--check" in sys.argv and not words:
        stop("usage: try_handlers.py [FOLDER], try_handlers.py --check FOLDER; there is no such folder yet")
    top = pathlib.Path(words[0] if words else tempfile.mkdtemp()).resolve()
    blocks, (builds, proof, found) = sections((TOP / PAGE).read_text()), steps()
    copy = Copy(top)
    try:
        check_steps(blocks, [heading for headings in [*builds, proof] for heading in headings], found)
        copied(top)
        if "--check" in sys.argv:
            prove(copy, blocks, proof, found)
        else:
            follow(copy, blocks, builds, found)
            copy.end()
            with tempfile.TemporaryDirectory() as other:
                copied(pathlib.Path(other))
                copy.top = pathlib.Path(other)
                changed(copy, proof, blocks, found)
    except Failure as failure:
        print(f"failed: {failure}")
        copy.failed += 1
    finally:
        copy.end()
        if not words:
            shutil.rmtree(top)
    print(f"{copy.passed} passed, {copy.failed} failed")
    return 1 if copy.failed else 0


if __name__ == "__main__":
    sys.exit(main())
