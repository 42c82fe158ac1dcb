#!/usr/bin/env python3
"""Runs the examples of README.md, docs/*.md and each program's --help, and compares what they print with what stands there.

usage: check_examples.py [PAGE..], as: check_examples.py README.md rota_report

In a block of a page that is indented or fenced, a line that begins with `$ ` is a command, and the lines behind it, up to the next
one or the block's end, are what it prints. `..` alone stands for any lines. A command that ends in ` &` goes on behind it, and is
ended behind the page; its lines are the first that it prints. Each line under `Examples:` of --help is run.

What an example of --help prints is compared too: with the lines behind the same command on a page, or else with those of
tools/help_examples.txt, which are written down by hand from data/rosters.

The commands of a page run in one folder, in which data/, tools/ and the rest of the repository are found, and `client`, the bytes of
tools/demo_client.hex. The programs' names and `crates/NAME/out/NAME` stand for the programs, proved or not, `python3` for the
system's own where that has the modules that examples import, and ports from 5433 to 5439 for free ones. It prints `N passed, M failed`;
its status is 1 where one failed.
"""
import os
import pathlib
import re
import shutil
import signal
import socket
import subprocess
import sys
import tempfile
import time

from programs import NAMES, OVER_HANDLERS, TOP, program
from show_frames import read_client
from try_all import MODULES, PYTHON, is_installed

PROGRAMS = {**NAMES, **{name: name for name in OVER_HANDLERS}}
SECONDS = 120
# Commands that not each machine has.
WANTED = ("psql", "pgbench", "xxd")


class Example:
    """A command, the lines that it prints, where it stands, and those that stand before it in its block."""

    def __init__(self, place, command, lines, before=()):
        self.place, self.command, self.lines, self.before = place, command, lines, before

    def goes_on(self):
        return self.command.endswith(" &")

    def needs(self):
        """The commands and the modules of Python that not each machine has."""
        return [word for word in WANTED if re.search(rf"(^|[\s|(]){word}\b", self.command)] + [
            word for word in MODULES if re.search(rf"\bimport {word}\b", self.command)]

    def lacks(self):
        """What it needs, or one before it in its block does, and isn't installed."""
        return next((word for one in (*self.before, self) for word in one.needs() if not is_installed(word)), None)


def blocks(text):
    """The lines of each block, with their numbers and without their indent."""
    block, fence = [], None
    for number, line in enumerate(text.split("\n") + [""], 1):
        if line.startswith("```"):
            yield block
            block, fence = [], None if fence else "```"
        elif fence:
            block.append((number, line))
        elif line.startswith("    "):
            block.append((number, line[4:]))
        elif not line.strip() and block:
            block.append((number, ""))
        else:
            yield block
            block = []
    yield block


def examples_of_page(name):
    """The examples of a page, or of a file as one."""
    found = []
    for block in blocks((TOP / name).read_text()):
        begun = len(found)
        for number, line in block:
            if line.startswith("$ "):
                found.append(Example(f"{name}:{number}", line[2:].rstrip(), [], found[begun:]))
            elif found[begun:]:
                found[-1].lines.append(line.rstrip())
    for one in found:
        while one.lines and not one.lines[-1]:
            one.lines.pop()
    return found


def examples_of_help(name, path, known):
    """The examples that a program tells of itself, with the lines that are known of their commands."""
    told = subprocess.run([path, "--help"], stdin=subprocess.DEVNULL, capture_output=True, text=True, check=False).stdout
    _, _, behind = told.partition("\nExamples:\n")
    commands = [line.strip() for line in behind.partition("\n\n")[0].split("\n") if line.strip()]
    if unknown := [command for command in commands if command not in known]:
        sys.exit(f"{name} --help: no page tells what this prints, and tools/help_examples.txt doesn't: {unknown[0]}")
    return [Example(f"{name} --help", command, known[command]) for command in commands]


def free_ports(count):
    """So many ports that are free."""
    taken = [socket.create_server(("127.0.0.1", 0)) for _ in range(count)]
    ports = [str(one.getsockname()[1]) for one in taken]
    for one in taken:
        one.close()
    return ports


class Page:
    """A folder in which the examples of a page run."""

    def __init__(self, paths):
        self.folder, self.running, self.paths = pathlib.Path(tempfile.mkdtemp()), [], paths
        self.ports = dict(zip(map(str, range(5433, 5440)), free_ports(7)))
        for entry in TOP.iterdir():
            if not entry.name.startswith("."):
                (self.folder / entry.name).symlink_to(entry)
        (self.folder / "client").write_bytes(read_client(str(TOP / "tools/demo_client.hex")))
        self.commands = pathlib.Path(tempfile.mkdtemp())
        for crate, name in PROGRAMS.items():
            (self.commands / name).symlink_to(paths[crate])
        if all(map(is_installed, MODULES)):
            (self.commands / "python3").symlink_to(PYTHON)
        # make serve listens at the free port too, where its line names none.
        self.environment = {**os.environ, "LC_ALL": "C", "PSQLRC": "/dev/null", "PGCONNECT_TIMEOUT": "30",
                            "PATH": f"{self.commands}:{os.environ['PATH']}", "MAKEFLAGS": f"s -- PORT={self.ports['5433']}"}

    def placed(self, text):
        """The text with free ports, and with the programs where they stand."""
        text = re.sub(r"\b543[3-9]\b", lambda found: self.ports[found[0]], text)
        return re.sub(r"\bcrates/(\w+)/out/(\w+)", lambda found: str(self.paths.get(found[1], found[0])), text)

    def run(self, example):
        """The lines that it prints, and its status."""
        command = self.placed(example.command)
        out = tempfile.TemporaryFile("w+b")
        words = ["bash", "-c", "exec " * example.goes_on() + command.removesuffix(" &")]
        child = subprocess.Popen(words, cwd=self.folder, env=self.environment, stdin=subprocess.DEVNULL, stdout=out, stderr=out,
                                 start_new_session=True)
        self.running.append(child)
        wanted = max(1, len(example.lines))
        end = time.monotonic() + SECONDS
        while child.poll() is None and time.monotonic() < end:
            if example.goes_on() and os.pread(out.fileno(), 1 << 20, 0).count(b"\n") >= wanted:
                break
            time.sleep(0.02)
        told = os.pread(out.fileno(), 1 << 26, 0).decode(errors="replace")
        for port, free in self.ports.items():
            told = re.sub(rf"\b{free}\b", port, told)
        lines = [line.rstrip() for line in told.rstrip("\n").split("\n")] if told.strip() else []
        return lines, 0 if example.goes_on() else child.poll()

    def end(self):
        """Ends what still runs, and takes the folder away."""
        for child in self.running:
            if child.poll() is None:
                os.killpg(child.pid, signal.SIGTERM)
                child.wait()
        shutil.rmtree(self.folder)
        shutil.rmtree(self.commands)


def are_as(lines, wanted):
    """Whether the lines are those that are wanted, where `..` is any."""
    pattern = "".join("(?:.*\n)*?" if line == ".." else re.escape(line) + "\n" for line in wanted)
    return re.fullmatch(pattern, "".join(line + "\n" for line in lines)) is not None


def tried(page, example):
    """Whether an example does as its page says."""
    lines, status = page.run(example)
    if status is None:
        print(f"{example.place}: {example.command}\n  didn't end within {SECONDS} seconds")
    elif example.place.endswith("--help") and status != 0:
        print(f"{example.place}: {example.command}\n  status {status}: {' '.join(lines[:3])}")
    elif not are_as(lines[:len(example.lines)] if example.goes_on() else lines, example.lines):
        print(f"{example.place}: {example.command}\n  printed:\n" + "\n".join(f"    {line}" for line in lines[:40]))
    else:
        return True
    return False


def main():
    paths = {crate: program(crate) for crate in PROGRAMS}
    pages = {name: examples_of_page(name) for name in ["README.md", *sorted(str(p.relative_to(TOP)) for p in TOP.glob("docs/*.md"))]}
    told = [*examples_of_page("tools/help_examples.txt"), *(one for examples in pages.values() for one in reversed(examples))]
    known = {one.command: one.lines for one in told}
    pages |= {name: examples_of_help(name, paths[crate], known) for crate, name in PROGRAMS.items()}
    unknown = [name for name in sys.argv[1:] if name not in pages]
    if unknown:
        sys.exit(f"there is no page {unknown[0]}: a page is README.md, docs/NAME.md or a program's name")
    passed = failed = 0
    for name, examples in pages.items():
        if not examples or sys.argv[1:] and name not in sys.argv[1:]:
            continue
        page = Page(paths)
        try:
            for example in examples:
                if lacking := example.lacks():
                    print(f"skipped {example.place}: {lacking} is not installed")
                elif tried(page, example):
                    passed += 1
                else:
                    failed += 1
        finally:
            page.end()
    print(f"{passed} passed, {failed} failed")
    return 1 if failed else 0


if __name__ == "__main__":
    sys.exit(main())
