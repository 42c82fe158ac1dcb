#!/usr/bin/env python3
"""Tells where a program stands: the proved one where it was built and is up to date, else one that is built unproved and kept.

usage: programs.py CRATE           prints the path, and builds the program first where it has to
       programs.py --proved CRATE  the same, but only of a proved program: status 1 where there is none that is up to date
       programs.py --build CRATE.. proves and builds these crates' programs
       programs.py --note CRATE..  notes that the programs of these crates were proved and built as their sources stand
       programs.py --names         a line for each program of a repository's user: its crate and its name

What is built stands in .built/, under the checksum of what it is made of: the sources of its crate and of all below, their
lines of crates.txt, and the kit's own line. So it is built once, and again where one of these has changed. With UNPROVED=1 in the
environment no program counts as proved.
"""
import fcntl
import hashlib
import os
import pathlib
import shutil
import subprocess
import sys

TOP = pathlib.Path(__file__).resolve().parent.parent
BUILT = TOP / ".built"
# The programs that are installed, by the names that they tell of themselves.
NAMES = {"server": "relation_server", "cursor": "pg_cursor", "replay": "pg_replay", "rota": "rota_report"}
# The programs over handlers, which are not installed.
OVER_HANDLERS = ["styles_server", "waiting_server", "schedule_server"]
NO_KIT = 'No rt on the PATH: it comes with a Rattle kit (README.md, "What is needed")'


def stop(line):
    """Ends with this line alone."""
    print(line, file=sys.stderr, flush=True)
    sys.exit(1)


def kit():
    """The kit's folder."""
    found = shutil.which("rt")
    if not found:
        stop(NO_KIT)
    return pathlib.Path(os.path.realpath(found)).parent.parent


def lines_of_crates():
    """Each crate's line of crates.txt, and the libraries that it stands on."""
    found = {}
    for line in (TOP / "crates.txt").read_text().split("\n"):
        head, colon, libraries = line.partition(":")
        if colon and not line.startswith("#"):
            found[head.split()[0]] = (line, libraries.split())
    return found


def with_all_below(crate):
    """The crate and all of this repository that it stands on."""
    lines, found, todo = lines_of_crates(), set(), [crate]
    if crate not in lines:
        stop(f"crates.txt has no crate {crate}")
    while todo:
        name = todo.pop()
        if name in lines and name not in found:
            found.add(name)
            todo += lines[name][1]
    return sorted(found)


def sources(crate, parts):
    """The files that the crate is made of."""
    folders = [TOP / "crates" / name / part for name in with_all_below(crate) for part in parts]
    return sorted(path for folder in folders if folder.is_dir() for path in folder.rglob("*") if path.is_file())


def checksum(crate, parts):
    """A sum of the sources, their lines of crates.txt, the kit's own line and the tool that builds unproved."""
    told, lines = hashlib.sha256(), lines_of_crates()
    for name in with_all_below(crate):
        told.update(lines[name][0].encode() + b"\n")
    told.update((kit() / "KIT-ID").read_bytes())
    for path in [*sources(crate, parts), TOP / "tools/build_unproved"]:
        told.update(f"{path.relative_to(TOP)}\0".encode() + hashlib.sha256(path.read_bytes()).digest())
    return told.hexdigest()[:24]


PROVED = ("src", "specs", "proofs")
UNPROVED = ("src", "specs")


def note_of(crate):
    """What is noted of a program that was proved: the sum of its sources, and of itself."""
    program = TOP / "crates" / crate / "out" / crate
    return f"{checksum(crate, PROVED)} {hashlib.sha256(program.read_bytes()).hexdigest()}\n"


def note(crate):
    """Notes that the program was proved and built as its sources stand."""
    BUILT.mkdir(exist_ok=True)
    (BUILT / f"{crate}.proved").write_text(note_of(crate))


def build(crate):
    """Proves and builds the program, and shows what the check said only where it fails."""
    before = checksum(crate, PROVED)
    done = subprocess.run([kit() / "bin/rt", "run", "--", "--version"], cwd=TOP / "crates" / crate, stdin=subprocess.DEVNULL,
                          stdout=subprocess.PIPE, stderr=subprocess.STDOUT, text=True, check=False)
    if done.returncode:
        sys.stderr.write(done.stdout)
        stop(f"crates/{crate} is not proved")
    if checksum(crate, PROVED) == before:
        note(crate)


def proved(crate):
    """The proved program, where it was built and is up to date: as it was noted, or later than each of its sources."""
    program, noted = TOP / "crates" / crate / "out" / crate, BUILT / f"{crate}.proved"
    if os.environ.get("UNPROVED") or not os.access(program, os.X_OK):
        return None
    if noted.is_file():
        return program if noted.read_text() == note_of(crate) else None
    newest = max(path.stat().st_mtime_ns for path in [*sources(crate, PROVED), TOP / "crates.txt"])
    return program if program.stat().st_mtime_ns > newest else None


def unproved(crate, line=None):
    """The program as it is built unproved, and kept. The line is told before it is built."""
    kept = BUILT / f"{crate}-{checksum(crate, UNPROVED)}"
    if kept.exists():
        return kept
    BUILT.mkdir(exist_ok=True)
    with open(BUILT / f"{crate}.lock", "w", encoding="utf-8") as lock:
        fcntl.flock(lock, fcntl.LOCK_EX)
        if not kept.exists():
            print(line or line_of(crate), file=sys.stderr, flush=True)
            made = BUILT / f"{crate}.making"
            told = subprocess.run([TOP / "tools/build_unproved", crate, made], check=False)
            if told.returncode or not made.exists():
                stop(f"crates/{crate} could not be built: rt try in that folder tells why")
            for old in BUILT.glob(f"{crate}-*"):
                old.unlink()
            made.rename(kept)
    return kept


def line_of(crate):
    """What is said before a program is built unproved."""
    if crate == "server":
        return "Building the program unproved, about a minute; make build proves it"
    return f"Building {NAMES.get(crate, crate)} unproved, about a minute; make build NAMES={crate} proves it"


def program(crate):
    """The proved program where it is up to date, else the unproved one."""
    return proved(crate) or unproved(crate)


def main():
    words = sys.argv[1:]
    if words == ["--names"]:
        print("".join(f"{crate} {name}\n" for crate, name in NAMES.items()), end="")
    elif words[:1] == ["--note"]:
        for crate in words[1:]:
            note(crate)
    elif words[:1] == ["--build"]:
        for crate in words[1:]:
            build(crate)
    elif words[:1] == ["--proved"] and len(words) == 2:
        found = proved(words[1])
        if not found:
            sys.exit(1)
        print(found)
    elif len(words) == 1 and not words[0].startswith("-"):
        print(program(words[0]))
    else:
        stop("usage: programs.py CRATE, --proved CRATE, --build CRATE.., --note CRATE.., --names")


if __name__ == "__main__":
    main()
