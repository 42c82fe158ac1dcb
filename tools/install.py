#!/usr/bin/env python3
"""Installs the programs, or removes them: usage: install.py PREFIX [--remove]

They stand in PREFIX/bin, below $DESTDIR where that is given, under the names that they tell of themselves. Each is the proved
program where that was built and is up to date, and else one that is built unproved, and its line says which.
"""
import os
import pathlib
import shutil
import sys

from programs import NAMES, proved, stop, unproved


def folder_of(prefix):
    """Where the programs stand."""
    if not prefix:
        stop("PREFIX is empty: make install PREFIX=~/.local installs into ~/.local/bin")
    prefix = os.path.abspath(os.path.expanduser(prefix))
    return pathlib.Path(os.environ.get("DESTDIR", "") + prefix) / "bin"


def install(folder):
    """Copies each program to its place."""
    for crate, name in NAMES.items():
        found = proved(crate)
        how = "proved" if found else f"built unproved; make build NAMES={crate} proves it"
        found = found or unproved(crate, f"Building {name} unproved, about a minute; make build NAMES={crate} proves it")
        new = folder / f".{name}.new"
        try:
            folder.mkdir(parents=True, exist_ok=True)
            shutil.copyfile(found, new)
            new.chmod(0o755)
            new.rename(folder / name)
        except OSError as why:
            stop(f"{folder / name}: {why.strerror[:1].lower() + why.strerror[1:]}")
        print(f"{folder / name} ({how})", flush=True)


def remove(folder):
    """Removes each program that is there."""
    there = [folder / name for name in NAMES.values() if (folder / name).is_file()]
    for path in there:
        try:
            path.unlink()
        except OSError as why:
            stop(f"{path}: {why.strerror[:1].lower() + why.strerror[1:]}")
        print(f"{path} is removed")
    if not there:
        print(f"{folder} has none of {', '.join(NAMES.values())}")


def main():
    folder = folder_of(sys.argv[1])
    remove(folder) if "--remove" in sys.argv[2:] else install(folder)


if __name__ == "__main__":
    main()
